//! Opens a recording, reads it to its end and says what it holds.

use super::{Failure, open, read};
use model::recording::{Gains, Kind, Signal};
use model::whole::Whole;
use std::process::ExitCode;

pub fn check(kind: &str, file: &str) -> Result<ExitCode, Failure> {
    match kind {
        "signal" => check_kind::<Signal>(file),
        "gain" => check_kind::<Gains>(file),
        _ => Err(Failure::Usage),
    }
}

fn check_kind<K: Kind>(file: &str) -> Result<ExitCode, Failure> {
    let bytes = read(file)?;
    let mut recording = match open::<K>(file, &bytes, 0) {
        Ok(recording) => recording,
        Err(refused) => {
            println!("{refused}");
            return Ok(ExitCode::FAILURE);
        }
    };
    let rate = recording.rate();
    let whole = Whole::of(&mut recording);
    let ending = match whole.ending {
        Ok(()) => "finished".to_owned(),
        Err(fault) => format!("then fault {} at item {}", fault.kind.number(), fault.item),
    };
    println!("{file}: {} recording, rate {rate}, {} samples, {ending}", K::NAME, whole.items.len());
    Ok(ExitCode::SUCCESS)
}
