//! Plays the standard chain into signal recordings.

use super::{Failure, Inputs, write};
use model::item::ConverterSample;
use model::player::{Play, Player, PlayerFault};
use model::recorder::{LONGEST, MOST_SAMPLES, Started};
use std::path::{Path, PathBuf};
use std::process::ExitCode;

pub fn play(signal: &str, gain: &str, out: &str, settings: Option<&str>) -> Result<ExitCode, Failure> {
    let inputs = Inputs::read(signal, gain, settings)?;
    let rate = inputs.signal()?.rate();
    let mut player = Player::new(inputs.chain()?);
    let mut tally = Tally::default();
    let mut block = vec![ConverterSample::ZERO; MOST_SAMPLES];
    let mut files = 0;
    let ending = loop {
        let (count, ending) = fill(&mut player, &mut block);
        if count > 0 || files == 0 {
            files += 1;
            write(&numbered(out.as_ref(), files), recording(rate, &block[..count]))?;
            tally.count(&block[..count]);
        }
        if let Some(ending) = ending {
            break ending;
        }
    };
    println!("{out}: rate {rate}, {files} file{}", if files == 1 { "" } else { "s" });
    println!("highest level {}, {} samples at the converter's limits", tally.highest, tally.limited);
    match ending {
        Ok(()) => println!("played {} samples, finished", tally.samples),
        Err(fault) => println!("played {} samples, then {fault}", tally.samples),
    }
    Ok(ending.map_or(ExitCode::FAILURE, |()| ExitCode::SUCCESS))
}

/// Fills the block; a block that is not full has met the ending.
fn fill<P: Play>(player: &mut P, block: &mut [P::Item]) -> (usize, Option<Result<(), PlayerFault>>) {
    let mut count = 0;
    while count < block.len() {
        match player.fill(&mut block[count..]) {
            Ok(0) => return (count, Some(Ok(()))),
            Ok(placed) => count += placed,
            Err(fault) => return (count, Some(Err(fault))),
        }
    }
    (count, None)
}

/// The finished recording of at most as many samples as one holds.
pub fn recording(rate: u32, samples: &[ConverterSample]) -> Vec<u8> {
    let mut buffer = vec![0; LONGEST];
    let mut started = Started::new(&mut buffer, rate).expect("the rate of an open recording");
    for &sample in samples {
        started.put(&mut buffer, sample).expect("no more samples than a recording holds");
    }
    let length = started.finish(&mut buffer).expect("the samples fit");
    buffer.truncate(length);
    buffer
}

/// The name of the n-th file: from the second on with -2, -3 .. before its ending.
fn numbered(out: &Path, n: usize) -> PathBuf {
    if n == 1 {
        return out.to_owned();
    }
    let mut name = out.file_stem().unwrap_or_default().to_owned();
    name.push(format!("-{n}"));
    if let Some(ending) = out.extension() {
        name.push(".");
        name.push(ending);
    }
    out.with_file_name(name)
}

#[derive(Default)]
struct Tally {
    samples: usize,
    highest: i64,
    limited: usize,
}

impl Tally {
    fn count(&mut self, samples: &[ConverterSample]) {
        self.samples += samples.len();
        for sample in samples {
            let parts = [sample.re(), sample.im()];
            self.highest = parts.into_iter().map(i64::abs).fold(self.highest, i64::max);
            self.limited += usize::from(parts.into_iter().any(|part| part == -2048 || part == 2047));
        }
    }
}
