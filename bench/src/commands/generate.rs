//! Recordings and settings for benchmarks, the same at every run, and the sums that a run must print.

use super::time::Sum;
use super::{Failure, Inputs, make_directory, wave, write};
use model::random::Random;
use std::fmt::Write;
use std::path::Path;
use std::process::ExitCode;

pub const SAMPLES: usize = 2_000_000;
const RATE: u32 = 20_000_000;

pub fn generate(directory: &Path) -> Result<ExitCode, Failure> {
    make_directory(directory)?;
    let (signal, gain) = recordings();
    write(&directory.join("signal.wav"), signal)?;
    write(&directory.join("gain.wav"), gain)?;
    let mut sums = String::new();
    for (name, text) in settings() {
        write(&directory.join(name), text)?;
        writeln!(sums, "{name}: {}", sum(directory, name)?).expect("a string takes all");
    }
    write(&directory.join("sums.txt"), sums)?;
    Ok(ExitCode::SUCCESS)
}

/// The signal and the gain recording.
pub fn recordings() -> (Vec<u8>, Vec<u8>) {
    (wave::signal(RATE, &signal()), wave::gains(RATE, &gains()))
}

/// The settings, each with the name of its file.
pub fn settings() -> [(&'static str, String); 3] {
    [
        ("fresh.txt", "# nothing set: fresh settings\n".to_owned()),
        ("one-path.txt", everything("paths 7000 -1500 5\n")),
        ("ten-paths.txt", everything(&ten_paths())),
    ]
}

/// Number and sum of the items that the formulas give.
fn sum(directory: &Path, settings: &str) -> Result<String, Failure> {
    let file = |name: &str| directory.join(name).display().to_string();
    let inputs = Inputs::read(&file("signal.wav"), &file("gain.wav"), Some(&file(settings)))?;
    Ok(Sum::of(&inputs.whole()?.items).to_string())
}

/// A bell-shaped signal with an RMS of about 514, 12 dB below full scale.
fn signal() -> Vec<(i16, i16)> {
    let mut random = Random::new(2024);
    let mut part = || {
        let sum: i64 = (0..4).map(|_| random.between(-315, 315)).sum();
        (sum * 16) as i16
    };
    (0..SAMPLES).map(|_| (part(), part())).collect()
}

/// A gain that changes now and then, one of the first sixteen.
fn gains() -> Vec<u8> {
    let mut random = Random::new(7);
    let mut index = 0;
    (0..SAMPLES)
        .map(|_| {
            if random.once_in(500) {
                index = random.between(0, 15) as u8;
            }
            index
        })
        .collect()
}

/// Every setting away from neutral, at levels that clip only now and then.
fn everything(paths: &str) -> String {
    let mut text = String::from("scale 1631\ntx_dc 60 -45\ntx_imbalance 15416 17274 -905\namplifier_bypass 0\n");
    text += &amplifier_table();
    text += paths;
    text += "frequency 675539944106\nclock -180140382287\nclock_bypass 0\ngain 2 155\nseeds 1 12345\n";
    for index in 0..16 {
        writeln!(text, "receive_gain {index} {} {}", index / 8, 130 + 15 * (index % 8)).expect("a string takes all");
    }
    text += "lead 40\nrx_dc -300 220\nrx_imbalance 16000 16700 500\n";
    text
}

/// A soft limiter at the magnitude 6538 whose phase runs with the magnitude.
fn amplifier_table() -> String {
    const LIMIT: f64 = 6538.0;
    let amplitude = |magnitude: f64| 32768.0 * LIMIT * (magnitude / LIMIT).tanh() / magnitude;
    let mut line = String::from("amplifier_table 32767 0");
    for q in 1..=512 {
        let rounded = amplitude(f64::from(64 * q)).round().min(32767.0);
        write!(line, " {rounded} {}", q * 12).expect("a string takes all");
    }
    line + "\n"
}

/// Ten echoes within 63 samples, each weaker than the one before.
fn ten_paths() -> String {
    let paths = (0..10).map(|n| format!(" {} {} {}", 7000 >> n, (1500 >> n) * (1 - n % 2 * 2), 7 * n));
    format!("paths{}\n", paths.collect::<String>())
}
