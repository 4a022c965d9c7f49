//! Commands on the model: play, replay, check and time a run; write inputs for benchmarks; write worked piles and cases.

mod commands;

#[cfg(feature = "library")]
use commands::against;
use commands::{Failure, cases, check, generate, piles, play, replay, time};
use std::process::ExitCode;

const USAGE: &str = "usage:
  bench model play SIGNAL GAIN OUT [SETTINGS]
  bench model replay SIGNAL GAIN CALLS [SETTINGS]
  bench model check signal|gain FILE
  bench model bench SIGNAL GAIN RUNS [SETTINGS]
  bench gen DIR
  bench piles DIR
  bench cases DIR SEED COUNT
with the library linked:
  bench against SEED
  bench speed ROUNDS";

fn main() -> ExitCode {
    let arguments: Vec<String> = std::env::args().skip(1).collect();
    let words: Vec<&str> = arguments.iter().map(String::as_str).collect();
    run(&words).unwrap_or_else(|failure| {
        match failure {
            Failure::Usage => eprintln!("{USAGE}"),
            failure => eprintln!("{failure}"),
        }
        ExitCode::FAILURE
    })
}

fn run(words: &[&str]) -> Result<ExitCode, Failure> {
    match *words {
        ["model", "play", signal, gain, out] => play::play(signal, gain, out, None),
        ["model", "play", signal, gain, out, settings] => play::play(signal, gain, out, Some(settings)),
        ["model", "replay", signal, gain, calls] => replay::replay(signal, gain, calls, None),
        ["model", "replay", signal, gain, calls, settings] => replay::replay(signal, gain, calls, Some(settings)),
        ["model", "check", kind, file] => check::check(kind, file),
        ["model", "bench", signal, gain, runs] => time::time(signal, gain, runs, None),
        ["model", "bench", signal, gain, runs, settings] => time::time(signal, gain, runs, Some(settings)),
        ["gen", directory] => generate::generate(directory.as_ref()),
        ["piles", directory] => piles::write(directory.as_ref()),
        ["cases", directory, seed, count] => cases::write(directory.as_ref(), seed, count),
        #[cfg(feature = "library")]
        ["against", seed] => against::compare(seed),
        #[cfg(feature = "library")]
        ["speed", rounds] => against::speed(rounds),
        _ => Err(Failure::Usage),
    }
}
