//! The proved library against the model: random cases with every outcome counted, and the time that each takes.

mod expected;
mod library;
mod openings;
mod runs;
mod speed;
mod texts;

use super::Failure;
use library::Answer;
use model::random::Random;
use std::collections::BTreeMap;
use std::process::ExitCode;

pub use speed::speed;

/// How many cases of each kind are compared.
const OPENINGS: u64 = 60_000;
const PLAYED: u64 = 30_000;
const REPLAYED: u64 = 30_000;

/// The cases so far, by what the model answers, and those in which the library answers something else.
#[derive(Default)]
pub struct Tally {
    cases: BTreeMap<(&'static str, u32), u64>,
    differing: u64,
}

impl Tally {
    /// Counts one case; tells of the first ones that differ.
    fn count(&mut self, kind: &'static str, number: u64, expected: Answer, alike: bool, tell: impl Fn() -> String) {
        *self.cases.entry((kind, expected.status)).or_default() += 1;
        if !alike {
            self.differing += 1;
            if self.differing <= 5 {
                println!("{kind} {number} differs: {}", tell());
            }
        }
    }

    fn total(&self) -> u64 {
        self.cases.values().sum()
    }
}

/// Compares random cases from the seed on; they are the same at every run.
pub fn compare(seed: &str) -> Result<ExitCode, Failure> {
    let seed: u64 = seed.parse().map_err(|_| Failure::Usage)?;
    let mut tally = Tally::default();
    for case in 0..OPENINGS {
        openings::compare(&mut tally, case, &mut Random::new(seed.wrapping_add(case)));
    }
    for case in 0..PLAYED {
        runs::compare_played(&mut tally, case, &mut Random::new(!seed.wrapping_add(case)));
    }
    for case in 0..REPLAYED {
        runs::compare_replayed(&mut tally, case, &mut Random::new(seed.wrapping_add(case).rotate_left(32)));
    }
    for ((kind, status), count) in &tally.cases {
        println!("{count:8} {kind}, status {status}");
    }
    println!("{} cases, {} differ", tally.total(), tally.differing);
    Ok(if tally.differing == 0 { ExitCode::SUCCESS } else { ExitCode::FAILURE })
}
