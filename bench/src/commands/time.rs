//! Times the standard chain, played by fill.

use super::{Failure, Inputs};
use model::item::{ConverterSample, Sample};
use model::player::{Play, Player};
use std::fmt;
use std::process::ExitCode;
use std::time::{Duration, Instant};

const BLOCK: usize = 4096;

pub fn time(signal: &str, gain: &str, runs: &str, settings: Option<&str>) -> Result<ExitCode, Failure> {
    let runs: u32 = runs.parse().ok().filter(|&runs| runs > 0).ok_or(Failure::Usage)?;
    let inputs = Inputs::read(signal, gain, settings)?;
    let mut player = Player::new(inputs.chain()?);
    let mut best = Duration::MAX;
    let mut sum = Sum::default();
    for _ in 0..runs {
        player.rewind();
        let start = Instant::now();
        sum = run(&mut player);
        best = best.min(start.elapsed());
    }
    let each = best.as_nanos() as f64 / sum.items.max(1) as f64;
    println!("bench: {} items, {each:.1} ns per item, sum {}", sum.items, sum.sum);
    Ok(ExitCode::SUCCESS)
}

fn run(player: &mut impl Play<Item = ConverterSample>) -> Sum {
    let mut sum = Sum::default();
    let mut block = [ConverterSample::ZERO; BLOCK];
    while let Ok(placed @ 1..) = player.fill(&mut block) {
        sum.add(&block[..placed]);
    }
    sum
}

/// Shows that the same samples came out.
#[derive(Default)]
pub struct Sum {
    items: usize,
    sum: u64,
}

impl Sum {
    pub fn of<const BITS: u32>(items: &[Sample<BITS>]) -> Self {
        let mut sum = Self::default();
        sum.add(items);
        sum
    }

    fn add<const BITS: u32>(&mut self, items: &[Sample<BITS>]) {
        for part in items.iter().flat_map(|item| [item.re(), item.im()]) {
            self.sum = self.sum.wrapping_mul(31).wrapping_add(u64::from(part as u16));
        }
        self.items += items.len();
    }
}

impl fmt::Display for Sum {
    fn fmt(&self, f: &mut fmt::Formatter) -> fmt::Result {
        write!(f, "{} items, sum {}", self.items, self.sum)
    }
}
