//! Opening: recordings that are good, damaged or no recordings at all, as either kind.

use super::super::{cases, damaged};
use super::{Tally, expected, library};
use model::random::Random;

pub fn compare(tally: &mut Tally, case: u64, random: &mut Random) {
    let bytes = bytes(random);
    let kind = if random.once_in(50) { random.bits() as u32 } else { random.between(0, 1) as u32 };
    let (model, proved) = (expected::open(kind, &bytes), library::open(kind, &bytes));
    tally.count("opening", case, model, proved == model, || {
        format!("kind {kind}, bytes {bytes:02x?}: model {model:?}, library {proved:?}")
    });
}

fn bytes(random: &mut Random) -> Vec<u8> {
    let rate = random.between(1, 100_000_000) as u32;
    match random.between(0, 9) {
        0 | 1 => cases::random_signal(random, rate, 20),
        2 | 3 => cases::random_gains(random, rate, 20),
        4 => (0..random.between(0, 60)).map(|_| random.bits() as u8).collect(),
        5 => changed(random, rate),
        _ => damaged::damaged(random),
    }
}

/// A recording with one byte of its head changed.
fn changed(random: &mut Random, rate: u32) -> Vec<u8> {
    let mut bytes = match random.once_in(2) {
        true => cases::random_signal(random, rate, 4),
        false => cases::random_gains(random, rate, 4),
    };
    bytes[random.between(0, 43) as usize] = random.offset(0, 255) as u8;
    bytes
}
