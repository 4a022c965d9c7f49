//! A power amplifier without a memory: compression and phase shift that depend on the magnitude alone.

use super::Formula;
use crate::item::WorkingSample;
use crate::phasor::{Phasors, index_of_16_bits, phasors};

/// Entries of the table, for the magnitudes 0, 64, 128, .. 32768.
pub const ENTRIES: usize = 513;

#[derive(Clone, Copy, Debug, PartialEq, Eq)]
struct Entry {
    amplitude: i32,
    phase: i32,
}

/// The table of an amplifier, with its last entry twice: behind the last magnitude there is nothing to interpolate to,
/// and the formula needs no case for it.
#[derive(Clone, Debug, PartialEq, Eq)]
pub struct AmplifierTable {
    entries: Box<[Entry; ENTRIES + 1]>,
}

impl AmplifierTable {
    pub fn new(amplitudes: &[u16; ENTRIES], phases: &[i16; ENTRIES]) -> Self {
        let entry = |q: usize| Entry { amplitude: amplitudes[q].into(), phase: phases[q].into() };
        Self { entries: Box::new(std::array::from_fn(|q| entry(q.min(ENTRIES - 1)))) }
    }

    /// Amplitude and phase at a magnitude of 0 to 32768, on the straight line between two entries.
    #[inline]
    fn at(&self, magnitude: usize) -> (i64, i64) {
        let (q, r) = (magnitude / 64, (magnitude % 64) as i32);
        let (low, high) = (self.entries[q], self.entries[q + 1]);
        let between = |a: i32, b: i32| i64::from(a + (((b - a) * r) >> 6));
        (between(low.amplitude, high.amplitude), between(low.phase, high.phase))
    }
}

pub enum Amplifier {
    Bypassed,
    On { table: AmplifierTable, phasors: &'static Phasors },
}

impl Amplifier {
    pub fn on(table: AmplifierTable) -> Self {
        Self::On { table, phasors: phasors() }
    }
}

impl Formula for Amplifier {
    type In = WorkingSample;
    type Out = WorkingSample;

    #[inline]
    fn apply(&self, x: WorkingSample) -> WorkingSample {
        let Self::On { table, phasors } = self else { return x };
        let (amplitude, phase) = table.at(magnitude(x));
        let (re, im) = phasors[index_of_16_bits(phase)].turn(x.re(), x.im());
        WorkingSample::clipped((amplitude * re) >> 29, (amplitude * im) >> 29)
    }
}

/// The greatest whole number whose square is at most re² + im², but at most 32768.
#[inline]
fn magnitude(x: WorkingSample) -> usize {
    root(x.re() * x.re() + x.im() * x.im()).min(32768)
}

/// The greatest whole number whose square is at most `square`, for 0 to 2^31: there the rounded root of an `f64` never
/// reaches the next whole number.
#[inline]
fn root(square: i64) -> usize {
    (square as f64).sqrt() as usize
}

#[cfg(test)]
mod tests {
    use super::*;

    #[test]
    fn roots_are_exact_on_both_sides_of_every_square() {
        for m in 0..46341 {
            assert_eq!(root(m * m), m as usize);
            assert_eq!(root(m * m + 2 * m), m as usize);
        }
        assert_eq!(root(1 << 31), 46340);
    }
}
