//! The interface of a source, its faults, and the lowest sources that need no recording.

use crate::item::AirSample;
use std::fmt;

/// What `next` answers: an item, no item where the items are finished, or the fault with which they end.
pub type Next<T> = Result<Option<T>, Fault>;

/// Hands out items of one kind. At the end nothing moves: every further `next` answers the same, until `rewind`.
pub trait Source {
    type Item: Copy;
    fn next(&mut self) -> Next<Self::Item>;
    fn rewind(&mut self);
}

impl<S: Source + ?Sized> Source for Box<S> {
    type Item = S::Item;

    fn next(&mut self) -> Next<S::Item> {
        (**self).next()
    }

    fn rewind(&mut self) {
        (**self).rewind();
    }
}

/// Why the items of a recording end early.
#[derive(Clone, Copy, Debug, PartialEq, Eq)]
pub enum FaultKind {
    /// The low four bits of a sample's part are not 0.
    LowBits,
    /// A gain byte is over 127.
    GainOverRange,
}

impl FaultKind {
    pub fn number(self) -> u8 {
        match self {
            Self::LowBits => 12,
            Self::GainOverRange => 13,
        }
    }
}

/// The item that is faulty: its place in the input that has it, from 0.
#[derive(Clone, Copy, Debug, PartialEq, Eq)]
pub struct Fault {
    pub kind: FaultKind,
    pub input: u8,
    pub item: u64,
}

impl fmt::Display for Fault {
    fn fmt(&self, f: &mut fmt::Formatter) -> fmt::Result {
        write!(f, "fault {} input {} item {}", self.kind.number(), self.input, self.item)
    }
}

/// One item of any kind, handed out a number of times.
pub struct Held<T> {
    item: T,
    times: u32,
    left: u32,
}

impl<T> Held<T> {
    pub fn new(item: T, times: u32) -> Self {
        Self { item, times, left: times }
    }
}

impl<T: Copy> Source for Held<T> {
    type Item = T;

    #[inline]
    fn next(&mut self) -> Next<T> {
        if self.left == 0 {
            return Ok(None);
        }
        self.left -= 1;
        Ok(Some(self.item))
    }

    fn rewind(&mut self) {
        self.left = self.times;
    }
}

/// White noise: a number of air samples.
pub struct Noise {
    seeds: Seeds,
    length: u32,
    states: Seeds,
    left: u32,
}

/// Where the noise of each part starts. Fields are private, so that a seed of 0 reaches no noise.
#[derive(Clone, Copy, Debug, PartialEq, Eq)]
pub struct Seeds {
    re: u32,
    im: u32,
}

impl Seeds {
    /// None if a seed is 0, from which the state would never move.
    pub fn new(re: u32, im: u32) -> Option<Self> {
        (re != 0 && im != 0).then_some(Self { re, im })
    }

    pub fn re(self) -> u32 {
        self.re
    }

    pub fn im(self) -> u32 {
        self.im
    }
}

impl Noise {
    pub fn new(seeds: Seeds, length: u32) -> Self {
        Self { seeds, length, states: seeds, left: length }
    }
}

impl Source for Noise {
    type Item = AirSample;

    #[inline]
    fn next(&mut self) -> Next<AirSample> {
        if self.left == 0 {
            return Ok(None);
        }
        self.left -= 1;
        self.states = Seeds { re: step(self.states.re), im: step(self.states.im) };
        Ok(Some(AirSample::clipped(level(self.states.re), level(self.states.im))))
    }

    fn rewind(&mut self) {
        self.states = self.seeds;
        self.left = self.length;
    }
}

/// The state after the state `v`.
#[inline]
pub fn step(mut v: u32) -> u32 {
    v ^= v << 13;
    v ^= v >> 17;
    v ^= v << 5;
    v
}

/// The part of a noise sample that the state `v` gives.
#[inline]
pub fn level(v: u32) -> i64 {
    (i64::from(v.count_ones()) - 16) * 199
}

#[cfg(test)]
mod tests {
    use super::*;

    #[test]
    fn noise_of_seed_1() {
        let states = [0x0004_2021, 0x0408_0601, 0x9DCC_A8C5];
        let mut v = 1;
        for (state, part) in states.into_iter().zip([-2388, -2189, 0]) {
            v = step(v);
            assert_eq!((v, level(v)), (state, part));
        }
    }

    #[test]
    fn noise_and_held_items_end_and_rewind() {
        let mut noise = Noise::new(Seeds::new(1, 7).unwrap(), 2);
        let first = noise.next();
        assert!(matches!(noise.next(), Ok(Some(_))));
        assert_eq!(noise.next(), Ok(None));
        assert_eq!(noise.next(), Ok(None));
        noise.rewind();
        assert_eq!(noise.next(), first);
        let mut held = Held::new(5u8, 1);
        assert_eq!((held.next(), held.next(), held.next()), (Ok(Some(5)), Ok(None), Ok(None)));
        held.rewind();
        assert_eq!(held.next(), Ok(Some(5)));
    }

    #[test]
    fn seeds_of_0_are_none() {
        assert_eq!(Seeds::new(0, 1), None);
        assert_eq!(Seeds::new(1, 0), None);
    }
}
