//! The receiver's carrier being off the transmitter's.

use crate::item::WorkingSample;
use crate::phasor::{Phasors, index_of_48_bits, phasors};
use crate::source::{Next, Source};

pub struct FrequencyOffset<S> {
    offset: i64,
    /// The phase of the next item, 2^48 a turn; 64 bits hold it modulo whole turns.
    phase: u64,
    phasors: &'static Phasors,
    below: S,
}

impl<S: Source<Item = WorkingSample>> FrequencyOffset<S> {
    pub fn new(offset: i64, mut below: S) -> Self {
        below.rewind();
        Self { offset, phase: 0, phasors: phasors(), below }
    }
}

impl<S: Source<Item = WorkingSample>> Source for FrequencyOffset<S> {
    type Item = WorkingSample;

    #[inline]
    fn next(&mut self) -> Next<WorkingSample> {
        let Some(x) = self.below.next()? else { return Ok(None) };
        let (re, im) = self.phasors[index_of_48_bits(self.phase)].turn(x.re(), x.im());
        self.phase = self.phase.wrapping_sub(self.offset as u64);
        Ok(Some(WorkingSample::clipped(re >> 14, im >> 14)))
    }

    fn rewind(&mut self) {
        self.phase = 0;
        self.below.rewind();
    }
}
