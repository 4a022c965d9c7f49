//! The receiver's sample clock running at another rate than the transmitter's.

use crate::item::WorkingSample;
use crate::source::{Next, Source};

const ONE: u64 = 1 << 53;

pub struct ClockOffset<S> {
    /// From one item to the next, 2^53 for an item below. None: bypassed.
    step: Option<u64>,
    position: Position,
    below: S,
}

/// Where the next item is read: `fraction` of the way from the one but last to the last of the items below, once the
/// `needed` ones are drawn.
#[derive(Clone, Copy)]
struct Position {
    before: WorkingSample,
    last: WorkingSample,
    needed: u64,
    fraction: u64,
}

impl Position {
    const START: Self = Self { before: WorkingSample::ZERO, last: WorkingSample::ZERO, needed: 1, fraction: 0 };

    #[inline]
    fn draw(&mut self, x: WorkingSample) {
        self.before = self.last;
        self.last = x;
        self.needed -= 1;
    }

    #[inline]
    fn read(&self) -> WorkingSample {
        let f = (self.fraction >> 37) as i64;
        let between = |a: i64, b: i64| a + (((b - a) * f) >> 16);
        let (a, b) = (self.before, self.last);
        WorkingSample::clipped(between(a.re(), b.re()), between(a.im(), b.im()))
    }

    #[inline]
    fn advance(&mut self, step: u64) {
        let position = self.fraction + step;
        self.needed = position / ONE;
        self.fraction = position % ONE;
    }
}

impl<S: Source<Item = WorkingSample>> ClockOffset<S> {
    /// For an offset of −9,007,199,254,740 to 9,007,199,254,740.
    pub fn new(offset: i64, below: S) -> Self {
        Self::with_step(Some(ONE.wrapping_add_signed(offset)), below)
    }

    pub fn bypassed(below: S) -> Self {
        Self::with_step(None, below)
    }

    fn with_step(step: Option<u64>, mut below: S) -> Self {
        below.rewind();
        Self { step, position: Position::START, below }
    }
}

impl<S: Source<Item = WorkingSample>> Source for ClockOffset<S> {
    type Item = WorkingSample;

    #[inline]
    fn next(&mut self) -> Next<WorkingSample> {
        let Some(step) = self.step else { return self.below.next() };
        while self.position.needed > 0 {
            let Some(x) = self.below.next()? else { return Ok(None) };
            self.position.draw(x);
        }
        let y = self.position.read();
        self.position.advance(step);
        Ok(Some(y))
    }

    fn rewind(&mut self) {
        self.position = Position::START;
        self.below.rewind();
    }
}
