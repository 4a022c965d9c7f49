//! Echoes: a tapped delay line.

use crate::item::WorkingSample;
use crate::source::{Next, Source};

/// One path: a complex coefficient, 8192 for 1, and a delay of 0 to 63 samples.
#[derive(Clone, Copy, Debug, PartialEq, Eq)]
pub struct Path {
    pub re: i16,
    pub im: i16,
    pub delay: u8,
}

const LINE: usize = 64;

pub struct Multipath<S> {
    paths: Vec<Path>,
    /// The last 64 items, in a ring.
    line: [WorkingSample; LINE],
    /// Where the next item goes.
    place: usize,
    below: S,
}

impl<S: Source<Item = WorkingSample>> Multipath<S> {
    pub fn new(paths: Vec<Path>, mut below: S) -> Self {
        below.rewind();
        Self { paths, line: [WorkingSample::ZERO; LINE], place: 0, below }
    }

    /// The sum over all paths at the item that stands at `place`.
    #[inline]
    fn echoes(&self) -> WorkingSample {
        let (mut re, mut im) = (0, 0);
        for path in &self.paths {
            let (p, q) = (i64::from(path.re), i64::from(path.im));
            let x = self.line[self.place.wrapping_sub(usize::from(path.delay)) % LINE];
            re += p * x.re() - q * x.im();
            im += p * x.im() + q * x.re();
        }
        WorkingSample::clipped(re >> 13, im >> 13)
    }
}

impl<S: Source<Item = WorkingSample>> Source for Multipath<S> {
    type Item = WorkingSample;

    #[inline]
    fn next(&mut self) -> Next<WorkingSample> {
        let Some(x) = self.below.next()? else { return Ok(None) };
        self.line[self.place] = x;
        let y = self.echoes();
        self.place = (self.place + 1) % LINE;
        Ok(Some(y))
    }

    fn rewind(&mut self) {
        self.line = [WorkingSample::ZERO; LINE];
        self.below.rewind();
    }
}
