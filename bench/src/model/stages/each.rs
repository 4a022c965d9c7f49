//! The stages without a memory: one formula, applied to each item.

use crate::source::{Next, Source};

pub trait Formula {
    type In: Copy;
    type Out: Copy;
    fn apply(&self, x: Self::In) -> Self::Out;
}

pub struct Each<F, S> {
    formula: F,
    below: S,
}

impl<F: Formula, S: Source<Item = F::In>> Each<F, S> {
    pub fn new(formula: F, mut below: S) -> Self {
        below.rewind();
        Self { formula, below }
    }
}

impl<F: Formula, S: Source<Item = F::In>> Source for Each<F, S> {
    type Item = F::Out;

    #[inline]
    fn next(&mut self) -> Next<F::Out> {
        Ok(self.below.next()?.map(|x| self.formula.apply(x)))
    }

    fn rewind(&mut self) {
        self.below.rewind();
    }
}
