//! Items of two sources, side by side.

use crate::source::{Next, Source};

pub struct Pairing<A: Source, B> {
    first: A,
    second: B,
    /// An item of the first whose partner is missing.
    kept: Option<A::Item>,
}

impl<A: Source, B: Source> Pairing<A, B> {
    pub fn new(mut first: A, mut second: B) -> Self {
        first.rewind();
        second.rewind();
        Self { first, second, kept: None }
    }
}

impl<A: Source, B: Source> Source for Pairing<A, B> {
    type Item = (A::Item, B::Item);

    #[inline]
    fn next(&mut self) -> Next<Self::Item> {
        let first = match self.kept.take() {
            Some(kept) => kept,
            None => match self.first.next()? {
                Some(item) => item,
                None => return Ok(None),
            },
        };
        match self.second.next() {
            Ok(Some(second)) => Ok(Some((first, second))),
            end => {
                self.kept = Some(first);
                end.map(|_| None)
            }
        }
    }

    fn rewind(&mut self) {
        self.kept = None;
        self.first.rewind();
        self.second.rewind();
    }
}
