//! A delay: copies of a given item, then the whole below.

use crate::source::{Next, Source};

pub struct Lead<S: Source> {
    item: S::Item,
    copies: u16,
    left: u16,
    below: S,
}

impl<S: Source> Lead<S> {
    pub fn new(item: S::Item, copies: u16, mut below: S) -> Self {
        below.rewind();
        Self { item, copies, left: copies, below }
    }
}

impl<S: Source> Source for Lead<S> {
    type Item = S::Item;

    #[inline]
    fn next(&mut self) -> Next<S::Item> {
        if self.left == 0 {
            return self.below.next();
        }
        self.left -= 1;
        Ok(Some(self.item))
    }

    fn rewind(&mut self) {
        self.left = self.copies;
        self.below.rewind();
    }
}
