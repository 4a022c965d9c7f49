//! The player of a chain, and what its calls answer.

use crate::source::{Fault, Source};
use std::fmt;

/// A place in a fault goes no further than this.
pub const LAST_PLACE: u64 = (1 << 63) - 1;

/// The fault of the source, and the place in the chain where it was met.
#[derive(Clone, Copy, Debug, PartialEq, Eq)]
pub struct PlayerFault {
    pub fault: Fault,
    pub place: u64,
}

impl fmt::Display for PlayerFault {
    fn fmt(&self, f: &mut fmt::Formatter) -> fmt::Result {
        write!(f, "{} place {}", self.fault, self.place)
    }
}

/// The calls of a player. `fill` and `skip` answer how many items they placed or passed, and a fault only if they wanted
/// items and got none.
pub trait Play {
    type Item: Copy;
    fn next(&mut self) -> Result<Option<Self::Item>, PlayerFault>;
    fn fill(&mut self, buffer: &mut [Self::Item]) -> Result<usize, PlayerFault>;
    fn skip(&mut self, wanted: u32) -> Result<u32, PlayerFault>;
    fn rewind(&mut self);
}

pub struct Player<S> {
    chain: S,
    place: u64,
}

impl<S: Source> Player<S> {
    pub fn new(mut chain: S) -> Self {
        chain.rewind();
        Self { chain, place: 0 }
    }

    /// Draws up to `wanted` items, hands each to `put` and answers their number; the fault only if there was none.
    #[inline]
    fn draw(&mut self, wanted: usize, mut put: impl FnMut(usize, S::Item)) -> Result<usize, PlayerFault> {
        let mut count = 0;
        let ending = loop {
            if count == wanted {
                break Ok(());
            }
            match self.chain.next() {
                Ok(Some(item)) => put(count, item),
                end => break end.map(|_| ()),
            }
            count += 1;
        };
        match ending {
            Err(fault) if count == 0 => Err(PlayerFault { fault, place: self.place }),
            _ => {
                self.place = self.place.saturating_add(count as u64).min(LAST_PLACE);
                Ok(count)
            }
        }
    }
}

impl<S: Source> Play for Player<S> {
    type Item = S::Item;

    fn next(&mut self) -> Result<Option<S::Item>, PlayerFault> {
        let mut drawn = None;
        self.draw(1, |_, item| drawn = Some(item))?;
        Ok(drawn)
    }

    fn fill(&mut self, buffer: &mut [S::Item]) -> Result<usize, PlayerFault> {
        self.draw(buffer.len(), |place, item| buffer[place] = item)
    }

    fn skip(&mut self, wanted: u32) -> Result<u32, PlayerFault> {
        Ok(self.draw(wanted as usize, |_, _| ())? as u32)
    }

    fn rewind(&mut self) {
        self.chain.rewind();
        self.place = 0;
    }
}

/// A call with its argument; a fill is given a buffer of that many items.
#[derive(Clone, Copy, Debug, PartialEq, Eq)]
pub enum Call {
    Next,
    Fill(usize),
    Skip(u32),
    Rewind,
}

/// What a call answered, and the whole buffer after a fill.
#[derive(Clone, Debug, PartialEq, Eq)]
pub enum Answer<T> {
    Item(Option<T>),
    Filled { placed: usize, buffer: Vec<T> },
    FillFault { fault: PlayerFault, buffer: Vec<T> },
    Passed(u32),
    Fault(PlayerFault),
    Done,
}

/// Makes one call. `blank` stands everywhere in the buffer before a fill.
pub fn make<P: Play>(player: &mut P, call: Call, blank: P::Item) -> Answer<P::Item> {
    match call {
        Call::Next => player.next().map_or_else(Answer::Fault, Answer::Item),
        Call::Fill(length) => {
            let mut buffer = vec![blank; length];
            match player.fill(&mut buffer) {
                Ok(placed) => Answer::Filled { placed, buffer },
                Err(fault) => Answer::FillFault { fault, buffer },
            }
        }
        Call::Skip(wanted) => player.skip(wanted).map_or_else(Answer::Fault, Answer::Passed),
        Call::Rewind => {
            player.rewind();
            Answer::Done
        }
    }
}
