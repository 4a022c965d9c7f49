//! The plain player: it knows a chain's whole and keeps a place. Every player must answer as it does.

use crate::player::{LAST_PLACE, Play, PlayerFault};
use crate::whole::Whole;

pub struct PlainPlayer<T> {
    whole: Whole<T>,
    place: u64,
}

/// What is left for a call that wanted items.
enum Share {
    /// Items from this place on, at least one unless none was wanted.
    Items {
        from: usize,
        count: u64,
    },
    Ended(Result<(), PlayerFault>),
}

impl<T: Copy> PlainPlayer<T> {
    pub fn new(whole: Whole<T>) -> Self {
        Self { whole, place: 0 }
    }

    fn take(&mut self, wanted: u64) -> Share {
        let from = self.place;
        let count = wanted.min(self.whole.items.len() as u64 - from);
        self.place += count;
        if wanted > 0 && count == 0 {
            let place = from.min(LAST_PLACE);
            return Share::Ended(self.whole.ending.map_err(|fault| PlayerFault { fault, place }));
        }
        Share::Items { from: from as usize, count }
    }
}

impl<T: Copy> Play for PlainPlayer<T> {
    type Item = T;

    fn next(&mut self) -> Result<Option<T>, PlayerFault> {
        match self.take(1) {
            Share::Items { from, .. } => Ok(Some(self.whole.items[from])),
            Share::Ended(ending) => ending.map(|()| None),
        }
    }

    fn fill(&mut self, buffer: &mut [T]) -> Result<usize, PlayerFault> {
        match self.take(buffer.len() as u64) {
            Share::Items { from, count } => {
                let count = count as usize;
                buffer[..count].copy_from_slice(&self.whole.items[from..from + count]);
                Ok(count)
            }
            Share::Ended(ending) => ending.map(|()| 0),
        }
    }

    fn skip(&mut self, wanted: u32) -> Result<u32, PlayerFault> {
        match self.take(wanted.into()) {
            Share::Items { count, .. } => Ok(count as u32),
            Share::Ended(ending) => ending.map(|()| 0),
        }
    }

    fn rewind(&mut self) {
        self.place = 0;
    }
}

#[cfg(test)]
mod tests {
    use super::*;
    use crate::player::{Answer, Call, Player, make};
    use crate::source::{Fault, FaultKind};
    use crate::whole::Listed;

    const FAULT: Fault = Fault { kind: FaultKind::GainOverRange, input: 1, item: 5 };

    /// The run that the document on the player works out, on any player.
    fn worked_run(player: &mut impl Play<Item = u8>) {
        let fault = PlayerFault { fault: FAULT, place: 5 };
        let filled = |placed, buffer: &[u8]| Answer::Filled { placed, buffer: buffer.to_vec() };
        let run = [
            (Call::Next, Answer::Item(Some(10))),
            (Call::Fill(3), filled(3, &[11, 12, 13])),
            (Call::Skip(0), Answer::Passed(0)),
            (Call::Fill(3), filled(1, &[14, 99, 99])),
            (Call::Fill(3), Answer::FillFault { fault, buffer: vec![99, 99, 99] }),
            (Call::Fill(0), filled(0, &[])),
            (Call::Skip(7), Answer::Fault(fault)),
            (Call::Next, Answer::Fault(fault)),
            (Call::Rewind, Answer::Done),
            (Call::Skip(4), Answer::Passed(4)),
            (Call::Next, Answer::Item(Some(14))),
            (Call::Next, Answer::Fault(fault)),
        ];
        for (call, answer) in run {
            assert_eq!(make(player, call, 99), answer, "{call:?}");
        }
    }

    #[test]
    fn both_players_answer_as_worked_out() {
        let whole = Whole { items: vec![10, 11, 12, 13, 14], ending: Err(FAULT) };
        worked_run(&mut Player::new(Listed::new(whole.clone())));
        worked_run(&mut PlainPlayer::new(whole));
    }
}
