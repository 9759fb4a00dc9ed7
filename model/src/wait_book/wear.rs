//! The wear account of Req 05: "For every list of calls the unstuck sum equals the sectors of done erases in
//! the history." The book finds the sub-area of an erase by its physical address and goes from byte to byte to
//! see where sectors begin.

use super::{Fate, Finished, Outcome, WaitBook};
use crate::jobs::Operation;
use crate::plan::Plan;
use crate::segments::Piece;

/// A done erase in the history.
#[derive(Clone, Copy, Debug, PartialEq, Eq)]
pub struct Erased {
    pub sub_area: usize,
    pub sectors: u64,
}

impl WaitBook {
    /// The unstuck sum of each sub-area. In 128 bits no list of calls brings it to a limit.
    pub fn wear(&self) -> Vec<u128> {
        let mut sums = vec![0; self.plan.sub_areas.len()];
        for erased in &self.erased {
            sums[erased.sub_area] += u128::from(erased.sectors);
        }
        sums
    }

    /// As if erases of so many sectors had been done: only for tests that come near the limit of a sum.
    pub fn with_erased(mut self, erased: Erased) -> WaitBook {
        self.erased.push(erased);
        self
    }

    /// The done erases of a round join the history, whatever becomes of their jobs.
    pub(super) fn with_done_erases(self, fates: &[Fate]) -> WaitBook {
        let piece = |fate: &Fate| match fate {
            Fate::Ends(Finished {
                operation: Operation::Erase,
                outcome: Outcome::Done,
                piece,
                ..
            }) => Some(*piece),
            _ => None,
        };
        let pieces = fates.iter().filter_map(piece);
        pieces.fold(self, |book, piece| {
            let erased = erased(&book.plan, &piece);
            book.with_erased(erased)
        })
    }
}

/// Where a piece lies, by its physical addresses, and how many sectors begin in it.
fn erased(plan: &Plan, piece: &Piece) -> Erased {
    let mut sub_areas = plan.sub_areas.iter();
    let sub_area = sub_areas.position(|s| s.bytes().contains(&piece.start));
    let sub_area = sub_area.expect("a piece lies in a sub-area");
    let begins = |address: &u64| {
        let offset = address - plan.sub_areas[sub_area].bytes().start;
        offset.is_multiple_of(u64::from(plan.sub_areas[sub_area].sector))
    };
    let sectors = (piece.start..piece.start + piece.length).filter(begins).map(|_| 1u64).sum();
    Erased { sub_area, sectors }
}
