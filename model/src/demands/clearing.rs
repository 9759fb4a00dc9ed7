//! How often writes on chips that only clear bits left bytes that are neither the old ones nor the
//! window's, told from the memory before and after each round; and how often other chips stored where
//! and-ing would have left such bytes.

use super::memory;
use crate::jobs::Operation;
use crate::plan::Plan;
use crate::segments::index;
use crate::wait_book::{Fate, Finished, Outcome, WaitBook};

#[derive(Clone, Copy, Debug, Default, PartialEq, Eq)]
pub struct Clearing {
    /// Writes that left such a byte: done ones, and failed ones after some bytes.
    pub done: u64,
    pub failed: u64,
    /// Of the failed ones those that were due again, and of both those of cancelled jobs.
    pub failed_before_retry: u64,
    pub done_cancelled: u64,
    pub failed_cancelled: u64,
    /// Writes on other chips that stored: done ones, and failed ones after some bytes.
    pub done_stored: u64,
    pub failed_stored: u64,
}

/// An accepted round: what there was before it and what it left.
pub(super) struct Round<'a> {
    pub(super) plan: &'a Plan,
    pub(super) before: &'a WaitBook,
    pub(super) after: &'a WaitBook,
    pub(super) image: &'a [u8],
    pub(super) store: &'a [u8],
    pub(super) left: &'a [u8],
}

/// A byte that a write has acted on.
#[derive(Clone, Copy)]
struct Byte {
    old: u8,
    window: u8,
    left: u8,
}

impl Byte {
    fn is_neither(&self) -> bool {
        self.left != self.old && self.left != self.window
    }

    /// The window's, where and-ing would have left neither.
    fn is_stored(&self) -> bool {
        let and_ed = Byte { left: self.old & self.window, ..*self };
        self.left == self.window && and_ed.is_neither()
    }
}

impl Round<'_> {
    fn bytes(&self, write: &Finished) -> impl Iterator<Item = Byte> + '_ {
        let window = u64::from(self.plan.areas[write.area].window_start) + write.offset;
        let offsets = (0..memory::acted(write)).zip(write.piece.start..);
        offsets.map(move |(offset, address)| Byte {
            old: self.image[index(address)],
            window: self.store[index(window + offset)],
            left: self.left[index(address)],
        })
    }
}

impl Clearing {
    pub(super) fn add_round(&mut self, round: &Round, fates: &[Fate]) {
        for fate in fates {
            match fate {
                Fate::Ends(write) if write.operation == Operation::Write => {
                    self.add_write(round, write);
                }
                _ => {}
            }
        }
    }

    fn add_write(&mut self, round: &Round, write: &Finished) {
        let is_failed = matches!(write.outcome, Outcome::Failed { .. });
        if !round.plan.devices[write.piece.device].chip.only_clears() {
            let count = if is_failed { &mut self.failed_stored } else { &mut self.done_stored };
            *count += u64::from(round.bytes(write).any(|byte| byte.is_stored()));
        } else if round.bytes(write).any(|byte| byte.is_neither()) {
            let is_cancelled = round.before.entry(write.area).is_cancelled;
            let is_due_again = round.after.entry(write.area).is_pending;
            self.done += u64::from(!is_failed);
            self.failed += u64::from(is_failed);
            self.failed_before_retry += u64::from(is_failed && is_due_again);
            self.done_cancelled += u64::from(!is_failed && is_cancelled);
            self.failed_cancelled += u64::from(is_failed && is_cancelled);
        }
    }

    pub fn counts(&self) -> [(&'static str, u64); 7] {
        [
            ("done", self.done),
            ("failed", self.failed),
            ("failed before a retry", self.failed_before_retry),
            ("done, cancelled", self.done_cancelled),
            ("failed, cancelled", self.failed_cancelled),
            ("done and stored on other chips", self.done_stored),
            ("failed and stored on other chips", self.failed_stored),
        ]
    }
}
