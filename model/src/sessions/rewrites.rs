//! Calls in which "a log page written twice" comes up on a chip that only clears bits: between the
//! two writes a read brings other bytes to the window.

use super::spots::{spots, Spot};
use crate::calls::{Call, Query};
use crate::jobs::{Answer, Operation, Target};
use crate::plan::Plan;
use crate::random::Random;

/// Where pages can be written twice.
pub(super) struct Rewrite<'a> {
    spot: Spot<'a>,
    window_length: u32,
}

/// All places of a plan whose windows have room for a page and for the smallest read.
pub(super) fn rewrites(plan: &Plan) -> Vec<Rewrite<'_>> {
    let on_clearing = spots(plan).filter(|spot| plan.devices[spot.device()].chip.only_clears());
    let rewrites = on_clearing.map(|spot| {
        let window_length = plan.areas[spot.area].window_length;
        Rewrite { spot, window_length }
    });
    let has_room = |rewrite: &Rewrite| {
        let sub_area = rewrite.spot.placed.sub_area;
        sub_area.page.max(sub_area.smallest_read) <= rewrite.window_length
    };
    rewrites.filter(has_room).collect()
}

impl Rewrite<'_> {
    /// Calls that do so if the device is free, as most are behind a few answers, and that look at the
    /// pages then.
    pub(super) fn calls(&self, random: &mut Random) -> Vec<Call> {
        let pages = self.target(random, Operation::Write);
        let others = self.target(random, Operation::Read);
        let mut calls = done_rounds(random.below(4));
        if random.one_in(3) {
            calls.push(self.spot.job(random, Operation::Erase));
            calls.extend(done_rounds(2));
        }
        calls.extend(self.write(random, pages));
        calls.push(Call::Job(Operation::Read, others));
        calls.extend(done_rounds(2));
        calls.extend(self.write(random, pages));
        calls.push(Call::Query(Query::JobInfo, self.spot.number()));
        let look = random.pick(&[Operation::Compare, Operation::Read, Operation::BlankCheck]);
        calls.push(Call::Job(look, pages));
        calls.extend(done_rounds(2));
        calls
    }

    /// A range that the window has room for.
    fn target(&self, random: &mut Random, operation: Operation) -> Target {
        let unit = operation.unit(self.spot.placed.sub_area);
        let target = self.spot.target(random, unit);
        let most = self.window_length - self.window_length % unit;
        Target { length: target.length.min(most), ..target }
    }

    /// A write, at times cancelled while it runs, that often fails behind some bytes.
    fn write(&self, random: &mut Random, pages: Target) -> Vec<Call> {
        let mut calls = vec![Call::Job(Operation::Write, pages)];
        calls.extend(done_rounds(1));
        calls.extend(random.one_in(4).then_some(Call::Cancel { area: pages.area }));
        for _ in 0..random.between(1, 3) {
            let answer = match random.below(8) {
                0 => Answer::Pending,
                1..=3 => Answer::Failed(random.between(1, pages.length)),
                _ => Answer::Done,
            };
            calls.push(Call::Round([answer; 4]));
        }
        calls
    }
}

fn done_rounds(count: u32) -> Vec<Call> {
    (0..count).map(|_| Call::Round([Answer::Done; 4])).collect()
}
