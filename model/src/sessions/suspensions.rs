//! Calls in which an erase gives way: an area erases on a device that can suspend, and areas ranked
//! above it come with jobs and locks of their own while the erase runs or is suspended.

use super::spots::{spots, Spot};
use crate::calls::{Call, Query};
use crate::jobs::{Answer, Operation};
use crate::plan::Plan;
use crate::random::Random;

/// Where an erase can give way.
pub(super) struct Stage<'a> {
    erasing: Spot<'a>,
    /// On the same device, of areas of greater priority, the greatest last.
    above: Vec<Spot<'a>>,
    patience: u16,
}

const OTHERS: [Operation; 4] =
    [Operation::Write, Operation::Read, Operation::Compare, Operation::BlankCheck];

/// Quiet rounds at most in a row: a patience may be far greater.
const MOST_QUIET_ROUNDS: u16 = 16;

/// All stages of a plan. With a patience of 1 no erase lives to be suspended.
pub(super) fn stages(plan: &Plan) -> Vec<Stage<'_>> {
    let mut spots: Vec<_> = spots(plan).collect();
    spots.sort_by_key(|spot| spot.priority);
    let may_give_way = |spot: &&Spot| plan.devices[spot.device()].chip.can_suspend();
    let stages = spots.iter().filter(may_give_way).map(|erasing| Stage {
        erasing: erasing.clone(),
        above: spots.iter().filter(|spot| is_above(spot, erasing)).cloned().collect(),
        patience: plan.devices[erasing.device()].patience,
    });
    stages.filter(|stage| !stage.above.is_empty() && stage.patience > 1).collect()
}

/// On the same device, with the greater priority.
fn is_above(spot: &Spot, other: &Spot) -> bool {
    spot.device() == other.device() && spot.priority > other.priority
}

impl Stage<'_> {
    /// Calls that suspend the erase if the device is free, as most are behind a few answers, and then
    /// try what can happen to it. What they lock they release, whether the lock has been given by then
    /// or not.
    pub(super) fn calls(&self, random: &mut Random) -> Vec<Call> {
        let erasing = self.erasing.number();
        let mut calls = vec![Call::Round([Answer::Done; 4]); random.index(4)];
        calls.extend([self.erasing.job(random, Operation::Erase), quiet_round()]);
        calls.extend(random.one_in(8).then_some(Call::Cancel { area: erasing }));
        calls.extend(random.one_in(5).then(|| self.obstacle(random)));
        let first = random.index(self.above.len());
        let operation = random.pick(&OTHERS);
        calls.extend([self.above[first].job(random, operation), quiet_round()]);
        match random.below(3) {
            0 => calls.extend(self.long_wait(random)),
            _ => calls.extend((0..random.between(2, 9)).map(|_| self.call(random))),
        }
        let locks = calls.iter().filter_map(|call| match call {
            Call::Lock(target) => Some(*target),
            _ => None,
        });
        let unlocks = locks.flat_map(|t| [Call::Release(t), Call::Cancel { area: t.area }]);
        let unlocks: Vec<_> = unlocks.collect();
        calls.push(Call::Query(Query::JobInfo, erasing));
        calls.extend(unlocks);
        calls
    }

    fn highest(&self) -> &Spot<'_> {
        &self.above[self.above.len() - 1]
    }

    /// An erase or a lock request of the highest area: it suspends nothing and is first.
    fn obstacle(&self, random: &mut Random) -> Call {
        match random.below(2) {
            0 => self.highest().job(random, Operation::Erase),
            _ => Call::Lock(self.highest().target(random, 1)),
        }
    }

    /// An obstacle behind a piece and a resumed erase that both take all polls that they have.
    fn long_wait(&self, random: &mut Random) -> Vec<Call> {
        let rounds = (0..2 * self.patience.min(MOST_QUIET_ROUNDS / 2)).map(|_| quiet_round());
        let info = Call::Query(Query::JobInfo, self.highest().number());
        std::iter::once(self.obstacle(random)).chain(rounds).chain([info]).collect()
    }

    /// A round, or a call of one of the areas.
    fn call(&self, random: &mut Random) -> Call {
        let index = random.index(self.above.len());
        let above = &self.above[index];
        let erasing = self.erasing.number();
        match random.below(20) {
            0..=9 => round(random),
            10..=12 => {
                let operation = random.pick(&OTHERS);
                above.job(random, operation)
            }
            13..=14 => above.job(random, Operation::Erase),
            15..=16 => Call::Lock(above.target(random, 1)),
            17 => Call::Cancel { area: erasing },
            18 => Call::Cancel { area: above.number() },
            _ => Call::Query(Query::JobInfo, random.pick(&[erasing, above.number()])),
        }
    }
}

/// Nothing ends, but for what loses patience.
fn quiet_round() -> Call {
    Call::Round([Answer::Pending; 4])
}

fn round(random: &mut Random) -> Call {
    Call::Round([(); 4].map(|()| match random.below(8) {
        0..=3 => Answer::Pending,
        4 => Answer::Failed(random.below(20)),
        _ => Answer::Done,
    }))
}
