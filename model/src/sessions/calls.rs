//! Random calls, and lists of them with what happens to the memory in between.

use super::rewrites::{rewrites, Rewrite};
use super::suspensions::{stages, Stage};
use crate::admission::furthest_window_end;
use crate::calls::{Call, Query};
use crate::jobs::{Answer, Operation, Target};
use crate::plan::{Plan, SubArea};
use crate::random::Random;
use crate::segments::{self, Placed};
use std::collections::VecDeque;

/// A step of a list.
#[derive(Clone, Debug, PartialEq, Eq)]
pub enum Step {
    /// A call; a round is lent memory that fits the plan.
    Call(Call),
    /// A round that is lent memory of these lengths.
    RoundLent { answers: [Answer; 4], image_length: usize, store_length: usize },
    /// Others write a byte to part of the memory: "image and store may come with any length and
    /// bytes at each call".
    Change { memory: Memory, start: usize, length: usize, byte: u8 },
}

#[derive(Clone, Copy, Debug, PartialEq, Eq)]
pub enum Memory {
    Image,
    Store,
}

/// How the devices tend to answer for a while.
#[derive(Clone, Copy)]
struct Mood {
    pending: u32,
    done: u32,
    failed: u32,
}

const MOODS: [Mood; 5] = [
    Mood { pending: 2, done: 6, failed: 1 },
    Mood { pending: 1, done: 1, failed: 1 },
    Mood { pending: 8, done: 1, failed: 1 },
    Mood { pending: 1, done: 3, failed: 4 },
    Mood { pending: 0, done: 1, failed: 0 },
];

/// Calls on average until the mood changes.
const MOOD_LENGTH: u32 = 24;

/// Calls at most between a lock and the releases drawn with it. The first may come before the lock
/// is given.
const LOCK_LENGTHS: [u32; 2] = [12, 60];

/// Calls on average from one erase that gives way to the next, where the plan lets them.
const BETWEEN_SUSPENSIONS: u32 = 6;

/// Calls on average from one page written twice to the next, where the plan lets them.
const BETWEEN_REWRITES: u32 = 14;

/// Draws calls over a plan, one after the other.
pub(super) struct Drawer<'a> {
    plan: &'a Plan,
    mood: Mood,
    /// After how many calls to release what: without them every device would soon be locked for
    /// good.
    releases: Vec<(u32, Target)>,
    stages: Vec<Stage<'a>>,
    rewrites: Vec<Rewrite<'a>>,
    /// Calls that belong together and come before any others.
    due: VecDeque<Call>,
}

impl Mood {
    fn answer(&self, random: &mut Random) -> Answer {
        let drawn = random.below(self.pending + self.done + self.failed);
        if drawn < self.pending {
            Answer::Pending
        } else if drawn < self.pending + self.done {
            Answer::Done
        } else {
            let few = random.below(40);
            Answer::Failed(random.pick(&[0, 1, 2, 3, few, u32::MAX]))
        }
    }

    fn answers(&self, random: &mut Random) -> [Answer; 4] {
        [(); 4].map(|()| self.answer(random))
    }
}

impl<'a> Drawer<'a> {
    pub(super) fn of(random: &mut Random, plan: &'a Plan) -> Self {
        Drawer {
            plan,
            mood: random.pick(&MOODS),
            releases: Vec::new(),
            stages: stages(plan),
            rewrites: rewrites(plan),
            due: VecDeque::new(),
        }
    }

    pub(super) fn call(&mut self, random: &mut Random) -> Call {
        if random.one_in(MOOD_LENGTH) {
            self.mood = random.pick(&MOODS);
        }
        if self.due.is_empty() && !self.stages.is_empty() && random.one_in(BETWEEN_SUSPENSIONS) {
            let stage = random.index(self.stages.len());
            self.due.extend(self.stages[stage].calls(random));
        }
        if self.due.is_empty() && !self.rewrites.is_empty() && random.one_in(BETWEEN_REWRITES) {
            let rewrite = random.index(self.rewrites.len());
            self.due.extend(self.rewrites[rewrite].calls(random));
        }
        let due = self.due.pop_front().or_else(|| self.release_due().map(Call::Release));
        due.unwrap_or_else(|| self.drawn_call(random))
    }

    fn release_due(&mut self) -> Option<Target> {
        for (left, _) in &mut self.releases {
            *left = left.saturating_sub(1);
        }
        let due = self.releases.iter().position(|(left, _)| *left == 0)?;
        Some(self.releases.swap_remove(due).1)
    }

    fn drawn_call(&mut self, random: &mut Random) -> Call {
        let plan = self.plan;
        match random.below(32) {
            0..=15 => Call::Round(self.mood.answers(random)),
            16..=26 => {
                let operation = random.pick(&Operation::ALL);
                Call::Job(operation, target(random, plan, |s| operation.unit(s)))
            }
            27 => {
                let target = target(random, plan, |_| 1);
                for most in LOCK_LENGTHS {
                    self.releases.push((random.between(1, most), target));
                }
                Call::Lock(target)
            }
            28 => Call::Release(target(random, plan, |_| 1)),
            29 => Call::Cancel { area: area_number(random, plan) },
            _ => query(random, plan),
        }
    }
}

/// A list of steps over a plan.
pub fn steps(random: &mut Random, plan: &Plan, count: usize) -> Vec<Step> {
    let mut drawer = Drawer::of(random, plan);
    let mut step = |_| match random.below(32) {
        0 => round_lent(random, plan, drawer.mood),
        1..=3 => change(random, plan),
        _ => Step::Call(drawer.call(random)),
    };
    (0..count).map(&mut step).collect()
}

/// Lengths at both sides of questions 18 and 19.
fn round_lent(random: &mut Random, plan: &Plan, mood: Mood) -> Step {
    let sum = segments::index(plan.device_sum());
    let end = furthest_window_end(plan);
    Step::RoundLent {
        answers: mood.answers(random),
        image_length: random.pick(&[sum, sum, sum, sum - 1, sum + 1, 0]),
        store_length: random.pick(&[end, end + 1, end.saturating_sub(1), 65_536, 0]),
    }
}

/// Half of the bytes are 0 or 255, so that compares and blank checks find what they look for often
/// enough. With the others writes on chips that only clear bits leave neither version.
fn change(random: &mut Random, plan: &Plan) -> Step {
    let (memory, end) = match random.below(2) {
        0 => (Memory::Image, segments::index(plan.device_sum())),
        _ => (Memory::Store, furthest_window_end(plan).max(1)),
    };
    let start = random.index(end);
    let (some, all) = (random.index(end - start) + 1, end - start);
    let any_byte = random.byte();
    Step::Change {
        memory,
        start,
        length: random.pick(&[1, 1, 1, some, all]),
        byte: random.pick(&[0, 255, any_byte, any_byte]),
    }
}

fn query(random: &mut Random, plan: &Plan) -> Call {
    let Target { area, address, .. } = target(random, plan, |_| 1);
    let queries = [Query::Status, Query::Result, Query::Processed, Query::JobInfo];
    match random.below(10) {
        0 => Call::Query(Query::MemoryInfo(address), area),
        1 => Call::Query(Query::WearInfo(address), area),
        _ => Call::Query(random.pick(&queries), area),
    }
}

/// Mostly a known area.
fn area_number(random: &mut Random, plan: &Plan) -> u32 {
    let count = u32::try_from(plan.areas.len()).expect("at most 8 areas");
    let known = random.below(count);
    match random.below(24) {
        0 => random.pick(&[count, count + 1, 255, 256 + known, u32::MAX]),
        _ => known,
    }
}

/// A range that mostly lies inside its area and mostly begins and ends at multiples of the unit.
fn target(random: &mut Random, plan: &Plan, unit: impl Fn(&SubArea) -> u32) -> Target {
    let area = random.index(plan.areas.len());
    let placed: Vec<_> = segments::placed(plan, area).collect();
    let first = random.index(placed.len());
    let last = if random.one_in(2) { first } else { random.index(placed.len()) };
    let ends = [&placed[first.min(last)], &placed[first.max(last)]];
    let mut target = target_in(random, area, ends, unit);
    if random.one_in(6) {
        wound(random, plan, &mut target);
    }
    target
}

/// A range from the first of two sub-areas to the last, at multiples of the unit.
pub(super) fn target_in(
    random: &mut Random,
    area: usize,
    [first, last]: [&Placed; 2],
    unit: impl Fn(&SubArea) -> u32,
) -> Target {
    let (one, other) = (
        boundary(random, first, unit(first.sub_area)),
        boundary(random, last, unit(last.sub_area)),
    );
    let (start, end) = (one.min(other), one.max(other) + u64::from(unit(last.sub_area)));
    let narrow = |number: u64| u32::try_from(number).expect("inside an area");
    Target {
        area: u32::try_from(area).expect("at most 8 areas"),
        address: narrow(start),
        length: narrow(end - start),
    }
}

/// An address in a sub-area at a multiple of the unit.
fn boundary(random: &mut Random, placed: &Placed, unit: u32) -> u64 {
    let units = placed.sub_area.size() / u64::from(unit);
    let units = u32::try_from(units).expect("sub-areas lie in the image");
    placed.logical.start + u64::from(unit) * u64::from(random.below(units))
}

/// Moves a target across some limit, or beyond all of them.
fn wound(random: &mut Random, plan: &Plan, target: &mut Target) {
    match random.below(9) {
        0 => target.area = area_number(random, plan),
        1 => target.address = target.address.wrapping_add(1),
        2 => target.address = target.address.wrapping_sub(1),
        3 => target.address = random.pick(&[0, u32::MAX]),
        4 => target.length = target.length.wrapping_add(1),
        5 => target.length = target.length.wrapping_sub(1),
        6 => target.length = target.length.saturating_mul(random.between(2, 9)),
        7 => target.length = 0,
        _ => target.length = u32::MAX,
    }
}
