//! Busy lists of calls: short jobs, in turn after turn one for every area in any order, so that
//! each area has hundreds of them accepted and many wait for a device at the same time.

use super::suspensions::stages;
use crate::calls::{Call, Query};
use crate::jobs::{Answer, Operation, Target};
use crate::plan::{Plan, SubArea};
use crate::plans::{crowded, equals_meet};
use crate::random::Random;
use crate::segments;
use std::ops::Range;

/// More than 300, so that whoever counts acceptances in a byte is found out; some are refused.
const TURNS: u32 = 340;

/// A crowded plan on which the order of acceptance matters.
pub fn busy_plan(random: &mut Random) -> Plan {
    loop {
        let plan = crowded(random);
        if equals_meet(&plan) {
            return plan;
        }
    }
}

pub fn busy_calls(random: &mut Random, plan: &Plan) -> Vec<Call> {
    let (crossings, stages) = (crossings(plan), stages(plan));
    let mut turn = |_| match random.below(8) {
        0..=3 if !crossings.is_empty() => {
            let (crossing, calls) = random.pick(&crossings).calls();
            [calls, turn(random, plan, &crossing)].concat()
        }
        4 if !stages.is_empty() => {
            let stage = random.index(stages.len());
            [stages[stage].calls(random), turn(random, plan, &[])].concat()
        }
        _ => turn(random, plan, &[]),
    };
    (0..TURNS).flat_map(&mut turn).collect()
}

/// A job for every area but these, at times a lock in its place, with rounds between some of them
/// and behind them, so that most of them end.
fn turn(random: &mut Random, plan: &Plan, busy: &[usize]) -> Vec<Call> {
    let mut areas: Vec<_> = (0..plan.areas.len()).filter(|area| !busy.contains(area)).collect();
    random.shuffle(&mut areas);
    let mut calls = Vec::new();
    let mut ends = Vec::new();
    for area in areas {
        if random.one_in(24) {
            let target = one_unit(plan, area, |_| 1);
            calls.push(Call::Lock(target));
            // Whether the lock has been given by then or not.
            ends.extend([Call::Release(target), Call::Cancel { area: target.area }]);
        } else {
            calls.push(job(random, plan, area));
        }
        calls.extend(random.one_in(2).then(|| round(random)));
    }
    let area = u32::try_from(random.index(plan.areas.len())).expect("at most 8 areas");
    calls.extend([round(random), Call::Query(Query::JobInfo, area)]);
    calls.extend(random.one_in(4).then_some(Call::Cancel { area }));
    calls.extend(ends);
    calls.extend((0..=plan.areas.len()).map(|_| round(random)));
    calls
}

fn job(random: &mut Random, plan: &Plan, area: usize) -> Call {
    let border = two_sectors(plan, area).filter(|_| random.one_in(4));
    border.map_or_else(|| short_job(random, plan, area), |t| Call::Job(Operation::Erase, t))
}

/// One unit, which is one piece, of an operation that the area's window allows.
fn short_job(random: &mut Random, plan: &Plan, area: usize) -> Call {
    let target = |operation: Operation| one_unit(plan, area, |s| operation.unit(s));
    let fits = |operation: &Operation| {
        !operation.uses_window() || target(*operation).length <= plan.areas[area].window_length
    };
    let operations: Vec<_> = Operation::ALL.into_iter().filter(fits).collect();
    let operation = random.pick(&operations);
    Call::Job(operation, target(operation))
}

/// A job that goes over to a device while the job of another area, accepted later, runs there.
#[derive(Clone, Copy)]
struct Crossing {
    areas: [usize; 2],
    first: Target,
    /// The device that the first begins on.
    from: usize,
    second: Target,
}

impl Crossing {
    /// The areas, and calls that bring it about if both devices are free.
    fn calls(&self) -> ([usize; 2], Vec<Call>) {
        let mut answers = [Answer::Pending; 4];
        answers[self.from] = Answer::Done;
        let jobs = [(Operation::Erase, self.first), (Operation::BlankCheck, self.second)];
        let jobs = jobs.map(|(operation, target)| Call::Job(operation, target));
        (self.areas, [jobs, [Call::Round(answers); 2]].concat())
    }
}

/// Those of areas of equal priority.
fn crossings(plan: &Plan) -> Vec<Crossing> {
    let mut crossings = Vec::new();
    for area in 0..plan.areas.len() {
        let devices: Vec<_> =
            segments::placed(plan, area).map(|p| usize::from(p.sub_area.device)).take(2).collect();
        for other in (0..plan.areas.len()).filter(|other| *other != area) {
            let is_equal = plan.areas[area].priority == plan.areas[other].priority;
            let second = one_unit(plan, other, |s| s.smallest_read);
            let needs = segments::device(plan, other, u64::from(second.address));
            if let (Some(first), [from, to]) = (two_sectors(plan, area), &devices[..]) {
                if is_equal && from != to && needs == Some(*to) {
                    crossings.push(Crossing { areas: [area, other], first, from: *from, second });
                }
            }
        }
    }
    crossings
}

/// From the area's start on.
fn one_unit(plan: &Plan, area: usize, unit: impl Fn(&SubArea) -> u32) -> Target {
    let first = segments::placed(plan, area).next().expect("each area has a sub-area");
    let start = first.logical.start;
    target(area, start..start + u64::from(unit(first.sub_area)))
}

/// On both sides of the first border between sub-areas: an erase takes a piece on each, at times on
/// two devices.
fn two_sectors(plan: &Plan, area: usize) -> Option<Target> {
    let mut placed = segments::placed(plan, area);
    let (first, second) = (placed.next()?, placed.next()?);
    let start = first.logical.end - u64::from(first.sub_area.sector);
    Some(target(area, start..second.logical.start + u64::from(second.sub_area.sector)))
}

fn target(area: usize, range: Range<u64>) -> Target {
    let narrow = |number: u64| u32::try_from(number).expect("inside an area");
    Target {
        area: u32::try_from(area).expect("at most 8 areas"),
        address: narrow(range.start),
        length: narrow(range.end - range.start),
    }
}

/// Mostly done, on all devices.
fn round(random: &mut Random) -> Call {
    Call::Round([(); 4].map(|()| match random.below(12) {
        0..=1 => Answer::Pending,
        2 => Answer::Failed(random.below(3)),
        _ => Answer::Done,
    }))
}
