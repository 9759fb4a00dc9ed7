//! How often each query was accepted, and in which states: shows, and lets tests assert, that none
//! went untried.

use super::{Answers, Place};
use crate::manager::{DeviceState, Manager, WearInfo};
use crate::plan::Plan;
use crate::segments;
use std::collections::BTreeMap;
use std::fmt;

#[derive(Clone, Copy, Debug, PartialEq, Eq, PartialOrd, Ord)]
pub enum Asked {
    Status,
    Result,
    Processed,
    JobInfo,
    MemoryInfo,
    WearInfo,
}

impl Asked {
    pub const ALL: [Asked; 6] = [
        Asked::Status,
        Asked::Result,
        Asked::Processed,
        Asked::JobInfo,
        Asked::MemoryInfo,
        Asked::WearInfo,
    ];

    /// Does the query read the address?
    fn is_at_address(self) -> bool {
        matches!(self, Asked::MemoryInfo | Asked::WearInfo)
    }
}

/// What stands of the area that is asked.
#[derive(Clone, Copy, Debug, PartialEq, Eq, PartialOrd, Ord)]
pub enum State {
    NoJob,
    /// The job ended with this result.
    Ended(u8),
    /// Pending, and its request does not run, nor is it suspended.
    Waiting,
    Running,
    /// Its running request has been polled.
    Polled,
    /// It is cancelled, and its request runs.
    CancelledRuns,
    /// Its erase is suspended.
    Suspended,
    /// Its erase is suspended, and it is cancelled.
    CancelledSuspended,
}

#[derive(Clone, Copy, Debug, PartialEq, Eq, PartialOrd, Ord)]
pub enum Try {
    /// A query accepted in this state.
    Accepted(Asked, State),
    /// A query refused by this number.
    Refused(Asked, u8),
    /// Memory info at the first byte, inside, and at the last byte of a sub-area that is not the
    /// first of its area.
    FirstByte,
    Inside,
    LastByte,
    /// Wear info that says so.
    Wear(Worn),
}

/// What wear info says of a sub-area.
#[derive(Clone, Copy, Debug, PartialEq, Eq, PartialOrd, Ord)]
pub enum Worn {
    /// Sum 0, with a record and without one.
    FreshWithRecord,
    FreshWithoutRecord,
    /// A sum without a charge.
    WithoutRecord,
    /// A charge that is the sum's share, and one that is more.
    Exact,
    RoundedUp,
    /// A charge of more than a million.
    Beyond,
}

impl Worn {
    pub const ALL: [Worn; 6] = [
        Worn::FreshWithRecord,
        Worn::FreshWithoutRecord,
        Worn::WithoutRecord,
        Worn::Exact,
        Worn::RoundedUp,
        Worn::Beyond,
    ];
}

#[derive(Clone, Debug, Default)]
pub struct Tried {
    counts: BTreeMap<Try, u64>,
    pub sessions: u64,
}

const STATES: [State; 11] = [
    State::NoJob,
    State::Ended(0),
    State::Ended(1),
    State::Ended(2),
    State::Ended(3),
    State::Waiting,
    State::Running,
    State::Polled,
    State::CancelledRuns,
    State::Suspended,
    State::CancelledSuspended,
];

/// Every try that can come up.
pub fn all_tries() -> Vec<Try> {
    let accepted =
        Asked::ALL.iter().flat_map(|asked| STATES.map(|state| Try::Accepted(*asked, state)));
    let refused = Asked::ALL.iter().flat_map(|asked| [9, 10].map(|n| Try::Refused(*asked, n)));
    let at_address = Asked::ALL.into_iter().filter(|asked| asked.is_at_address());
    let outside = at_address.map(|asked| Try::Refused(asked, 12));
    let of_memory = [Try::FirstByte, Try::Inside, Try::LastByte];
    let of_wear = Worn::ALL.map(Try::Wear);
    accepted.chain(refused).chain(outside).chain(of_memory).chain(of_wear).collect()
}

impl Tried {
    pub fn count(&self, tried: Try) -> u64 {
        self.counts.get(&tried).copied().unwrap_or(0)
    }

    /// The tries that came up less often than so.
    pub fn rarer_than(&self, often: u64) -> Vec<(Try, u64)> {
        let counts = all_tries().into_iter().map(|tried| (tried, self.count(tried)));
        counts.filter(|(_, count)| *count < often).collect()
    }

    /// Adds the answers of a manager, if there is one, at a place.
    pub(super) fn add(&mut self, manager: Option<&Manager>, place: Place, answers: &Answers) {
        let area = segments::index(u64::from(place.area));
        let known = manager.filter(|manager| area < manager.plan().areas.len());
        let states = known.map_or_else(Vec::new, |manager| states(manager, area));
        // Most do not read the address; address 0 is asked of every area.
        let counts = |asked: Asked| asked.is_at_address() || place.address == 0;
        for (asked, number) in numbers(answers).into_iter().filter(|(asked, _)| counts(*asked)) {
            match number {
                0 => states.iter().for_each(|state| self.add_try(Try::Accepted(asked, *state))),
                number => self.add_try(Try::Refused(asked, number)),
            }
        }
        if answers.memory_info.number == 0 {
            let tried = known.and_then(|manager| spot(manager, area, place.address));
            tried.into_iter().for_each(|tried| self.add_try(tried));
        }
        if let (Some(manager), 0) = (known, answers.wear_info.number) {
            let worn = worn(manager.plan(), area, place.address, answers.wear_info.value);
            worn.into_iter().for_each(|worn| self.add_try(Try::Wear(worn)));
        }
    }

    fn add_try(&mut self, tried: Try) {
        *self.counts.entry(tried).or_default() += 1;
    }
}

fn numbers(answers: &Answers) -> [(Asked, u8); 6] {
    [
        (Asked::Status, answers.status.number),
        (Asked::Result, answers.result.number),
        (Asked::Processed, answers.processed.number),
        (Asked::JobInfo, answers.job_info.number),
        (Asked::MemoryInfo, answers.memory_info.number),
        (Asked::WearInfo, answers.wear_info.number),
    ]
}

/// All that stand of a known area.
fn states(manager: &Manager, area: usize) -> Vec<State> {
    let number = u32::try_from(area).expect("at most 8 areas");
    let info = manager.job_info(number).expect("a known area");
    let devices = 0..manager.plan().devices.len();
    let polls = devices.clone().find_map(|device| match manager.device(device) {
        DeviceState::Running(request) if request.area == area => Some(request.polls),
        _ => None,
    });
    let is_suspended =
        devices.filter_map(|device| manager.suspended(device)).any(|erase| erase.area == area);
    let is_cancelled = manager.is_cancelled(area);
    let holds = [
        (State::NoJob, info.job_type == 0),
        (State::Ended(info.result), info.job_type > 0 && manager.status(number) == Ok(0)),
        (State::Waiting, manager.status(number) == Ok(1) && polls.is_none() && !is_suspended),
        (State::Running, polls.is_some()),
        (State::Polled, polls.is_some_and(|polls| polls > 0)),
        (State::CancelledRuns, polls.is_some() && is_cancelled),
        (State::Suspended, is_suspended),
        (State::CancelledSuspended, is_suspended && is_cancelled),
    ];
    holds.into_iter().filter(|(_, holds)| *holds).map(|(state, _)| state).collect()
}

/// Where an address lies in its sub-area, if that is not the first of its area.
fn spot(manager: &Manager, area: usize, address: u32) -> Option<Try> {
    let address = u64::from(address);
    let placed = segments::placed(manager.plan(), area)
        .skip(1)
        .find(|placed| placed.logical.contains(&address))?;
    Some(if address == placed.logical.start {
        Try::FirstByte
    } else if address + 1 == placed.logical.end {
        Try::LastByte
    } else {
        Try::Inside
    })
}

/// All that wear info says of the sub-area at an address.
fn worn(plan: &Plan, area: usize, address: u32, info: WearInfo) -> Vec<Worn> {
    let placed = segments::holder(plan, area, u64::from(address)).expect("inside the area");
    let total = plan
        .endurance(placed.number)
        .map(|endurance| u128::from(endurance) * u128::from(placed.sub_area.sector_count));
    let (sum, charge) = (u128::from(info.sum), u128::from(info.charge));
    match total {
        Some(_) if sum == 0 => vec![Worn::FreshWithRecord],
        None if sum == 0 => vec![Worn::FreshWithoutRecord],
        None => vec![Worn::WithoutRecord],
        Some(total) => {
            let is_exact = charge * total == sum * 1_000_000;
            let mut worn = vec![if is_exact { Worn::Exact } else { Worn::RoundedUp }];
            worn.extend((charge > 1_000_000).then_some(Worn::Beyond));
            worn
        }
    }
}

impl fmt::Display for Tried {
    fn fmt(&self, f: &mut fmt::Formatter<'_>) -> fmt::Result {
        write!(f, "{} sessions", self.sessions)?;
        self.counts.iter().try_for_each(|(tried, count)| write!(f, "\n{tried:?}: {count}"))
    }
}
