//! What the queries answer when a session is over: asked of every area at every border, and
//! compared.

mod tried;

pub use tried::{all_tries, Asked, State, Tried, Try, Worn};

use crate::manager::{JobInfo, Manager, MemoryInfo, Request, WearInfo};
use crate::plan::{self, Plan};
use crate::random::Random;
use crate::script::Script;
use crate::segments;
use crate::session::Session;
use std::collections::BTreeSet;

/// The answer to a query. "any other refusal returns the number and the manager given, other answer
/// fields 0"; an accepted one has number 0.
#[derive(Clone, Copy, Debug, PartialEq, Eq)]
pub struct Answered<T> {
    pub number: u8,
    pub value: T,
}

/// Every query of one area, memory info and wear info at one address.
#[derive(Clone, Copy, Debug, PartialEq, Eq)]
pub struct Answers {
    pub status: Answered<u8>,
    pub result: Answered<u8>,
    pub processed: Answered<u32>,
    pub job_info: Answered<JobInfo>,
    pub memory_info: Answered<MemoryInfo>,
    pub wear_info: Answered<WearInfo>,
}

/// What the queries are asked of.
#[derive(Clone, Copy, Debug, PartialEq, Eq, PartialOrd, Ord)]
pub struct Place {
    pub area: u32,
    pub address: u32,
}

/// Something that plays a session and then answers the queries.
pub trait Queried {
    /// What answers them when the session is over.
    fn after<'a>(&'a self, script: &'a Script) -> Box<dyn Fn(Place) -> Answers + 'a>;
}

/// Answers that are not the same.
#[derive(Clone, Debug)]
pub struct Difference {
    pub place: Place,
    pub expected: Answers,
    pub found: Answers,
}

/// "Does the state pass the team's soundness test? .. the manager of all zeros does not": that of a
/// refused plan.
const UNSOUND: u8 = 9;

/// Areas 0 to 9: the last two are never known.
const AREAS_ASKED: u32 = 10;

impl<T: Default> From<Result<T, u8>> for Answered<T> {
    fn from(answer: Result<T, u8>) -> Self {
        match answer {
            Ok(value) => Answered { number: 0, value },
            Err(number) => Answered { number, value: T::default() },
        }
    }
}

impl Answers {
    /// Of the manager that a session left, if its plan was not refused.
    pub fn of(manager: Option<&Manager>, place: Place) -> Answers {
        let Place { area, address } = place;
        let manager = manager.ok_or(UNSOUND);
        Answers {
            status: manager.and_then(|manager| manager.status(area)).into(),
            result: manager.and_then(|manager| manager.result(area)).into(),
            processed: manager.and_then(|manager| manager.processed(area)).into(),
            job_info: manager.and_then(|manager| manager.job_info(area)).into(),
            memory_info: manager.and_then(|manager| manager.memory_info(area, address)).into(),
            wear_info: manager.and_then(|manager| manager.wear_info(area, address)).into(),
        }
    }
}

/// The manager that a session leaves, that of the load where the bench does not take the plan; none
/// where the plan is refused.
pub fn left_by(script: &Script) -> Option<Manager> {
    let (image, store) = script.lending.memory();
    match Session::lent(&script.plan, image, store) {
        Ok(mut session) => {
            session.feed(&script.input());
            session.finish();
            Some(session.manager)
        }
        Err(_) => Manager::load(&script.plan).ok(),
    }
}

/// The session up to any of its lines; most times, if there is one, up to one that leaves a rare state.
pub fn cut(random: &mut Random, script: &Script) -> Script {
    let any = random.index(script.lines.len() + 1);
    let sought: &[fn(&Manager) -> bool] = match random.below(8) {
        0..=2 => &[],
        3..=4 => &[is_rare],
        5..=6 => &[is_rarest, is_rare],
        _ => &[is_worn_out],
    };
    let mut lengths = sought.iter().map(|is_so| rare_lengths(script, *is_so));
    let lengths = lengths.find(|lengths| !lengths.is_empty());
    let mut part = script.clone();
    part.lines.truncate(lengths.map_or(any, |lengths| random.pick(&lengths)));
    part
}

/// After how many lines the manager is so.
fn rare_lengths(script: &Script, is_so: fn(&Manager) -> bool) -> Vec<usize> {
    let (image, store) = script.lending.memory();
    let Ok(mut session) = Session::lent(&script.plan, image, store) else {
        return Vec::new();
    };
    let mut is_so_after = |line: &[u8]| {
        session.answer(line);
        is_so(&session.manager)
    };
    let rare = script.lines.iter().zip(1..).filter(|(line, _)| is_so_after(line));
    rare.map(|(_, length)| length).collect()
}

/// A cancelled job waits for its request to end, or an erase is suspended.
fn is_rare(manager: &Manager) -> bool {
    let mut areas = 0..manager.plan().areas.len();
    areas.any(|area| manager.is_cancelled(area)) || suspended(manager).next().is_some()
}

/// The erase of a cancelled job is suspended.
fn is_rarest(manager: &Manager) -> bool {
    suspended(manager).any(|erase| manager.is_cancelled(erase.area))
}

/// A sub-area has more wear than its record allows for.
fn is_worn_out(manager: &Manager) -> bool {
    let is_beyond = |place: &Place| {
        let info = manager.wear_info(place.area, place.address);
        info.is_ok_and(|info| info.charge > 1_000_000)
    };
    (0..AREAS_ASKED).any(|area| {
        let addresses = addresses(manager.plan(), area).into_iter();
        addresses.map(|address| Place { area, address }).any(|place| is_beyond(&place))
    })
}

fn suspended(manager: &Manager) -> impl Iterator<Item = Request> + '_ {
    (0..manager.plan().devices.len()).filter_map(|device| manager.suspended(device))
}

/// Areas 0 to 9, whether they are known or not, each at addresses inside and outside, and at both
/// sides of each border of its sub-areas.
pub fn places(plan: &[u8]) -> Vec<Place> {
    let plan = plan::load(plan).ok();
    let places = (0..AREAS_ASKED).flat_map(|area| {
        let addresses = plan.as_ref().map_or_else(BTreeSet::new, |plan| addresses(plan, area));
        let outermost = [0, u32::MAX];
        addresses.into_iter().chain(outermost).map(move |address| Place { area, address })
    });
    places.collect::<BTreeSet<_>>().into_iter().collect()
}

fn addresses(plan: &Plan, area: u32) -> BTreeSet<u32> {
    let area = segments::index(u64::from(area));
    if area >= plan.areas.len() {
        return BTreeSet::from([plan.areas[0].logical_start]);
    }
    let of_sub_area = |placed: segments::Placed| {
        let (start, end) = (placed.logical.start, placed.logical.end);
        [start.checked_sub(1), Some(start), Some(start.midpoint(end)), Some(end - 1), Some(end)]
    };
    let addresses = segments::placed(plan, area).flat_map(of_sub_area).flatten();
    addresses.filter_map(|address| u32::try_from(address).ok()).collect()
}

/// Asks everywhere when the session is over, and adds what that tried.
pub fn compare(
    subject: &dyn Queried,
    script: &Script,
    tried: &mut Tried,
) -> Result<(), Box<Difference>> {
    let manager = left_by(script);
    let answers = subject.after(script);
    for place in places(&script.plan) {
        let (expected, found) = (Answers::of(manager.as_ref(), place), answers(place));
        if expected != found {
            return Err(Box::new(Difference { place, expected, found }));
        }
        tried.add(manager.as_ref(), place, &expected);
    }
    tried.sessions += 1;
    Ok(())
}

/// The session and the answers that differ, for a person to read.
pub fn report(script: &Script, difference: &Difference) -> String {
    let plan: String = script.plan.iter().map(|byte| format!("{byte:02x}")).collect();
    let input = String::from_utf8_lossy(&script.input()).into_owned();
    let Difference { place, expected, found } = difference;
    format!(
        "{place:?}\nof the model: {expected:#?}\nfound: {found:#?}\n\
         plan (hex): {plan}\ninput:\n{input}"
    )
}
