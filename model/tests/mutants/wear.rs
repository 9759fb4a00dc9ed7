//! The wear account kept by another hand, mostly a wrong one, and wrong charges: answers to the wear query
//! when a session is over.
//!
//! The keeper hears how each request ends; when the session is over, the manager gets its sums.

use super::queries::{wrong, WrongAnswers};
use model::answers::{Answers, Place, Queried};
use model::calls::Call;
use model::jobs::{Answer, Operation};
use model::manager::{DeviceState, Manager, Request, WearInfo};
use model::plan::{Plan, SubArea};
use model::script::Script;
use model::segments;
use model::session::{call_of, Session};

/// A request that has ended.
pub struct Ended {
    pub operation: Operation,
    /// Pending if it was dropped.
    pub answer: Answer,
    pub is_cancelled: bool,
    /// It was suspended before.
    pub is_resumed: bool,
    pub sub_area: usize,
    pub bytes: u32,
    pub sectors: u32,
}

impl Ended {
    fn is_erase(&self) -> bool {
        self.operation == Operation::Erase
    }

    pub fn is_done_erase(&self) -> bool {
        self.is_erase() && self.answer == Answer::Done
    }

    fn is_failed_erase(&self) -> bool {
        self.is_erase() && matches!(self.answer, Answer::Failed(_))
    }

    fn is_dropped_erase(&self) -> bool {
        self.is_erase() && self.answer == Answer::Pending
    }
}

/// The sums of the sub-areas of a plan.
pub struct Account {
    plan: Plan,
    sums: Vec<u32>,
}

impl Account {
    fn add(&mut self, sub_area: usize, sectors: u32) {
        self.sums[sub_area] = self.sums[sub_area].saturating_add(sectors);
    }

    /// Adds to all sub-areas that have this in common with the one.
    fn add_to_all<T: PartialEq>(&mut self, one: usize, sectors: u32, common: fn(&SubArea) -> T) {
        let wanted = common(&self.plan.sub_areas[one]);
        for sub_area in 0..self.sums.len() {
            if common(&self.plan.sub_areas[sub_area]) == wanted {
                self.add(sub_area, sectors);
            }
        }
    }

    /// As the rules have it.
    fn keep(&mut self, ended: &Ended) {
        if ended.is_done_erase() {
            self.add(ended.sub_area, ended.sectors);
        }
    }
}

type Keeper = fn(&mut Account, &Ended);

pub struct WrongWear {
    pub name: &'static str,
    keeper: Keeper,
}

impl Queried for WrongWear {
    fn after<'a>(&'a self, script: &'a Script) -> Box<dyn Fn(Place) -> Answers + 'a> {
        let (image, store) = script.lending.memory();
        let manager = match Session::lent(&script.plan, image, store) {
            Ok(session) => Some(self.kept(session, script)),
            Err(_) => Manager::load(&script.plan).ok(),
        };
        Box::new(move |place| Answers::of(manager.as_ref(), place))
    }
}

impl WrongWear {
    /// The manager that a session leaves, with the sums of the account.
    fn kept(&self, mut session: Session, script: &Script) -> Manager {
        let plan = session.manager.plan().clone();
        let mut account = Account { sums: vec![0; plan.sub_areas.len()], plan };
        let mut is_resumed = [false; 8];
        for line in &script.lines {
            let before = session.manager.clone();
            let is_round = session.answer(line).starts_with('R');
            if let (Some(Call::Round(answers)), true) =
                (call_of(line, before.plan().devices.len()), is_round)
            {
                for (request, answer) in ends(&before, answers) {
                    let resumed = std::mem::take(&mut is_resumed[request.area]);
                    (self.keeper)(&mut account, &ended(&before, &request, answer, resumed));
                }
                for erase in resumed(&before, &session.manager) {
                    is_resumed[erase.area] = true;
                }
            }
        }
        for (sub_area, sum) in account.sums.into_iter().enumerate() {
            session.manager.set_wear(sub_area, sum);
        }
        session.manager
    }
}

/// The requests that a round ends, with the answers that they take.
fn ends(before: &Manager, answers: [Answer; 4]) -> Vec<(Request, Answer)> {
    let devices = (0..before.plan().devices.len()).zip(answers);
    let end = |(device, answer): (usize, Answer)| match before.device(device) {
        DeviceState::Running(request) => {
            let polls_left = before.plan().devices[device].patience - request.polls;
            (answer != Answer::Pending || polls_left == 1).then_some((request, answer))
        }
        DeviceState::Free | DeviceState::Locked(_) => None,
    };
    devices.filter_map(end).collect()
}

fn ended(before: &Manager, request: &Request, answer: Answer, is_resumed: bool) -> Ended {
    let mut sub_areas = before.plan().sub_areas.iter();
    let sub_area = sub_areas.position(|s| s.bytes().contains(&request.piece.start));
    let sub_area = sub_area.expect("a request lies in a sub-area");
    let bytes = u32::try_from(request.piece.length).expect("inside the image");
    Ended {
        operation: request.operation,
        answer,
        is_cancelled: before.is_cancelled(request.area),
        is_resumed,
        sub_area,
        bytes,
        sectors: bytes / before.plan().sub_areas[sub_area].sector,
    }
}

/// The erases that were suspended before a round and are not any more.
fn resumed(before: &Manager, after: &Manager) -> Vec<Request> {
    let devices = 0..before.plan().devices.len();
    let resumed = devices.filter(|device| after.suspended(*device).is_none());
    resumed.filter_map(|device| before.suspended(device)).collect()
}

/// No mutant: the account is kept by another hand, but as the rules have it.
pub fn right_wear() -> WrongWear {
    WrongWear { name: "the right wear", keeper: Account::keep }
}

fn keeper(name: &'static str, keeper: Keeper) -> WrongWear {
    WrongWear { name, keeper }
}

/// Whose account is kept wrongly.
pub fn all() -> Vec<WrongWear> {
    let mut all = of_failures();
    all.extend(of_endings());
    all.extend(of_sums());
    all
}

/// Erases that wear though they were not done.
fn of_failures() -> Vec<WrongWear> {
    vec![
        keeper("a failed erase wears", |account, ended| {
            account.keep(ended);
            if ended.is_failed_erase() {
                account.add(ended.sub_area, ended.sectors);
            }
        }),
        keeper("a failed erase wears what it has erased", |account, ended| {
            account.keep(ended);
            if let (true, Answer::Failed(k)) = (ended.is_erase(), ended.answer) {
                account.add(ended.sub_area, k.min(ended.bytes) / (ended.bytes / ended.sectors));
            }
        }),
        keeper("a dropped erase wears", |account, ended| {
            account.keep(ended);
            if ended.is_dropped_erase() {
                account.add(ended.sub_area, ended.sectors);
            }
        }),
    ]
}

/// Which done requests wear.
fn of_endings() -> Vec<WrongWear> {
    vec![
        keeper("a done erase of a cancelled job does not wear", |account, ended| {
            if !ended.is_cancelled {
                account.keep(ended);
            }
        }),
        keeper("a resumed erase does not wear", |account, ended| {
            if !ended.is_resumed {
                account.keep(ended);
            }
        }),
        keeper("a resumed erase wears twice", |account, ended| {
            account.keep(ended);
            if ended.is_resumed {
                account.keep(ended);
            }
        }),
        keeper("a done write wears", |account, ended| {
            account.keep(ended);
            if (ended.operation, ended.answer) == (Operation::Write, Answer::Done) {
                account.add(ended.sub_area, 1);
            }
        }),
    ]
}

/// What a done erase adds, and to which sum.
fn of_sums() -> Vec<WrongWear> {
    vec![
        keeper("wear is counted by device", |account, ended| {
            if ended.is_done_erase() {
                account.add_to_all(ended.sub_area, ended.sectors, |s| s.device);
            }
        }),
        keeper("wear is counted by area", |account, ended| {
            if ended.is_done_erase() {
                account.add_to_all(ended.sub_area, ended.sectors, |s| s.area);
            }
        }),
        keeper("wear is counted in bytes", |account, ended| {
            if ended.is_done_erase() {
                account.add(ended.sub_area, ended.bytes);
            }
        }),
        keeper("wear is counted in pieces", |account, ended| {
            if ended.is_done_erase() {
                account.add(ended.sub_area, 1);
            }
        }),
        keeper("a sub-area without record has no sum", |account, ended| {
            if account.plan.endurance(ended.sub_area).is_some() {
                account.keep(ended);
            }
        }),
    ]
}

/// Sums that go wrong near their limit: sessions of many erases show it.
pub fn of_limits() -> Vec<WrongWear> {
    vec![
        keeper("the sum wraps", |account, ended| {
            if ended.is_done_erase() {
                let sum = &mut account.sums[ended.sub_area];
                *sum = sum.wrapping_add(ended.sectors);
            }
        }),
        keeper("the sum stays where the next erase would go beyond", |account, ended| {
            if ended.is_done_erase() {
                let sum = &mut account.sums[ended.sub_area];
                *sum = sum.checked_add(ended.sectors).unwrap_or(*sum);
            }
        }),
        keeper("the sum sticks at 2,147,483,647", |account, ended| {
            account.keep(ended);
            let sum = &mut account.sums[ended.sub_area];
            *sum = (*sum).min(2_147_483_647);
        }),
    ]
}

/// The sub-area that wear info is asked of and its total endurance, if it has a record.
fn asked(manager: &Manager, place: Place) -> Option<(&SubArea, u128)> {
    let area = segments::index(u64::from(place.area));
    let plan = Some(manager.plan()).filter(|plan| area < plan.areas.len())?;
    let placed = segments::holder(plan, area, u64::from(place.address))?;
    let endurance = plan.endurance(placed.number)?;
    Some((placed.sub_area, u128::from(endurance) * u128::from(placed.sub_area.sector_count)))
}

/// From the sum in millionths and the total endurance to a charge.
type Charge = fn(u128, u128, &SubArea) -> u128;

/// Wear info with another charge where there is a record.
fn charged(name: &str, charge: Charge) -> WrongAnswers {
    wrong(name, move |manager, place, answers| {
        let info = &mut answers.wear_info.value;
        if let Some((sub_area, total)) = asked(manager, place) {
            let charge = charge(u128::from(info.sum) * 1_000_000, total, sub_area);
            info.charge = u64::try_from(charge).unwrap_or(u64::MAX);
        }
    })
}

/// No mutant: the charge is worked out by another hand, but as the rules have it.
pub fn right_charges() -> WrongAnswers {
    charged("the right charges", |worn, total, _| worn.div_ceil(total))
}

pub fn of_charges() -> Vec<WrongAnswers> {
    vec![
        charged("the charge is rounded down", |worn, total, _| worn / total),
        charged("the charge is rounded to the nearest", |worn, total, _| {
            (worn + total / 2) / total
        }),
        charged("the charge is one more than rounded down", |worn, total, _| worn / total + 1),
        charged("the charge leaves the sector count out", |worn, total, sub_area| {
            worn.div_ceil(total / u128::from(sub_area.sector_count))
        }),
        charged("the charge leaves the endurance out", |worn, _, sub_area| {
            worn.div_ceil(u128::from(sub_area.sector_count))
        }),
        charged("the total endurance is of bytes", |worn, total, sub_area| {
            worn.div_ceil(total * u128::from(sub_area.sector))
        }),
        charged("the total endurance has 32 bits", |worn, total, _| {
            worn.div_ceil((total % (1 << 32)).max(1))
        }),
        charged("the charge is at most a million", |worn, total, _| {
            worn.div_ceil(total).min(1_000_000)
        }),
        charged("the charge is in thousandths", |worn, total, _| (worn / 1_000).div_ceil(total)),
        wrong("a sub-area without record has the charge of endurance 1", |_, _, answers| {
            let WearInfo { sum, charge } = answers.wear_info.value;
            if charge == 0 {
                answers.wear_info.value.charge = u64::from(sum) * 1_000_000;
            }
        }),
    ]
}

/// Charges that go wrong where they are great: sessions of many erases show it.
pub fn of_great_charges() -> Vec<WrongAnswers> {
    vec![
        charged("the charge has 32 bits", |worn, total, _| worn.div_ceil(total) % (1 << 32)),
        charged("the sum in millionths has 32 bits", |worn, total, _| {
            (worn % (1 << 32)).div_ceil(total)
        }),
    ]
}

/// Fields exchanged or left out, and another sub-area's.
pub fn of_answers() -> Vec<WrongAnswers> {
    vec![
        wrong("sum and charge are exchanged", |_, _, answers| {
            let WearInfo { sum, charge } = answers.wear_info.value;
            let sum_of_charge = u32::try_from(charge).unwrap_or(u32::MAX);
            answers.wear_info.value = WearInfo { sum: sum_of_charge, charge: sum.into() };
        }),
        wrong("no sum", |_, _, answers| answers.wear_info.value.sum = 0),
        wrong("no charge", |_, _, answers| answers.wear_info.value.charge = 0),
        wrong("the wear of the area's first sub-area", |manager, place, answers| {
            if answers.wear_info.number == 0 {
                let area = &manager.plan().areas[segments::index(u64::from(place.area))];
                let first = Place { address: area.logical_start, ..place };
                answers.wear_info = Answers::of(Some(manager), first).wear_info;
            }
        }),
        wrong("the wear at the next byte", |manager, place, answers| {
            let next = Place { address: place.address.saturating_add(1), ..place };
            let info = Answers::of(Some(manager), next).wear_info;
            if answers.wear_info.number == 0 && info.number == 0 {
                answers.wear_info = info;
            }
        }),
    ]
}

/// Refused queries that tell something.
pub fn of_refusals() -> Vec<WrongAnswers> {
    vec![
        wrong("the wear of the byte behind the area", |manager, place, answers| {
            if answers.wear_info.number == 12 {
                let last = Place { address: place.address.wrapping_sub(1), ..place };
                answers.wear_info = Answers::of(Some(manager), last).wear_info;
            }
        }),
        wrong("wear info is not refused by 12", |_, _, answers| {
            if answers.wear_info.number == 12 {
                answers.wear_info.number = 0;
            }
        }),
        wrong("refused wear info has a sum", |_, _, answers| {
            if answers.wear_info.number > 0 {
                answers.wear_info.value.sum = 1;
            }
        }),
        wrong("refused wear info has a charge", |_, _, answers| {
            if answers.wear_info.number > 0 {
                answers.wear_info.value.charge = 1;
            }
        }),
    ]
}
