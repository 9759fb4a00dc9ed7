//! The model with erases that give way wrongly: between the halves of a round, after it, or at a
//! cancel, a flaw changes what runs and what is suspended.

use model::admission;
use model::calls::{Call, Query};
use model::jobs::{Answer, Operation};
use model::manager::{DeviceState, JobInfo, Manager, Request};
use model::plan::Chip;
use model::segments;
use model::session::{call_of, Session};
use model::subject::{Model, Subject};

#[derive(Clone, Copy)]
pub enum Flaw {
    /// Of the jobs that are ready on a device, in the order of ranks, the first that this holds for
    /// takes it from what runs or is suspended there.
    GivesWay(fn(&Scene, &Ready) -> bool),
    /// What runs stays where this holds.
    Stays(fn(&Scene) -> bool),
    /// Changes a device after a round; the first manager is the one before it.
    Closed(fn(&Manager, &mut Manager, usize)),
    /// Changes a device before its area is cancelled.
    Cancelled(fn(&mut Manager, usize, u32)),
    /// Info takes a suspended erase as running.
    CountsOwn,
}

/// A device between the halves of a round, with a request that runs or is suspended there.
pub struct Scene {
    pub request: Request,
    pub is_suspended: bool,
    pub is_cancelled: bool,
    pub chip: Chip,
}

/// A job that waits for the device of a scene.
pub struct Ready {
    area: usize,
    job_type: u8,
    pub is_highest: bool,
    pub outranks: bool,
}

impl Scene {
    /// A running erase on a chip that can suspend.
    pub fn may_give_way(&self) -> bool {
        let is_erase = self.request.operation == Operation::Erase;
        self.chip.can_suspend() && is_erase && !self.is_suspended
    }
}

impl Ready {
    pub fn is_lock(&self) -> bool {
        self.job_type == 7
    }

    pub fn is_erase(&self) -> bool {
        self.job_type == 4
    }

    pub fn is_other(&self) -> bool {
        !self.is_lock() && !self.is_erase()
    }
}

/// A session with its flaw, and what it takes to know of each area's latest job.
struct Flawed {
    session: Session,
    flaw: Flaw,
    is_cancelled: [bool; 8],
    /// Rounds closed with its erase suspended.
    rounds_suspended: [u64; 8],
}

pub fn session(
    flaw: Flaw,
    plan: &[u8],
    input: &[u8],
    image: &mut [u8],
    store: &mut [u8],
) -> Vec<u8> {
    let Ok(session) = Session::lent(plan, image.to_vec(), store.to_vec()) else {
        return Model.session(plan, input, image, store);
    };
    let (is_cancelled, rounds_suspended) = ([false; 8], [0; 8]);
    let mut flawed = Flawed { session, flaw, is_cancelled, rounds_suspended };
    let mut output = Vec::new();
    for line in input.split_inclusive(|byte| *byte == b'\n') {
        let answer = flawed.answer(line.strip_suffix(b"\n").unwrap_or(line));
        output.extend((answer + "\n").into_bytes());
    }
    image.copy_from_slice(&flawed.session.image);
    store.copy_from_slice(&flawed.session.store);
    output
}

impl Flawed {
    fn answer(&mut self, line: &[u8]) -> String {
        let Session { manager, image, store, .. } = &self.session;
        let takes_rounds = admission::round(manager.plan(), image.len(), store.len()).is_ok();
        match call_of(line, manager.plan().devices.len()) {
            Some(Call::Round(answers)) if takes_rounds => self.round(answers),
            Some(Call::Cancel { area }) => self.cancel(line, area),
            Some(Call::Job(_, target) | Call::Lock(target)) => {
                let answer = self.session.answer(line);
                if let (b"0", Ok(area)) = (answer.as_bytes(), usize::try_from(target.area)) {
                    (self.is_cancelled[area], self.rounds_suspended[area]) = (false, 0);
                }
                answer
            }
            Some(Call::Query(Query::JobInfo, area)) => self.info(line, area),
            _ => self.session.answer(line),
        }
    }

    fn round(&mut self, answers: [Answer; 4]) -> String {
        let before = self.session.manager.clone();
        let devices = before.plan().devices.len();
        let Session { manager, image, store, .. } = &mut self.session;
        manager.take_answers(answers, image, store);
        let kept: Vec<_> = (0..devices).map(|device| self.step_in(device)).collect();
        self.session.manager.second_half();
        for (device, kept) in kept.into_iter().enumerate() {
            self.close(&before, device, kept);
        }
        self.session.devices_line()
    }

    /// Between the halves. Gives what is suspended on the device after the second, if that is to be
    /// set then.
    fn step_in(&mut self, device: usize) -> Option<Option<Request>> {
        let scene = self.scene(device)?;
        let manager = &mut self.session.manager;
        let erase = Some(scene.request);
        match self.flaw {
            Flaw::GivesWay(takes) => {
                let ready = ready(manager, device, &scene.request);
                let taker = ready.into_iter().find(|ready| takes(&scene, ready))?;
                let Some(request) = request(manager, &taker) else {
                    // To an empty device the rules give the lock.
                    manager.set_device(device, DeviceState::Free, None);
                    return Some(erase);
                };
                manager.set_device(device, DeviceState::Running(request), erase);
                None
            }
            Flaw::Stays(stays) if stays(&scene) => {
                // What runs over a suspended erase stays.
                manager.set_device(device, manager.device(device), erase);
                Some(None)
            }
            _ => None,
        }
    }

    /// None if nothing runs there that could give way, and nothing is suspended.
    fn scene(&self, device: usize) -> Option<Scene> {
        let manager = &self.session.manager;
        let (request, is_suspended) = match (manager.device(device), manager.suspended(device)) {
            (DeviceState::Running(request), None) => (request, false),
            (DeviceState::Free, Some(erase)) => (erase, true),
            _ => return None,
        };
        let is_cancelled = self.is_cancelled[request.area];
        let chip = manager.plan().devices[device].chip;
        Some(Scene { request, is_suspended, is_cancelled, chip })
    }

    fn close(&mut self, before: &Manager, device: usize, kept: Option<Option<Request>>) {
        let manager = &mut self.session.manager;
        if let Some(suspended) = kept {
            manager.set_device(device, manager.device(device), suspended);
        }
        if let Flaw::Closed(change) = self.flaw {
            change(before, manager, device);
        }
        if let Some(erase) = manager.suspended(device) {
            self.rounds_suspended[erase.area] += 1;
        }
    }

    fn cancel(&mut self, line: &[u8], area: u32) -> String {
        if let Flaw::Cancelled(change) = self.flaw {
            for device in 0..self.session.manager.plan().devices.len() {
                change(&mut self.session.manager, device, area);
            }
        }
        let answer = self.session.answer(line);
        if let (b"0", Ok(area)) = (answer.as_bytes(), usize::try_from(area)) {
            self.is_cancelled[area] = true;
        }
        answer
    }

    fn info(&self, line: &[u8], area: u32) -> String {
        let manager = &self.session.manager;
        match (self.flaw, manager.job_info(area), usize::try_from(area)) {
            (Flaw::CountsOwn, Ok(JobInfo { result, processed, waits, .. }), Ok(area)) => {
                let rounds = self.rounds_suspended[area];
                let (own, above) = (u64::from(waits.own) + rounds, u64::from(waits.above) - rounds);
                format!("{result} {processed} {own} {above} {} {}", waits.below, waits.locked)
            }
            _ => self.session.clone().answer(line),
        }
    }
}

/// The jobs that need a device, in the order of ranks, but the one whose request is there.
fn ready(manager: &Manager, device: usize, request: &Request) -> Vec<Ready> {
    let order = manager.order();
    let rank = |area: usize| {
        let place = order.iter().position(|pending| *pending == area);
        (std::cmp::Reverse(manager.plan().areas[area].priority), place)
    };
    let needs = |area: &usize| {
        let info = manager.info_unasked(*area);
        let address = u64::from(info.address) + u64::from(info.processed);
        segments::device(manager.plan(), *area, address) == Some(device) && *area != request.area
    };
    let mut areas: Vec<_> = order.iter().copied().filter(needs).collect();
    areas.sort_by_key(|area| rank(*area));
    let highest = areas.first().copied();
    let ready = |area: usize| Ready {
        area,
        job_type: manager.info_unasked(area).job_type,
        is_highest: highest == Some(area),
        outranks: rank(area) < rank(request.area),
    };
    areas.into_iter().map(ready).collect()
}

/// The request of a ready job's next piece. A lock request has none.
fn request(manager: &Manager, ready: &Ready) -> Option<Request> {
    let info = manager.info_unasked(ready.area);
    let operation = Operation::ALL.into_iter().find(|o| o.number() == ready.job_type)?;
    let start = u64::from(info.address);
    let rest = start + u64::from(info.processed)..start + u64::from(info.length);
    let piece = segments::next_piece(manager.plan(), operation, ready.area, rest)?;
    Some(Request { area: ready.area, operation, piece, polls: 0 })
}
