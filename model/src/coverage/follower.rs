//! The jobs and devices of a session, told from the plan, the lines and the output.
//!
//! Only what is sure counts: a job is known to wait from its acceptance until its first request is
//! shown, and between a piece that was done and the next one that is shown. Polls, suspended erases and
//! the bytes that were written are known from what is shown and answered.

use super::{above, bursts, clearing, equals, suspensions, wear};
use super::{fields, number, Kind};
use crate::jobs::Operation;
use crate::plan::Plan;
use crate::segments::{self, index, Piece};
use std::ops::Range;

pub(super) struct Follower<'a> {
    pub(super) plan: &'a Plan,
    /// The latest accepted one of each area.
    pub(super) jobs: Vec<Option<Accepted>>,
    /// What each device showed in the last round, with the polls it has had.
    pub(super) shown: Vec<Shown>,
    pub(super) polls: Vec<u64>,
    /// Of each device.
    pub(super) suspended: Vec<Option<Suspended>>,
    /// Of each device: has its request been suspended?
    pub(super) resumed: Vec<bool>,
    /// Of each sub-area the sectors of its done erases.
    pub(super) worn: Vec<u64>,
    /// Of each image byte: has a write acted on it, and no erase since?
    pub(super) written: Vec<bool>,
    /// Accepted jobs and locks of each area.
    acceptances: Vec<u64>,
}

pub(super) struct Accepted {
    /// How many were accepted before it.
    pub(super) number: u64,
    /// None if it is a lock request.
    pub(super) operation: Option<Operation>,
    pub(super) pieces: Vec<Piece>,
    /// The devices of its stretches.
    pub(super) stretches: Vec<usize>,
    pub(super) is_cancelled: bool,
    /// Is it known to have ended?
    pub(super) is_over: bool,
    /// The own rounds at most of the jobs that rank above it, those that may be over among them.
    pub(super) above_bound: u64,
    /// The device that it is known to wait for.
    waits_for: Option<usize>,
}

/// The erase of this area, with these polls.
#[derive(Clone, Copy)]
pub(super) struct Suspended {
    pub(super) area: usize,
    pub(super) polls: u64,
}

#[derive(Clone, Copy, PartialEq, Eq)]
pub(super) enum Shown {
    Nothing,
    Lock,
    Request { area: usize, job_type: u64, start: u64, length: u64 },
}

/// How a device comes to show what it does.
#[derive(Clone, Copy, Debug, PartialEq, Eq)]
pub(super) enum Change {
    /// What it shows is as before.
    RunsOn,
    Begins,
    /// A failed or dropped request begins again.
    Retries,
    /// A request begins, and the erase before it is suspended.
    Suspends,
    /// A suspended erase runs again.
    Resumes,
}

impl Shown {
    fn of(field: &[u8]) -> Shown {
        let numbers: Vec<_> = field.split(|byte| *byte == b':').map(number).collect();
        match numbers[..] {
            [area, job_type, start, length] => {
                Shown::Request { area: index(area), job_type, start, length }
            }
            _ if field == b"L" => Shown::Lock,
            _ => Shown::Nothing,
        }
    }

    pub(super) fn area(self) -> Option<usize> {
        match self {
            Shown::Request { area, .. } => Some(area),
            Shown::Nothing | Shown::Lock => None,
        }
    }
}

impl Accepted {
    /// How many of its bytes have these physical addresses. They are in one sub-area.
    pub(super) fn bytes_in(&self, addresses: Range<u64>) -> u64 {
        let pieces = self.pieces.iter().filter(|piece| addresses.contains(&piece.start));
        pieces.map(|piece| piece.length).sum()
    }

    /// The device of the piece behind this one, if the job surely goes on to it.
    fn device_behind(&self, done: u64) -> Option<usize> {
        let is_check = matches!(self.operation, Some(Operation::Compare | Operation::BlankCheck));
        let behind = self.pieces.iter().skip_while(|piece| piece.start != done).nth(1);
        behind.filter(|_| !self.is_cancelled && !is_check).map(|piece| piece.device)
    }
}

impl<'a> Follower<'a> {
    pub(super) fn of(plan: &'a Plan) -> Self {
        Follower {
            plan,
            jobs: plan.areas.iter().map(|_| None).collect(),
            shown: vec![Shown::Nothing; plan.devices.len()],
            polls: vec![0; plan.devices.len()],
            suspended: vec![None; plan.devices.len()],
            resumed: vec![false; plan.devices.len()],
            worn: vec![0; plan.sub_areas.len()],
            written: vec![false; index(plan.device_sum())],
            acceptances: vec![0; plan.areas.len()],
        }
    }

    /// Of the area with fewest.
    pub(super) fn fewest_acceptances(&self) -> u64 {
        self.acceptances.iter().copied().min().unwrap_or(0)
    }

    /// The areas that are known to wait for the device, with their jobs.
    pub(super) fn waiting(&self, device: usize) -> impl Iterator<Item = (usize, &Accepted)> {
        let jobs = self.jobs.iter().enumerate();
        let jobs = jobs.filter_map(|(area, job)| job.as_ref().map(|job| (area, job)));
        jobs.filter(move |(_, job)| job.waits_for == Some(device))
    }

    /// Follows a line that is read, with its answer, and gives what came up.
    pub(super) fn line(&mut self, line: &[u8], answer: &[u8]) -> Vec<Kind> {
        let numbers: Vec<_> = fields(line).map(number).collect();
        match (&numbers[..], answer) {
            (_, [b'R', ..]) => {
                let words: Vec<_> = fields(line).skip(1).collect();
                return self.round(&words, fields(answer).skip(1).map(Shown::of).collect());
            }
            ([8, area, address, _], b"0") => {
                let device = segments::device(self.plan, index(*area), *address);
                self.shown[device.expect("inside the area")] = Shown::Nothing;
            }
            ([9, area], b"0") => return self.cancel(index(*area)),
            ([10, area], _) => {
                let mut came_up = suspensions::of_info(self, index(*area), answer);
                came_up.extend(above::of_info(self, index(*area), answer));
                return came_up;
            }
            ([job_type, area, address, length], b"0") => {
                self.accept(*job_type, index(*area), *address..*address + *length);
            }
            _ => {}
        }
        Vec::new()
    }

    fn accept(&mut self, job_type: u64, area: usize, range: Range<u64>) {
        let mut operations = Operation::ALL.into_iter();
        let operation = operations.find(|operation| u64::from(operation.number()) == job_type);
        let waits_for = segments::device(self.plan, area, range.start);
        let pieces = operation.map(|o| segments::pieces(self.plan, o, area, range).collect());
        let pieces: Vec<Piece> = pieces.unwrap_or_default();
        // A lock request has no piece and one stretch, where it waits.
        let mut stretches: Vec<_> = waits_for.into_iter().collect();
        stretches.extend(pieces.iter().map(|piece| piece.device));
        stretches.dedup();
        self.jobs[area] = Some(Accepted {
            number: self.acceptances.iter().sum(),
            operation,
            pieces,
            stretches,
            is_cancelled: false,
            is_over: false,
            above_bound: 0,
            waits_for,
        });
        self.acceptances[area] += 1;
        above::accept(self, area);
    }

    fn cancel(&mut self, area: usize) -> Vec<Kind> {
        let came_up = suspensions::of_cancel(self, area);
        let is_suspended = self.suspended.iter().flatten().any(|erase| erase.area == area);
        let has_request = is_suspended || self.shown.iter().any(|s| s.area() == Some(area));
        if let Some(job) = &mut self.jobs[area] {
            job.is_cancelled = true;
            job.is_over |= !has_request;
            job.waits_for = None;
        }
        came_up
    }

    fn round(&mut self, words: &[&[u8]], now: Vec<Shown>) -> Vec<Kind> {
        self.follow_done_pieces(words);
        let mut came_up = Vec::new();
        for (device, shown) in now.into_iter().enumerate() {
            let change = self.change(device, shown, words[device]);
            let of_equals = equals::came_up(self, device, shown, change);
            came_up.extend(of_equals.into_iter().map(Kind::Equals));
            came_up.extend(suspensions::came_up(self, device, shown, change));
            came_up.extend(clearing::came_up(self, device, words[device], change));
            came_up.extend(bursts::came_up(self, shown, change));
            came_up.extend(wear::came_up(self, device, words[device]));
            self.follow_bytes(device, words[device]);
            self.follow_wear(device, words[device]);
            self.follow(device, shown, change);
        }
        came_up
    }

    /// Behind a done piece a job waits for the device of its next one, or is over.
    fn follow_done_pieces(&mut self, words: &[&[u8]]) {
        for (device, word) in words.iter().enumerate() {
            if let (Shown::Request { area, start, .. }, b"d") = (self.shown[device], *word) {
                if let Some(job) = &mut self.jobs[area] {
                    let is_last = job.pieces.last().is_some_and(|piece| piece.start == start);
                    job.is_over |= is_last || job.is_cancelled;
                    job.waits_for = job.device_behind(start);
                }
            }
        }
    }

    /// The bytes that the request shown on a device has acted on, if it is a write or an erase that ends
    /// with this answer.
    pub(super) fn acted(&self, device: usize, word: &[u8]) -> Option<(Operation, Range<usize>)> {
        let Shown::Request { job_type, start, length, .. } = self.shown[device] else {
            return None;
        };
        let mut operations = [Operation::Write, Operation::Erase].into_iter();
        let operation = operations.find(|o| u64::from(o.number()) == job_type)?;
        let acted = match word {
            b"p" => return None,
            b"d" => length,
            k => length.min(number(k)),
        };
        Some((operation, index(start)..index(start + acted)))
    }

    fn follow_bytes(&mut self, device: usize, word: &[u8]) {
        if let Some((operation, bytes)) = self.acted(device, word) {
            self.written[bytes].fill(operation == Operation::Write);
        }
    }

    fn follow_wear(&mut self, device: usize, word: &[u8]) {
        if let (Shown::Request { job_type, start, length, .. }, b"d") = (self.shown[device], word) {
            if job_type == u64::from(Operation::Erase.number()) {
                let sub_area = self.sub_area(start);
                self.worn[sub_area] += length / u64::from(self.plan.sub_areas[sub_area].sector);
            }
        }
    }

    /// The number of the sub-area that holds an image byte.
    pub(super) fn sub_area(&self, address: u64) -> usize {
        let mut sub_areas = self.plan.sub_areas.iter();
        sub_areas.position(|s| s.bytes().contains(&address)).expect("requests lie in sub-areas")
    }

    /// Does a request that runs on a device take this answer and run on?
    pub(super) fn runs_on(&self, device: usize, word: &[u8]) -> bool {
        let patience = u64::from(self.plan.devices[device].patience);
        word == b"p" && self.polls[device] + 1 < patience
    }

    fn change(&self, device: usize, now: Shown, word: &[u8]) -> Change {
        let runs_on = self.runs_on(device, word);
        let is_request = |shown: Shown| shown.area().is_some();
        let erasing = self.suspended[device].map(|erase| erase.area);
        match self.shown[device] {
            before if before == now && (runs_on || !is_request(now)) => Change::RunsOn,
            before if before == now && word != b"d" => Change::Retries,
            _ if erasing.is_some() && now.area() == erasing => Change::Resumes,
            before if is_request(before) && runs_on => Change::Suspends,
            _ => Change::Begins,
        }
    }

    fn follow(&mut self, device: usize, now: Shown, change: Change) {
        let polls = self.polls[device] + 1;
        let suspended = self.suspended[device];
        self.polls[device] = match change {
            Change::RunsOn => polls,
            Change::Resumes => suspended.map_or(0, |erase| erase.polls),
            Change::Begins | Change::Retries | Change::Suspends => 0,
        };
        self.suspended[device] = match change {
            Change::Resumes => None,
            Change::Suspends => self.shown[device].area().map(|area| Suspended { area, polls }),
            Change::RunsOn | Change::Begins | Change::Retries => suspended,
        };
        self.resumed[device] = match change {
            Change::Resumes => true,
            Change::RunsOn => self.resumed[device],
            Change::Begins | Change::Retries | Change::Suspends => false,
        };
        self.wait_no_more(device, now, change);
        self.shown[device] = now;
    }

    /// Whose request is shown, and whoever may have got a lock, waits no more.
    fn wait_no_more(&mut self, device: usize, now: Shown, change: Change) {
        let is_lock_given = now == Shown::Lock && change == Change::Begins;
        for (area, job) in self.jobs.iter_mut().enumerate() {
            let Some(job) = job else {
                continue;
            };
            let may_have_lock = job.operation.is_none() && job.waits_for == Some(device);
            if now.area() == Some(area) || (is_lock_given && may_have_lock) {
                job.waits_for = None;
            }
        }
    }
}
