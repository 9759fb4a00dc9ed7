//! "The wait book": document 01's definition of what the four counts of demand 3 must be, over the
//! plan and the arguments of the calls, with the image and store that a round is lent. It keeps the
//! order of Req 01 of document 02 as well, the suspended erases of Req 02 and the done ones of Req 05.
//!
//! The book reads no field of the manager and no answer of it. With the manager it shares the terms
//! of [`crate::jobs`], the cutting of jobs into pieces and the questions at the door, which it asks
//! of its own state. Everything else is written a second time and in another style: every call is a
//! function from an old book to the next, a round first says what becomes of every device and then
//! makes every entry anew, jobs go through a list of their pieces instead of measuring the rest of
//! their range, the order of acceptance is a list of areas instead of a count, a suspended erase is kept
//! with its area instead of its device, and wear is a list of erases instead of a sum.

mod bounds;
mod round;
mod wear;

pub use round::{Fate, Finished, Outcome};
pub use wear::Erased;

use crate::admission::{self, Standing};
use crate::jobs::{Job, JobType, Operation, Target};
use crate::plan::Plan;
use crate::segments::{self, Piece};
use std::rc::Rc;

#[derive(Clone, Debug, PartialEq, Eq)]
pub struct WaitBook {
    plan: Rc<Plan>,
    stations: Vec<Station>,
    entries: Vec<Entry>,
    /// The pending areas, the earliest accepted first: "The state and the wait book therefore keep
    /// the order in which pending jobs were accepted."
    order: Vec<usize>,
    /// Of all jobs, in order: "the done erases in the history".
    erased: Vec<Erased>,
}

/// "for each device what runs there with its polls, or the area it is locked for"
#[derive(Clone, Copy, Debug, PartialEq, Eq)]
pub enum Station {
    Nothing,
    Runs { area: usize, piece: Piece, polls: u64 },
    LockedFor(usize),
}

/// "for each area its latest job with next piece and retries left, whether it is pending, whether
/// it is cancelled, whether a round ended it, and rounds, own, above, below and locked, numbers
/// without a limit"
#[derive(Clone, Debug, PartialEq, Eq)]
pub struct Entry {
    pub work: Option<Work>,
    /// The number of the next piece, from 0.
    pub next: usize,
    pub retries_left: u8,
    /// The polls of the next piece while it is a suspended erase: "the book keeps it with its polls".
    pub suspended: Option<u64>,
    pub is_pending: bool,
    pub is_cancelled: bool,
    pub round_ended_it: bool,
    pub numbers: Numbers,
    /// Not part of document 01's book: the latest job's requests that were answered done, in order.
    pub done: Vec<Piece>,
}

/// A job and what it consists of.
#[derive(Clone, Debug, PartialEq, Eq)]
pub struct Work {
    pub job: Job,
    pub task: Task,
}

#[derive(Clone, Debug, PartialEq, Eq)]
pub enum Task {
    Pieces(Operation, Rc<[Piece]>),
    LockOf(usize),
}

/// In 128 bits no list of calls brings them to a limit.
#[derive(Clone, Copy, Debug, Default, PartialEq, Eq)]
pub struct Numbers {
    pub rounds: u128,
    pub own: u128,
    pub above: u128,
    pub below: u128,
    pub locked: u128,
}

impl Entry {
    /// "At the start nothing runs, is locked or pending, and the numbers are 0."
    fn blank() -> Entry {
        Entry {
            work: None,
            next: 0,
            retries_left: 0,
            suspended: None,
            is_pending: false,
            is_cancelled: false,
            round_ended_it: false,
            numbers: Numbers::default(),
            done: Vec::new(),
        }
    }

    /// "a job or lock sets its area's five numbers to 0"
    fn of_new(work: Work) -> Entry {
        let first_retries = work.task.piece(0).map_or(0, |piece| piece.retries);
        Entry { work: Some(work), retries_left: first_retries, is_pending: true, ..Entry::blank() }
    }

    pub fn is_lock(&self) -> bool {
        matches!(self.work, Some(Work { task: Task::LockOf(_), .. }))
    }

    pub fn is_erase(&self) -> bool {
        matches!(self.work, Some(Work { task: Task::Pieces(Operation::Erase, _), .. }))
    }

    /// The first piece not yet done.
    pub fn next_piece(&self) -> Option<Piece> {
        self.work.as_ref()?.task.piece(self.next)
    }

    /// "The device a job needs is that of its first piece not yet done, or of its lock request's
    /// range." None if the job is not pending.
    pub fn needs(&self) -> Option<usize> {
        let work = self.work.as_ref().filter(|_| self.is_pending)?;
        match work.task {
            Task::Pieces(..) => self.next_piece().map(|piece| piece.device),
            Task::LockOf(device) => Some(device),
        }
    }
}

impl Task {
    fn piece(&self, number: usize) -> Option<Piece> {
        match self {
            Task::Pieces(_, pieces) => pieces.get(number).copied(),
            Task::LockOf(_) => None,
        }
    }
}

impl Standing for WaitBook {
    fn is_pending(&self, area: usize) -> bool {
        self.entries[area].is_pending
    }

    fn lock_holder(&self, device: usize) -> Option<usize> {
        match self.stations[device] {
            Station::LockedFor(area) => Some(area),
            _ => None,
        }
    }
}

impl WaitBook {
    pub fn of(plan: &Plan) -> WaitBook {
        WaitBook {
            plan: Rc::new(plan.clone()),
            stations: plan.devices.iter().map(|_| Station::Nothing).collect(),
            entries: plan.areas.iter().map(|_| Entry::blank()).collect(),
            order: Vec::new(),
            erased: Vec::new(),
        }
    }

    pub fn entry(&self, area: usize) -> &Entry {
        &self.entries[area]
    }

    pub fn station(&self, device: usize) -> Station {
        self.stations[device]
    }

    /// The area whose erase is suspended on the device, and the polls of that erase.
    pub fn suspended_on(&self, device: usize) -> Option<(usize, u64)> {
        let polls = |entry: &Entry| entry.suspended.filter(|_| entry.needs() == Some(device));
        let mut entries = self.entries.iter().enumerate();
        entries.find_map(|(area, entry)| polls(entry).map(|polls| (area, polls)))
    }

    pub fn order(&self) -> &[usize] {
        &self.order
    }

    /// The book after a job, and the number that the questions give it.
    pub fn job(self, operation: Operation, target: Target) -> (WaitBook, u8) {
        match admission::job(&self.plan, &self, operation, target) {
            Err(number) => (self, number),
            Ok(area) => {
                let range = target.addresses();
                let pieces = segments::pieces(&self.plan, operation, area, range).collect();
                let job = Job { job_type: JobType::Operation(operation), target };
                let work = Work { job, task: Task::Pieces(operation, pieces) };
                (self.with_new(area, work), 0)
            }
        }
    }

    /// The book after a lock, and the number that the questions give it.
    pub fn lock(self, target: Target) -> (WaitBook, u8) {
        match admission::lock(&self.plan, &self, target) {
            Err(number) => (self, number),
            Ok(lock) => {
                let job = Job { job_type: JobType::LockRequest, target };
                let work = Work { job, task: Task::LockOf(lock.device) };
                (self.with_new(lock.area, work), 0)
            }
        }
    }

    /// The book after a release, and the number that the questions give it.
    pub fn release(self, target: Target) -> (WaitBook, u8) {
        match admission::release(&self.plan, &self, target) {
            Err(number) => (self, number),
            Ok(lock) => (self.with_station(lock.device, Station::Nothing), 0),
        }
    }

    /// The book after a cancel, and the number that the questions give it. A job without a running
    /// request or a suspended erase ends; one with either is marked and stays pending.
    pub fn cancel(self, area: u32) -> (WaitBook, u8) {
        match admission::cancel(&self.plan, &self, area) {
            Err(number) => (self, number),
            Ok(area) => {
                let is_pending = self.runs_for(area) || self.entries[area].suspended.is_some();
                let entry = Entry { is_pending, is_cancelled: true, ..self.entries[area].clone() };
                (self.with_entry(area, entry).without_ended(), 0)
            }
        }
    }

    fn runs_for(&self, wanted: usize) -> bool {
        self.stations.iter().any(|s| matches!(s, Station::Runs { area, .. } if *area == wanted))
    }

    /// An accepted job or lock comes last in the order. Its area is idle, so it is not there yet.
    fn with_new(mut self, area: usize, work: Work) -> WaitBook {
        self.order.push(area);
        self.with_entry(area, Entry::of_new(work))
    }

    /// Areas whose job has ended leave the order; the others stay as they stand.
    fn without_ended(mut self) -> WaitBook {
        self.order.retain(|area| self.entries[*area].is_pending);
        self
    }

    fn with_entry(mut self, area: usize, entry: Entry) -> WaitBook {
        self.entries[area] = entry;
        self
    }

    fn with_station(mut self, device: usize, station: Station) -> WaitBook {
        self.stations[device] = station;
        self
    }
}
