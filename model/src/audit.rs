//! The audit: what a plan and a list of jobs say of reach and waits before anything runs. Which bytes of
//! image and store a job can reach, how it is cut, and how long it can wait if only the jobs of the list
//! are accepted.
//!
//! The figures are those of demand 3 and of the bound on above, worked out by other means than a walk over
//! the segments where there are others: the bytes of a job are mapped one by one (`reach.rs`), and runs and
//! stretches are told from neighbours among them; the sums are the bounds of the wait book.

mod job_lines;
mod plan_lines;
mod reach;

use crate::calls::Call;
use crate::jobs::{Job, JobType, Target};
use crate::manager::Manager;
use crate::plan::{Device, Plan};
use crate::segments::index;
use crate::session::{self, UNREADABLE};
use crate::wait_book::{Task, WaitBook, Work};

/// Bytes of the jobs at most.
pub const JOBS_LIMIT: usize = 262_143;
/// No sum from here on is said.
pub const SUM_LIMIT: u128 = 18_446_744_073_709_551_615;

/// A plan that is taken, with the lines of the jobs as they are read.
pub struct Audit {
    plan: Plan,
    lines: Vec<JobLine>,
}

/// A line of the jobs.
pub enum JobLine {
    NoJob,
    /// By a fresh manager, with this number.
    Refused(Job, u8),
    Admitted(Admitted),
}

/// A job that a fresh manager accepts, with the bounds of demand 3.
pub struct Admitted {
    pub area: usize,
    pub work: Work,
    pub own: u128,
    pub below: u128,
}

/// The whole output for the bytes of the plan, if it can be read, and those of the jobs.
pub fn audit_text(plan: Option<&[u8]>, jobs: &[u8]) -> Vec<u8> {
    let lines = match Audit::of(plan, jobs) {
        Ok(audit) => audit.text_lines(),
        Err(answer) => vec![answer],
    };
    lines.into_iter().flat_map(|line| (line + "\n").into_bytes()).collect()
}

impl Audit {
    /// The audit, or what is printed instead of one: the plan is read as the bench reads it, and before
    /// the jobs.
    pub fn of(plan: Option<&[u8]>, jobs: &[u8]) -> Result<Audit, String> {
        let manager = session::load(plan)?;
        if jobs.len() > JOBS_LIMIT {
            return Err(UNREADABLE.to_string());
        }
        // A last line without its end is one if it has a byte.
        let lines = jobs.split_inclusive(|byte| *byte == b'\n');
        let lines = lines.map(|line| line.strip_suffix(b"\n").unwrap_or(line));
        let lines = lines.map(|line| JobLine::of(&manager, line)).collect();
        Ok(Audit { plan: manager.plan().clone(), lines })
    }

    pub fn lines(&self) -> &[JobLine] {
        &self.lines
    }

    /// Each of them is admitted by itself, whatever the others are.
    pub fn admitted(&self) -> impl Iterator<Item = &Admitted> {
        self.lines.iter().filter_map(|line| match line {
            JobLine::Admitted(job) => Some(job),
            JobLine::NoJob | JobLine::Refused(..) => None,
        })
    }

    /// At most so many rounds above, if no other jobs than those of the list are accepted: a round above
    /// is an own round of another area's job that ranks above, which one of a smaller priority never does.
    pub fn above(&self, job: &Admitted) -> u128 {
        let priority = |job: &Admitted| self.plan.areas[job.area].priority;
        let others = self.admitted().filter(|other| other.area != job.area);
        others.filter(|other| priority(other) >= priority(job)).map(|other| other.own).sum()
    }

    /// Does a lock request of the list, be it the job itself, name a device that the job may need?
    pub fn may_be_locked(&self, job: &Admitted) -> bool {
        let mut locks = self.admitted().filter_map(|lock| match lock.work.task {
            Task::LockOf(device) => Some(device),
            Task::Pieces(..) => None,
        });
        locks.any(|device| lies_on(&self.plan, job.area, device))
    }

    /// At most so many rounds from the acceptance to the end, the round that ends the job included; none if
    /// that has no bound or no figure.
    pub fn rounds(&self, job: &Admitted) -> Option<u128> {
        let sum = job.own + self.above(job) + job.below + 1;
        Some(sum).filter(|sum| !self.may_be_locked(job) && *sum < SUM_LIMIT)
    }

    fn text_lines(&self) -> Vec<String> {
        let mut lines = plan_lines::of(&self.plan);
        for line in &self.lines {
            lines.extend(job_lines::of(self, line));
        }
        lines
    }
}

impl JobLine {
    /// A line is read as the bench reads it, and asked of the fresh manager.
    fn of(fresh: &Manager, line: &[u8]) -> JobLine {
        let plan = fresh.plan();
        let Some(call) = session::call_of(line, plan.devices.len()) else {
            return JobLine::NoJob;
        };
        let (job_type, target) = match call {
            Call::Job(operation, target) => (JobType::Operation(operation), target),
            Call::Lock(target) => (JobType::LockRequest, target),
            Call::Release(_) | Call::Cancel { .. } | Call::Round(_) | Call::Query(..) => {
                return JobLine::NoJob;
            }
        };
        match call.make(&mut fresh.clone(), &mut [], &mut []) {
            0 => JobLine::Admitted(Admitted::of(plan, job_type, target)),
            number => JobLine::Refused(Job { job_type, target }, number),
        }
    }
}

impl Admitted {
    /// What a fresh wait book makes of the job.
    fn of(plan: &Plan, job_type: JobType, target: Target) -> Admitted {
        let area = index(u64::from(target.area));
        let (book, number) = match job_type {
            JobType::Operation(operation) => WaitBook::of(plan).job(operation, target),
            JobType::LockRequest => WaitBook::of(plan).lock(target),
        };
        assert_eq!(number, 0, "the manager has accepted it");
        let work = book.entry(area).work.clone().expect("an accepted job");
        Admitted { area, own: book.own_bound(&work), below: book.below_bound(&work), work }
    }
}

/// Has the area a sub-area on the device?
fn lies_on(plan: &Plan, area: usize, device: usize) -> bool {
    let mut sub_areas = plan.sub_areas.iter();
    sub_areas.any(|s| usize::from(s.area) == area && usize::from(s.device) == device)
}

/// What one stretch on a device adds to the bound on below, worked out: twice on chips that can suspend.
fn below_of_a_stretch(device: &Device) -> String {
    let times = if device.chip.can_suspend() { 2 } else { 1 };
    let patience = u128::from(device.patience);
    format!("{times} x ({patience} - 1) = {}", times * (patience - 1))
}
