//! The memory access manager of document 01 with Req 01 to 03 and 05 of document 02: jobs, locks,
//! releases, cancels, rounds and queries over a loaded plan.
//!
//! Every call answers with the number of the first question answered "no", 0 if there is none; a
//! refused call changes nothing. Each asks question 9 first.

mod queries;
mod round;
mod soundness;

pub use queries::{JobInfo, MemoryInfo, RequestInfo, WearInfo};

use crate::admission::{self, Standing};
use crate::jobs::{Job, JobResult, JobType, Operation, Target};
use crate::plan::{self, Plan};
use crate::segments::{self, Piece};

/// The default is "the manager of all zeros".
#[derive(Clone, Debug, Default, PartialEq, Eq)]
pub struct Manager {
    plan: Plan,
    areas: Vec<AreaState>,
    devices: Vec<DeviceState>,
    /// For each device its suspended erase, with the polls that it had: "One erase is parked per
    /// chip".
    suspended: Vec<Option<Request>>,
    /// For each sub-area the sum of its wear, which a record does not ask for.
    wear: Vec<u32>,
    /// Jobs and locks accepted so far, far fewer than 64 bits can count.
    acceptances: u64,
}

#[derive(Clone, Debug, PartialEq, Eq)]
struct AreaState {
    /// The latest job. "After the end, the job's data stays readable."
    job: Option<Job>,
    /// How many were accepted before it, of all areas: "The state and the wait book therefore keep
    /// the order in which pending jobs were accepted."
    acceptance: u64,
    is_pending: bool,
    /// A cancel waits for the end of the running request.
    is_cancelled: bool,
    /// Of the last job that ended: "the old result stands until the job ends".
    result: JobResult,
    processed: u64,
    /// For the piece at the processed length.
    retries_left: u8,
    waits: Waits,
}

#[derive(Clone, Copy, Debug, PartialEq, Eq)]
pub enum DeviceState {
    Free,
    Running(Request),
    /// For this area.
    Locked(usize),
}

/// A piece on its device.
#[derive(Clone, Copy, Debug, PartialEq, Eq)]
pub struct Request {
    pub area: usize,
    pub operation: Operation,
    pub piece: Piece,
    pub polls: u16,
}

/// What a pending job needs next.
enum Need {
    Piece(Operation, Piece),
    /// The lock of this device.
    Lock(usize),
}

/// The reported counts of a job.
#[derive(Clone, Copy, Debug, Default, PartialEq, Eq)]
pub struct Waits {
    pub own: u32,
    pub above: u32,
    pub below: u32,
    pub locked: u32,
}

/// What a round that closes finds a pending job waiting for.
#[derive(Clone, Copy, Debug, PartialEq, Eq)]
pub enum Wait {
    Own,
    Above,
    Below,
    Locked,
}

impl Need {
    /// "Retries per piece": a lock request has none.
    fn retries(&self) -> u8 {
        match self {
            Need::Piece(_, piece) => piece.retries,
            Need::Lock(_) => 0,
        }
    }
}

impl Waits {
    /// "The own, above, below and locked counts stick at 4,294,967,295."
    pub fn add(&mut self, wait: Wait) {
        let count = match wait {
            Wait::Own => &mut self.own,
            Wait::Above => &mut self.above,
            Wait::Below => &mut self.below,
            Wait::Locked => &mut self.locked,
        };
        *count = count.saturating_add(1);
    }
}

impl AreaState {
    /// "Loading yields a fresh area: idle, result 0, no job, all counts 0."
    fn fresh() -> Self {
        AreaState {
            job: None,
            acceptance: 0,
            is_pending: false,
            is_cancelled: false,
            result: JobResult::Ok,
            processed: 0,
            retries_left: 0,
            waits: Waits::default(),
        }
    }

    /// A cancelled job ends with result 3 "for any cause".
    fn end(&mut self, result: JobResult) {
        self.result = if self.is_cancelled { JobResult::Cancelled } else { result };
        self.is_pending = false;
        self.is_cancelled = false;
    }
}

impl Standing for Manager {
    fn is_pending(&self, area: usize) -> bool {
        self.areas[area].is_pending
    }

    fn lock_holder(&self, device: usize) -> Option<usize> {
        match self.devices[device] {
            DeviceState::Locked(area) => Some(area),
            DeviceState::Free | DeviceState::Running(_) => None,
        }
    }
}

impl Manager {
    /// Loads a plan, or gives the number of the question that refuses it.
    pub fn load(bytes: &[u8]) -> Result<Manager, u8> {
        let plan = plan::load(bytes)?;
        let areas = vec![AreaState::fresh(); plan.areas.len()];
        let devices = vec![DeviceState::Free; plan.devices.len()];
        let suspended = vec![None; plan.devices.len()];
        let wear = vec![0; plan.sub_areas.len()];
        Ok(Manager { plan, areas, devices, suspended, wear, acceptances: 0 })
    }

    pub fn plan(&self) -> &Plan {
        &self.plan
    }

    /// What a device does: the bench prints it.
    pub fn device(&self, device: usize) -> DeviceState {
        self.devices[device]
    }

    /// The erase that waits on a device for its resume.
    pub fn suspended(&self, device: usize) -> Option<Request> {
        self.suspended[device]
    }

    /// Does the area's cancelled job wait for the end of its request?
    pub fn is_cancelled(&self, area: usize) -> bool {
        self.areas[area].is_cancelled
    }

    /// What a device does and what is suspended on it: only for tests that make a manager wrong.
    pub fn set_device(&mut self, device: usize, state: DeviceState, suspended: Option<Request>) {
        self.devices[device] = state;
        self.suspended[device] = suspended;
    }

    /// The sums of the sub-areas' wear, in plan order.
    pub fn worn(&self) -> &[u32] {
        &self.wear
    }

    /// The sum of a sub-area's wear, as after many erases: only for tests that come near its limit.
    pub fn set_wear(&mut self, sub_area: usize, sum: u32) {
        self.wear[sub_area] = sum;
    }

    /// The job of an area, pending with so much processed: only for tests that make a manager wrong.
    pub fn set_job(&mut self, area: usize, job: Job, processed: u64) {
        let state = &mut self.areas[area];
        (state.job, state.is_pending, state.processed) = (Some(job), true, processed);
    }

    /// The pending areas, the earliest accepted first.
    pub fn order(&self) -> Vec<usize> {
        let mut order: Vec<_> =
            (0..self.areas.len()).filter(|area| self.areas[*area].is_pending).collect();
        order.sort_by_key(|area| self.areas[*area].acceptance);
        order
    }

    /// As if the areas had been accepted in this order: only for tests that make a manager wrong.
    pub fn reorder(&mut self, order: &[usize]) {
        for area in order {
            self.areas[*area].acceptance = self.acceptances;
            self.acceptances += 1;
        }
    }

    pub fn job(&mut self, operation: Operation, area: u32, address: u32, length: u32) -> u8 {
        let target = Target { area, address, length };
        match self.sound_plan().and_then(|plan| admission::job(plan, self, operation, target)) {
            Ok(area) => self.accept(area, Job { job_type: JobType::Operation(operation), target }),
            Err(number) => number,
        }
    }

    pub fn lock(&mut self, area: u32, address: u32, length: u32) -> u8 {
        let target = Target { area, address, length };
        match self.sound_plan().and_then(|plan| admission::lock(plan, self, target)) {
            Ok(lock) => self.accept(lock.area, Job { job_type: JobType::LockRequest, target }),
            Err(number) => number,
        }
    }

    /// "Release clears the lock."
    pub fn release(&mut self, area: u32, address: u32, length: u32) -> u8 {
        let target = Target { area, address, length };
        match self.sound_plan().and_then(|plan| admission::release(plan, self, target)) {
            Ok(lock) => {
                self.devices[lock.device] = DeviceState::Free;
                0
            }
            Err(number) => number,
        }
    }

    /// "A cancel ends a job without a running request immediately, result 3. With one running, the
    /// area stays pending." And "a cancelled parked erase ends when its resumed request ends".
    pub fn cancel(&mut self, area: u32) -> u8 {
        match self.sound_plan().and_then(|plan| admission::cancel(plan, self, area)) {
            Ok(area) => {
                let has_request = self.running_request(area).is_some() || self.is_suspended(area);
                let state = &mut self.areas[area];
                state.is_cancelled = true;
                if !has_request {
                    state.end(JobResult::Cancelled);
                }
                0
            }
            Err(number) => number,
        }
    }

    /// "An accepted job makes its area pending and sets processed length and counts to 0; the old
    /// result stands until the job ends." It comes last in the order.
    fn accept(&mut self, area: usize, job: Job) -> u8 {
        let state = &mut self.areas[area];
        state.job = Some(job);
        state.acceptance = self.acceptances;
        self.acceptances += 1;
        state.is_pending = true;
        state.processed = 0;
        state.waits = Waits::default();
        self.renew_retries(area);
        0
    }

    /// Retries are per piece: fresh at each new one.
    fn renew_retries(&mut self, area: usize) {
        self.areas[area].retries_left = self.need(area).map_or(0, |need| need.retries());
    }

    /// What the area's job needs next: its piece at the processed length or the lock of its device.
    /// Nothing behind the last piece, or if there never was a job.
    // Inlined, so that a caller which asks for the device alone does not pay for the piece.
    #[inline(always)]
    fn need(&self, area: usize) -> Option<Need> {
        let state = &self.areas[area];
        let job = state.job?;
        let mut rest = job.target.addresses();
        match job.job_type {
            JobType::Operation(operation) => {
                rest.start += state.processed;
                let piece = segments::next_piece(&self.plan, operation, area, rest)?;
                Some(Need::Piece(operation, piece))
            }
            JobType::LockRequest => segments::device(&self.plan, area, rest.start).map(Need::Lock),
        }
    }

    /// The area's request, if one runs.
    fn running_request(&self, area: usize) -> Option<Request> {
        self.devices.iter().find_map(|device| match device {
            DeviceState::Running(request) if request.area == area => Some(*request),
            _ => None,
        })
    }

    /// Is the area's request a suspended erase?
    fn is_suspended(&self, area: usize) -> bool {
        self.suspended.iter().flatten().any(|erase| erase.area == area)
    }
}
