//! The two bounds of demand 3 on a job's numbers: functions of the plan and the job alone.

use super::{Task, WaitBook, Work};

impl WaitBook {
    /// "Own is at most patience times (retries + 1), summed over the job's pieces." A lock request
    /// has no piece.
    pub fn own_bound(&self, work: &Work) -> u128 {
        match &work.task {
            Task::Pieces(_, pieces) => {
                let attempts = |retries: u8| u128::from(retries) + 1;
                pieces.iter().map(|p| self.patience(p.device) * attempts(p.retries)).sum()
            }
            Task::LockOf(_) => 0,
        }
    }

    /// "Below is at most patience less one, summed over its stretches on one chip." On chips that can
    /// suspend "the bound on rounds below becomes twice (patience less one) per stretch, for every
    /// job type".
    pub fn below_bound(&self, work: &Work) -> u128 {
        let times =
            |device: usize| if self.plan.devices[device].chip.can_suspend() { 2 } else { 1 };
        self.below_sum(work, times)
    }

    /// The bound as it was before chips could suspend.
    pub fn single_below_bound(&self, work: &Work) -> u128 {
        self.below_sum(work, |_| 1)
    }

    /// Patience less one so many times, summed over the job's stretches.
    fn below_sum(&self, work: &Work, times: impl Fn(usize) -> u128) -> u128 {
        let stretches = stretches(work).into_iter();
        stretches.map(|device| times(device) * (self.patience(device) - 1)).sum()
    }

    fn patience(&self, device: usize) -> u128 {
        u128::from(self.plan.devices[device].patience)
    }
}

/// The devices of a job's stretches: "A stretch is a longest run of consecutive pieces on one
/// device; a lock request has one stretch and no piece."
fn stretches(work: &Work) -> Vec<usize> {
    match &work.task {
        Task::Pieces(_, pieces) => {
            let mut devices: Vec<_> = pieces.iter().map(|piece| piece.device).collect();
            devices.dedup();
            devices
        }
        Task::LockOf(device) => vec![*device],
    }
}
