//! What sessions tried of the order of acceptance.

use super::follower::{Accepted, Change, Follower, Shown};

/// What came up between two areas of equal priority, of which one waited for a device of the other.
#[derive(Clone, Copy, Debug, PartialEq, Eq, PartialOrd, Ord)]
pub enum Equals {
    /// The device took the one with the higher number, or with the lower.
    HigherTaken,
    LowerTaken,
    /// It was locked before the other's piece, or started a piece before the other's lock.
    LockTaken,
    LockLeft,
    /// It took a failed request again.
    RetryTaken,
    /// A round closed with the request of the earlier accepted job running, or of the later.
    EarlierRuns,
    LaterRuns,
    /// A round closed with the request of a cancelled job running.
    CancelledRuns,
}

impl Equals {
    pub const ALL: [Equals; 8] = [
        Equals::HigherTaken,
        Equals::LowerTaken,
        Equals::LockTaken,
        Equals::LockLeft,
        Equals::RetryTaken,
        Equals::EarlierRuns,
        Equals::LaterRuns,
        Equals::CancelledRuns,
    ];
}

/// What a round brought up on a device between areas of equal priority, seen before the jobs that it
/// started wait no more.
pub(super) fn came_up(
    follower: &Follower,
    device: usize,
    now: Shown,
    change: Change,
) -> Vec<Equals> {
    match now {
        Shown::Request { area, .. } => running(follower, device, area, change),
        Shown::Lock if change == Change::Begins => locked(follower, device),
        Shown::Lock | Shown::Nothing => Vec::new(),
    }
}

fn running(follower: &Follower, device: usize, area: usize, change: Change) -> Vec<Equals> {
    let mut came_up = Vec::new();
    let Some(job) = &follower.jobs[area] else {
        return came_up;
    };
    for (other, rival) in equals(follower, device, area) {
        if matches!(change, Change::Begins | Change::Retries) {
            came_up.push(taken(area, other));
            came_up.extend(rival.operation.is_none().then_some(Equals::LockLeft));
        }
        came_up.extend((change == Change::Retries).then_some(Equals::RetryTaken));
        let is_earlier = job.number < rival.number;
        came_up.push(if is_earlier { Equals::EarlierRuns } else { Equals::LaterRuns });
        came_up.extend(job.is_cancelled.then_some(Equals::CancelledRuns));
    }
    came_up
}

/// A device has been locked: it is known for whom if only one lock request waits for it.
fn locked(follower: &Follower, device: usize) -> Vec<Equals> {
    let locks: Vec<_> =
        follower.waiting(device).filter(|(_, job)| job.operation.is_none()).collect();
    let [(area, _)] = locks[..] else {
        return Vec::new();
    };
    let others = equals(follower, device, area);
    others.flat_map(|(other, _)| [taken(area, other), Equals::LockTaken]).collect()
}

/// The other areas of the same priority that are known to wait for the device.
fn equals<'a>(
    follower: &'a Follower,
    device: usize,
    area: usize,
) -> impl Iterator<Item = (usize, &'a Accepted)> {
    let priority = |area: usize| follower.plan.areas[area].priority;
    follower
        .waiting(device)
        .filter(move |(other, _)| *other != area && priority(*other) == priority(area))
}

fn taken(area: usize, other: usize) -> Equals {
    if area > other {
        Equals::HigherTaken
    } else {
        Equals::LowerTaken
    }
}
