//! What sessions tried of the bound on above: a round above is an own round of a job that ranks above.
//!
//! Jobs that may be over count among those above, so that the bound told here may be too large: what comes
//! up to it comes up to the bound itself.

use super::follower::{Accepted, Follower};
use super::{fields, number, Kind};

/// What the job can have of own rounds.
pub(super) fn own_bound(follower: &Follower, job: &Accepted) -> u64 {
    let patience = |device: usize| u64::from(follower.plan.devices[device].patience);
    job.pieces.iter().map(|piece| patience(piece.device) * (u64::from(piece.retries) + 1)).sum()
}

/// Follows the acceptance of an area's job, which comes last among equals.
pub(super) fn accept(follower: &mut Follower, area: usize) {
    let own_of = |area: usize| {
        let job = follower.jobs[area].as_ref().filter(|job| !job.is_over);
        job.map_or(0, |job| own_bound(follower, job))
    };
    let own = own_of(area);
    let is_smaller =
        |other: &usize| follower.plan.areas[*other].priority < follower.plan.areas[area].priority;
    let others = (0..follower.jobs.len()).filter(|other| *other != area);
    let (under, over): (Vec<_>, Vec<_>) = others.partition(is_smaller);
    let above = over.into_iter().map(own_of).sum();
    if let Some(job) = &mut follower.jobs[area] {
        job.above_bound = above;
    }
    for other in under {
        if let Some(job) = &mut follower.jobs[other] {
            job.above_bound += own;
        }
    }
}

/// What info of an area's job brought up.
pub(super) fn of_info(follower: &Follower, area: usize, answer: &[u8]) -> Vec<Kind> {
    let values: Vec<_> = fields(answer).map(number).collect();
    let [_, _, _, above, _, _] = values[..] else {
        return Vec::new();
    };
    let is_at_bound = |job: &Accepted| above > 0 && above == job.above_bound;
    let came_up = follower.jobs[area].as_ref().is_some_and(is_at_bound);
    came_up.then_some(Kind::AboveAtBound).into_iter().collect()
}
