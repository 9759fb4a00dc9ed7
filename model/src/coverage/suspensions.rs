//! What sessions tried of erases that give way.

use super::follower::{Accepted, Change, Follower, Shown};
use super::{fields, number, Kind};
use crate::jobs::Operation;
use std::cmp::Reverse;

#[derive(Clone, Copy, Debug, PartialEq, Eq, PartialOrd, Ord)]
pub enum Suspension {
    Suspended,
    Resumed,
    /// Another piece began over a suspended erase.
    Followed,
    /// A cancel of a suspended erase, and a suspension of a cancelled one.
    CancelledWhile,
    CancelledBefore,
    /// A round closed with an erase suspended and a lock request waiting for its device.
    LockWaits,
    /// A suspended erase resumed in front of a lock request, or of an erase, that outranks it.
    ResumedBeforeLock,
    ResumedBeforeErase,
    /// An erase ran on in front of a lock request, an erase, or another job that outrank it: the
    /// last stands behind one of the others.
    StaysBeforeLock,
    StaysBeforeErase,
    StaysBeforeOther,
    /// Info of a job of one stretch with more rounds below than its device's patience less one.
    BelowDoubled,
}

impl Suspension {
    pub const ALL: [Suspension; 12] = [
        Suspension::Suspended,
        Suspension::Resumed,
        Suspension::Followed,
        Suspension::CancelledWhile,
        Suspension::CancelledBefore,
        Suspension::LockWaits,
        Suspension::ResumedBeforeLock,
        Suspension::ResumedBeforeErase,
        Suspension::StaysBeforeLock,
        Suspension::StaysBeforeErase,
        Suspension::StaysBeforeOther,
        Suspension::BelowDoubled,
    ];
}

/// What a round brought up on a device, seen before the jobs that it started wait no more.
pub(super) fn came_up(follower: &Follower, device: usize, now: Shown, change: Change) -> Vec<Kind> {
    let Shown::Request { area, job_type, .. } = now else {
        return Vec::new();
    };
    let begins = matches!(change, Change::Begins | Change::Retries);
    let was_suspended = follower.suspended[device].is_some();
    let is_suspended = change == Change::Suspends || (was_suspended && change != Change::Resumes);
    let mut came_up = Vec::new();
    came_up.extend((change == Change::Suspends).then_some(Suspension::Suspended));
    came_up.extend((change == Change::Resumes).then_some(Suspension::Resumed));
    came_up.extend((was_suspended && begins).then_some(Suspension::Followed));
    let gives_way = follower.shown[device].area().filter(|_| change == Change::Suspends);
    let is_cancelled = |job: &Accepted| job.is_cancelled;
    let erase = gives_way.and_then(|area| follower.jobs[area].as_ref());
    came_up.extend(erase.is_some_and(is_cancelled).then_some(Suspension::CancelledBefore));
    let is_lock = |(_, job): (usize, &Accepted)| job.operation.is_none();
    let lock_waits = is_suspended && follower.waiting(device).any(is_lock);
    came_up.extend(lock_waits.then_some(Suspension::LockWaits));
    let is_erase = job_type == u64::from(Operation::Erase.number());
    if is_erase && !is_suspended && follower.plan.devices[device].chip.can_suspend() {
        came_up.extend(passed_over(follower, device, area, change));
    }
    came_up.into_iter().map(Kind::Suspension).collect()
}

/// The jobs that outrank an erase which resumed or ran on.
fn passed_over(
    follower: &Follower,
    device: usize,
    erasing: usize,
    change: Change,
) -> Vec<Suspension> {
    let rank = |area: usize| {
        let number = follower.jobs[area].as_ref().map(|job| job.number);
        (Reverse(follower.plan.areas[area].priority), number)
    };
    let of_job = |job: &Accepted| match (change, job.operation) {
        (Change::Resumes, None) => Some(Suspension::ResumedBeforeLock),
        (Change::Resumes, Some(Operation::Erase)) => Some(Suspension::ResumedBeforeErase),
        (Change::RunsOn, None) => Some(Suspension::StaysBeforeLock),
        (Change::RunsOn, Some(Operation::Erase)) => Some(Suspension::StaysBeforeErase),
        (Change::RunsOn, Some(_)) => Some(Suspension::StaysBeforeOther),
        _ => None,
    };
    let above = follower.waiting(device).filter(|(area, _)| rank(*area) < rank(erasing));
    above.filter_map(|(_, job)| of_job(job)).collect()
}

/// What an accepted cancel brought up.
pub(super) fn of_cancel(follower: &Follower, area: usize) -> Vec<Kind> {
    let mut erases = follower.suspended.iter().flatten();
    let is_suspended = erases.any(|erase| erase.area == area);
    is_suspended.then_some(Kind::Suspension(Suspension::CancelledWhile)).into_iter().collect()
}

/// What info of an area's job brought up.
pub(super) fn of_info(follower: &Follower, area: usize, answer: &[u8]) -> Vec<Kind> {
    let values: Vec<_> = fields(answer).map(number).collect();
    let [_, _, _, _, below, _] = values[..] else {
        return Vec::new();
    };
    let patience = |device: usize| u64::from(follower.plan.devices[device].patience);
    let is_beyond = |job: &Accepted| matches!(job.stretches[..], [d] if below > patience(d) - 1);
    let is_doubled = follower.jobs[area].as_ref().is_some_and(is_beyond);
    is_doubled.then_some(Kind::Suspension(Suspension::BelowDoubled)).into_iter().collect()
}
