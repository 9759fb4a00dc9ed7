//! What sessions tried of the wear account: how erases ended, and in which sub-areas.

use super::follower::{Follower, Shown};
use super::Kind;
use crate::jobs::Operation;
use crate::plan::Plan;
use crate::plans::every_sub_area_has_a_wear_record;

/// How an erase ended.
#[derive(Clone, Copy, Debug, PartialEq, Eq, PartialOrd, Ord)]
pub enum Wear {
    Done,
    /// Of more than one sector.
    DoneOfSeveral,
    /// It was done, or failed or was dropped, and had been suspended.
    DoneResumed,
    FailedResumed,
    /// It was done, or failed or was dropped, and its job was cancelled.
    DoneCancelled,
    FailedCancelled,
    /// It was done, had been suspended, and its job was cancelled.
    DoneResumedCancelled,
    Failed,
    Dropped,
    /// It was done in a sub-area with a wear record, or in one without.
    WithRecord,
    WithoutRecord,
    /// It was done in a sub-area that has more wear than the record allows for.
    BeyondEndurance,
}

/// What the wear records of a plan are.
#[derive(Clone, Copy, Debug, PartialEq, Eq, PartialOrd, Ord)]
pub enum WearRecords {
    OfNone,
    OfSome,
    OfAll,
    /// Some record has the least endurance, or the most.
    Least,
    Most,
}

impl Wear {
    pub const ALL: [Wear; 12] = [
        Wear::Done,
        Wear::DoneOfSeveral,
        Wear::DoneResumed,
        Wear::FailedResumed,
        Wear::DoneCancelled,
        Wear::FailedCancelled,
        Wear::DoneResumedCancelled,
        Wear::Failed,
        Wear::Dropped,
        Wear::WithRecord,
        Wear::WithoutRecord,
        Wear::BeyondEndurance,
    ];
}

impl WearRecords {
    pub const ALL: [WearRecords; 5] = [
        WearRecords::OfNone,
        WearRecords::OfSome,
        WearRecords::OfAll,
        WearRecords::Least,
        WearRecords::Most,
    ];

    pub(super) fn holds(self, plan: &Plan) -> bool {
        let has = |endurance: u32| plan.wear_records.iter().any(|r| r.endurance == endurance);
        let (is_none, is_all) =
            (plan.wear_records.is_empty(), every_sub_area_has_a_wear_record(plan));
        match self {
            WearRecords::OfNone => is_none,
            WearRecords::OfSome => !is_none && !is_all,
            WearRecords::OfAll => is_all,
            WearRecords::Least => has(1),
            WearRecords::Most => has(u32::MAX),
        }
    }
}

/// What a round brought up on a device with this answer, seen before what it shows then is followed.
pub(super) fn came_up(follower: &Follower, device: usize, word: &[u8]) -> Vec<Kind> {
    let Shown::Request { area, job_type, start, length } = follower.shown[device] else {
        return Vec::new();
    };
    let is_erase = job_type == u64::from(Operation::Erase.number());
    if !is_erase || follower.runs_on(device, word) {
        return Vec::new();
    }
    let is_resumed = follower.resumed[device];
    let is_cancelled = follower.jobs[area].as_ref().is_some_and(|job| job.is_cancelled);
    let mut came_up = match word {
        b"d" => done(follower, start, length),
        b"p" => vec![Wear::Dropped],
        _ => vec![Wear::Failed],
    };
    let [resumed, cancelled] = match word {
        b"d" => [Wear::DoneResumed, Wear::DoneCancelled],
        _ => [Wear::FailedResumed, Wear::FailedCancelled],
    };
    came_up.extend(is_resumed.then_some(resumed));
    came_up.extend(is_cancelled.then_some(cancelled));
    let is_both = word == b"d" && is_resumed && is_cancelled;
    came_up.extend(is_both.then_some(Wear::DoneResumedCancelled));
    came_up.into_iter().map(Kind::Wear).collect()
}

fn done(follower: &Follower, start: u64, length: u64) -> Vec<Wear> {
    let (plan, number) = (follower.plan, follower.sub_area(start));
    let sub_area = &plan.sub_areas[number];
    let mut came_up = vec![Wear::Done];
    came_up.extend((length > u64::from(sub_area.sector)).then_some(Wear::DoneOfSeveral));
    let Some(endurance) = plan.endurance(number) else {
        came_up.push(Wear::WithoutRecord);
        return came_up;
    };
    came_up.push(Wear::WithRecord);
    let sum = follower.worn[number] + length / u64::from(sub_area.sector);
    let is_beyond = sum > u64::from(endurance) * u64::from(sub_area.sector_count);
    came_up.extend(is_beyond.then_some(Wear::BeyondEndurance));
    came_up
}
