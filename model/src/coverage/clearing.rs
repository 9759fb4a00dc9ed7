//! What sessions tried of chips that only clear bits.

use super::follower::{Change, Follower};
use super::Kind;
use crate::jobs::Operation;

/// What came up on such a chip.
#[derive(Clone, Copy, Debug, PartialEq, Eq, PartialOrd, Ord)]
pub enum Clearing {
    /// A write was done, or failed after some bytes.
    Done,
    Failed,
    /// The same where a write had acted before, and no erase since.
    DoneAgain,
    FailedAgain,
    /// It failed so and began again at once.
    Retried,
    /// It ended so, and its job was cancelled.
    DoneCancelled,
    FailedCancelled,
    /// An erase gave way.
    Suspended,
}

impl Clearing {
    pub const ALL: [Clearing; 8] = [
        Clearing::Done,
        Clearing::Failed,
        Clearing::DoneAgain,
        Clearing::FailedAgain,
        Clearing::Retried,
        Clearing::DoneCancelled,
        Clearing::FailedCancelled,
        Clearing::Suspended,
    ];
}

/// What a round brought up on a device with this answer, seen before what it shows then is followed.
pub(super) fn came_up(
    follower: &Follower,
    device: usize,
    word: &[u8],
    change: Change,
) -> Vec<Kind> {
    if !follower.plan.devices[device].chip.only_clears() {
        return Vec::new();
    }
    let mut came_up = of_write(follower, device, word, change);
    came_up.extend((change == Change::Suspends).then_some(Clearing::Suspended));
    came_up.into_iter().map(Kind::Clearing).collect()
}

fn of_write(follower: &Follower, device: usize, word: &[u8], change: Change) -> Vec<Clearing> {
    let Some((Operation::Write, bytes)) = follower.acted(device, word) else {
        return Vec::new();
    };
    if bytes.is_empty() {
        return Vec::new();
    }
    let job = follower.shown[device].area().and_then(|area| follower.jobs[area].as_ref());
    let is_cancelled = job.is_some_and(|job| job.is_cancelled);
    let is_again = follower.written[bytes].contains(&true);
    let [plain, again, cancelled] = match word {
        b"d" => [Clearing::Done, Clearing::DoneAgain, Clearing::DoneCancelled],
        _ => [Clearing::Failed, Clearing::FailedAgain, Clearing::FailedCancelled],
    };
    let mut came_up = vec![plain];
    came_up.extend(is_again.then_some(again));
    came_up.extend(is_cancelled.then_some(cancelled));
    came_up.extend((change == Change::Retries).then_some(Clearing::Retried));
    came_up
}
