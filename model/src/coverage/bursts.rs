//! What sessions tried of the burst test: "a sector burst if p is a multiple of it and n is at least it,
//! else one sector; write: the same with page burst and page".

use super::follower::{Change, Follower, Shown};
use super::Kind;
use crate::jobs::Operation;

/// Of a burst that is more than its unit.
#[derive(Clone, Copy, Debug, PartialEq, Eq, PartialOrd, Ord)]
pub enum BurstSize {
    PowerOfTwo,
    Other,
}

/// How a write or an erase that starts is cut.
#[derive(Clone, Copy, Debug, PartialEq, Eq, PartialOrd, Ord)]
pub enum BurstTest {
    /// It is one burst, or one unit.
    Taken,
    NotTaken,
    /// Enough bytes are left for a burst, and a wrong mask would have said yes though the address is no
    /// multiple, or no though it is one: of powers of two a mask of the burst itself, of others one of
    /// the burst less one.
    MaskSaysYes,
    MaskSaysNo,
}

impl BurstSize {
    pub const ALL: [BurstSize; 2] = [BurstSize::PowerOfTwo, BurstSize::Other];
}

impl BurstTest {
    pub const ALL: [BurstTest; 4] =
        [BurstTest::Taken, BurstTest::NotTaken, BurstTest::MaskSaysYes, BurstTest::MaskSaysNo];
}

/// A request that starts, with its burst and the job bytes left in its sub-area.
struct Start {
    burst: u64,
    address: u64,
    length: u64,
    left: u64,
}

/// What a round brought up on a device that shows this now.
pub(super) fn came_up(follower: &Follower, now: Shown, change: Change) -> Vec<Kind> {
    let start = match change {
        Change::Begins | Change::Retries | Change::Suspends => start(follower, now),
        Change::RunsOn | Change::Resumes => None,
    };
    start.map_or(Vec::new(), |start| start.came_up())
}

/// None if it is no write or erase, or if its burst is its unit.
fn start(follower: &Follower, now: Shown) -> Option<Start> {
    let Shown::Request { area, start, length, .. } = now else {
        return None;
    };
    let job = follower.jobs[area].as_ref()?;
    let sub_area = follower.plan.sub_areas.iter().find(|s| s.bytes().contains(&start))?;
    let operation = job.operation?;
    let burst = match operation {
        Operation::Write => sub_area.page_burst,
        Operation::Erase => sub_area.sector_burst,
        Operation::Read | Operation::Compare | Operation::BlankCheck => return None,
    };
    let left = job.bytes_in(start..sub_area.bytes().end);
    let start = Start { burst: u64::from(burst), address: start, length, left };
    (burst > operation.unit(sub_area)).then_some(start)
}

impl Start {
    fn came_up(&self) -> Vec<Kind> {
        let is_taken = self.length == self.burst;
        let (size, mask) = match self.burst.is_power_of_two() {
            true => (BurstSize::PowerOfTwo, self.burst),
            false => (BurstSize::Other, self.burst - 1),
        };
        let mask_says_yes = self.address & mask == 0;
        let mut tests = vec![if is_taken { BurstTest::Taken } else { BurstTest::NotTaken }];
        // With enough bytes left the address alone decides, with fewer it decides nothing.
        if self.left >= self.burst && mask_says_yes != is_taken {
            tests.push(if mask_says_yes { BurstTest::MaskSaysYes } else { BurstTest::MaskSaysNo });
        }
        tests.into_iter().map(|test| Kind::Burst(size, test)).collect()
    }
}
