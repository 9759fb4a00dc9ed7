//! "Questions at the door", 10 to 19: which calls are refused, and by which number. Pure functions
//! of the plan, the arguments and what little the questions ask of the state.
//!
//! Question 9 comes before all of them. The manager asks it of its whole state (`manager/soundness.rs`);
//! of the wait book document 01 says that "9 refuses nothing here".

use crate::jobs::{Operation, Target};
use crate::plan::Plan;
use crate::segments;
use std::ops::Range;

/// What the questions ask of a state. The manager and the wait book each answer from their own.
pub trait Standing {
    fn is_pending(&self, area: usize) -> bool;
    /// The area that the device is locked for.
    fn lock_holder(&self, device: usize) -> Option<usize>;
}

/// The number of the first question answered "no".
pub type Refusal = u8;

/// The lock or release of a device for an area.
#[derive(Clone, Copy, Debug, PartialEq, Eq)]
pub struct DeviceLock {
    pub area: usize,
    pub device: usize,
}

/// A write, read, compare, erase or blank check. Gives the area.
pub fn job(
    plan: &Plan,
    standing: &impl Standing,
    operation: Operation,
    target: Target,
) -> Result<usize, Refusal> {
    let area = known_area(plan, target.area)?;
    let range = target.addresses();
    ask(11, !standing.is_pending(area))?;
    ask(12, is_inside(plan, area, &range))?;
    ask(13, is_aligned(plan, operation, area, &range))?;
    let window = plan.areas[area].window_length;
    ask(14, !operation.uses_window() || target.length <= window)?;
    Ok(area)
}

pub fn lock(plan: &Plan, standing: &impl Standing, target: Target) -> Result<DeviceLock, Refusal> {
    let area = known_area(plan, target.area)?;
    ask(11, !standing.is_pending(area))?;
    device_lock(plan, area, target)
}

pub fn release(
    plan: &Plan,
    standing: &impl Standing,
    target: Target,
) -> Result<DeviceLock, Refusal> {
    let area = known_area(plan, target.area)?;
    let lock = device_lock(plan, area, target)?;
    ask(16, standing.lock_holder(lock.device) == Some(area))?;
    Ok(lock)
}

/// Gives the area.
pub fn cancel(plan: &Plan, standing: &impl Standing, area: u32) -> Result<usize, Refusal> {
    let area = known_area(plan, area)?;
    ask(17, standing.is_pending(area))?;
    Ok(area)
}

/// A round that is lent an image and a store of these lengths.
pub fn round(plan: &Plan, image_length: usize, store_length: usize) -> Result<(), Refusal> {
    ask(18, image_length == segments::index(plan.device_sum()))?;
    ask(19, store_length >= furthest_window_end(plan))
}

/// "memory info with length 1", and the wear query, "addressed and refused like memory info". Gives the
/// area.
pub fn memory_info(plan: &Plan, area: u32, address: u32) -> Result<usize, Refusal> {
    let number = known_area(plan, area)?;
    ask(12, is_inside(plan, number, &Target { area, address, length: 1 }.addresses()))?;
    Ok(number)
}

/// Windows of length 0 count as well: they end at their start.
pub fn furthest_window_end(plan: &Plan) -> usize {
    plan.areas.iter().map(|area| segments::index(area.window().end)).max().unwrap_or(0)
}

fn ask(number: Refusal, answer: bool) -> Result<(), Refusal> {
    if answer {
        Ok(())
    } else {
        Err(number)
    }
}

/// Question 10: "Is the area known?" All that is asked of the queries but memory info.
pub fn known_area(plan: &Plan, area: u32) -> Result<usize, Refusal> {
    usize::try_from(area).ok().filter(|area| *area < plan.areas.len()).ok_or(10)
}

/// Question 12: "Length at least 1 and the range inside the area?"
fn is_inside(plan: &Plan, area: usize, range: &Range<u64>) -> bool {
    let start = u64::from(plan.areas[area].logical_start);
    let inside =
        start <= range.start && u128::from(range.end) <= u128::from(start) + plan.area_size(area);
    !range.is_empty() && inside
}

/// Question 13: "Is the offset in the first sub-area, and the end in the last, a multiple of the
/// unit there?" First and last are the sub-areas that hold the first and the last byte of the range.
fn is_aligned(plan: &Plan, operation: Operation, area: usize, range: &Range<u64>) -> bool {
    let is_boundary = |byte: u64, address: u64| {
        segments::holder(plan, area, byte).is_some_and(|placed| {
            let unit = u64::from(operation.unit(placed.sub_area));
            (address - placed.logical.start).is_multiple_of(unit)
        })
    };
    is_boundary(range.start, range.start) && is_boundary(range.end - 1, range.end)
}

/// Questions 12 and 15: "Does the range lie on one device?" Every byte of it, not only its ends.
fn device_lock(plan: &Plan, area: usize, target: Target) -> Result<DeviceLock, Refusal> {
    let range = target.addresses();
    ask(12, is_inside(plan, area, &range))?;
    let device = segments::device(plan, area, range.start).expect("the range is inside the area");
    let touches = |logical: &Range<u64>| logical.start < range.end && range.start < logical.end;
    let mut touched = segments::placed(plan, area).filter(|placed| touches(&placed.logical));
    ask(15, touched.all(|placed| usize::from(placed.sub_area.device) == device))?;
    Ok(DeviceLock { area, device })
}
