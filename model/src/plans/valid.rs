//! Random plans that every question accepts. The draws favour the limits: they are where a wrong
//! comparison shows.

use super::{draw_marks, draw_wear, low_byte, low_two_bytes, BETWEEN_POWERS};
use crate::plan::{Area, Chip, Device, Plan, SubArea};
use crate::plan::{DEVICE_SUM_LIMIT, LOGICAL_LIMIT, WINDOW_LIMIT};
use crate::random::Random;

/// Draws a number from 1 to so much.
type Draw = fn(&mut Random, u32) -> u32;

pub fn valid(random: &mut Random) -> Plan {
    let device_count = count(random, 4);
    let sub_area_count = count(random, 32);
    let area_count = count(random, sub_area_count.min(8));
    let size: Draw = if random.one_in(BETWEEN_POWERS) { power_up_to } else { number_up_to };
    let mut plan = image_layout(random, size, device_count, sub_area_count);
    if random.one_in(4) {
        fill_image(random, &mut plan);
    }
    if random.one_in(2) {
        // Plan order need not be physical order, and an area may lie on several devices.
        random.shuffle(&mut plan.sub_areas);
    }
    spread_over_areas(random, area_count, &mut plan.sub_areas);
    plan.areas = areas(random, area_count, &plan);
    draw_marks(random, &mut plan);
    draw_wear(random, &mut plan);
    plan
}

/// A count from 1 to `most`, both ends often.
fn count(random: &mut Random, most: u32) -> u32 {
    match random.below(3) {
        0 => 1,
        1 => most,
        _ => random.between(1, most),
    }
}

/// Devices joined from 0 on and, on each, sub-areas from its start upwards, with or without gaps.
///
/// Each sub-area, with the gap before it, and each device's rest take at most `room` bytes, so the
/// sum of lengths keeps to its limit.
fn image_layout(random: &mut Random, size: Draw, device_count: u32, sub_area_count: u32) -> Plan {
    let most_room = DEVICE_SUM_LIMIT / (device_count + sub_area_count);
    let room = random.pick(&[16, 64, 1_024, most_room]);
    let mut homes: Vec<_> = (0..sub_area_count).map(|_| random.below(device_count)).collect();
    homes.sort();
    let mut plan = Plan::default();
    let mut end = 0;
    for device in 0..device_count {
        let start = end;
        for _ in homes.iter().filter(|home| **home == device) {
            let sub_area = sub_area_from(random, size, end, device, room);
            end = sub_area.start + sub_area.sector * sub_area.sector_count;
            plan.sub_areas.push(sub_area);
        }
        let is_empty = end == start;
        end += if is_empty || random.one_in(2) { random.between(1, room) } else { 0 };
        let patience = patience(random);
        plan.devices.push(Device { start, length: end - start, patience, chip: Chip::Plain });
    }
    plan
}

/// A sub-area that begins at `end` or, with a gap, behind it. Gap, rounding up to a sector and
/// bytes together are at most `room`.
fn sub_area_from(random: &mut Random, size: Draw, end: u32, device: u32, room: u32) -> SubArea {
    // Up to the largest that a field holds: a burst may exceed its sub-area.
    let multiple = |random: &mut Random, unit: u32| unit * size(random, u32::MAX / unit);
    let sector = size(random, room / 4);
    let page = divisor(random, sector);
    let smallest_read = divisor(random, sector);
    let gap = if random.one_in(3) { random.between(1, room / 4) } else { 0 };
    SubArea {
        area: 0,
        device: low_byte(device),
        start: (end + gap).next_multiple_of(sector),
        sector,
        sector_burst: multiple(random, sector),
        page,
        page_burst: multiple(random, page),
        smallest_read,
        largest_read: multiple(random, smallest_read),
        sector_count: number_up_to(random, room / 2 / sector),
        write_retries: retries(random),
        erase_retries: retries(random),
    }
}

/// Gives the last device all bytes that the limit on the sum leaves; its last sub-area may take
/// them.
fn fill_image(random: &mut Random, plan: &mut Plan) {
    let Some(last_device) = plan.devices.last_mut() else {
        return;
    };
    last_device.length = DEVICE_SUM_LIMIT - last_device.start;
    let Some(last) = plan.sub_areas.last_mut() else {
        return;
    };
    let rest = DEVICE_SUM_LIMIT - last.start;
    let is_on_last_device = last.start >= last_device.start;
    if is_on_last_device && rest.is_multiple_of(last.sector) && random.one_in(2) {
        last.sector_count = rest / last.sector;
    }
}

/// Numbers the areas of the sub-areas: never falling, each area with one at least.
pub(super) fn spread_over_areas(random: &mut Random, area_count: u32, sub_areas: &mut [SubArea]) {
    let mut first_ones: Vec<_> = (1..sub_areas.len()).collect();
    random.shuffle(&mut first_ones);
    first_ones.truncate(usize::try_from(area_count - 1).expect("at most 8 areas"));
    let mut area = 0;
    for (index, sub_area) in sub_areas.iter_mut().enumerate() {
        if first_ones.contains(&index) {
            area += 1;
        }
        sub_area.area = area;
    }
}

fn areas(random: &mut Random, area_count: u32, plan: &Plan) -> Vec<Area> {
    let windows = windows(random, area_count);
    // All of one priority, of two, or each of its own.
    let two = [priority(random), priority(random)];
    let few = random.pick(&[&two[..1], &two, &[]]);
    let area = |(number, (start, end)): (usize, (u32, u32))| {
        let size = u32::try_from(plan.area_size(number)).expect("sub-areas lie in the image");
        Area {
            priority: if few.is_empty() { priority(random) } else { random.pick(few) },
            logical_start: match random.below(3) {
                0 => 0,
                1 => LOGICAL_LIMIT - size,
                _ => random.between(0, LOGICAL_LIMIT - size),
            },
            window_start: start,
            window_length: end - start,
        }
    };
    windows.into_iter().enumerate().map(area).collect()
}

/// Starts and ends of windows that share no byte: consecutive pairs of a sorted list, in random
/// order. Pairs that are joined touch; windows of length 0 lie anywhere.
fn windows(random: &mut Random, area_count: u32) -> Vec<(u32, u32)> {
    let limit = random.pick(&[8, 64, WINDOW_LIMIT]);
    let base = random.pick(&[0, WINDOW_LIMIT - limit]);
    let mut bounds: Vec<_> = (0..2 * area_count).map(|_| base + random.between(0, limit)).collect();
    bounds.sort();
    for index in (2..bounds.len()).step_by(2) {
        if random.one_in(2) {
            bounds[index] = bounds[index - 1];
        }
    }
    if let Some(last) = bounds.last_mut().filter(|_| random.one_in(4)) {
        *last = WINDOW_LIMIT;
    }
    let mut windows: Vec<_> = bounds.chunks_exact(2).map(|b| (b[0], b[1])).collect();
    for window in &mut windows {
        if random.one_in(6) {
            let start = number_up_to(random, WINDOW_LIMIT + 1) - 1;
            *window = (start, start);
        }
    }
    random.shuffle(&mut windows);
    windows
}

/// A number from 1 to `most`, with 1, `most` and powers of two often.
fn number_up_to(random: &mut Random, most: u32) -> u32 {
    match random.below(6) {
        0 => 1,
        1 => most,
        2 => random.between(1, most),
        3 => random.between(1, most.min(4)),
        _ => power_up_to(random, most),
    }
}

/// A power of two from 1 to `most`.
fn power_up_to(random: &mut Random, most: u32) -> u32 {
    1 << random.between(0, most.ilog2())
}

/// A divisor of `number`: 1, the number itself or one between.
pub(super) fn divisor(random: &mut Random, number: u32) -> u32 {
    let other = match random.below(3) {
        0 => 1,
        1 => number,
        _ => random.between(1, number),
    };
    greatest_common_divisor(number, other)
}

fn greatest_common_divisor(a: u32, b: u32) -> u32 {
    match b {
        0 => a,
        _ => greatest_common_divisor(b, a % b),
    }
}

fn patience(random: &mut Random) -> u16 {
    low_two_bytes(number_up_to(random, u16::MAX.into()))
}

fn priority(random: &mut Random) -> u16 {
    low_two_bytes(number_up_to(random, 1 << 16) - 1)
}

fn retries(random: &mut Random) -> u8 {
    low_byte(number_up_to(random, 1 << 8) - 1)
}
