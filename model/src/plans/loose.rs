//! Small plans built record by record without regard to validity.
//!
//! A plan whose fields are all drawn freely almost never gets past question 3. So each plan is made
//! right for the questions before one that is drawn first, and is left loose from that question on.
//! Numbers are small, so that records meet: windows and sub-areas share bytes, touch or miss by
//! one.

use super::wear::draw_loose_wear;
use super::{draw_marks, low_byte, Choice, BETWEEN_POWERS};
use crate::plan::{Area, Chip, Device, Plan, SubArea, LOGICAL_LIMIT, WINDOW_LIMIT};
use crate::random::Random;

/// Every sub-area fits in a cell, and devices that question 3 lets pass are whole cells. It is a multiple
/// of every sector, also of those that are no powers of two.
const CELL: u32 = 12;

const ANY_SIZES: Choice =
    Choice { sectors: &[1, 2, 3, 4, 6, 12], sector_bursts: &[1, 2, 3], page_bursts: &[1, 2, 3] };

const POWERS_OF_TWO: Choice =
    Choice { sectors: &[1, 2, 4], sector_bursts: &[1, 2], page_bursts: &[1, 2] };

pub fn loose(random: &mut Random) -> Plan {
    // The later questions are drawn more often, since fewer plans get as far.
    let loose_from = random.pick(&[2, 3, 4, 4, 5, 6, 6, 7, 7, 8, 8]);
    let mut plan = Plan::default();
    for _ in 0..count(random, loose_from, 4) {
        let end = plan.devices.last().map_or(0, |d| d.start + d.length);
        plan.devices.push(device(random, loose_from, end));
    }
    let area_count = count(random, loose_from, 8);
    plan.areas = (0..area_count).map(|number| area(random, loose_from, number)).collect();
    let choice = if random.one_in(BETWEEN_POWERS) { &POWERS_OF_TWO } else { &ANY_SIZES };
    for number in area_numbers(random, loose_from, area_count) {
        let sub_area = sub_area(random, loose_from, choice, &plan.devices, number);
        plan.sub_areas.push(sub_area);
    }
    draw_marks(random, &mut plan);
    draw_loose_wear(random, &mut plan);
    plan
}

/// Question 2: the number of records of a kind.
fn count(random: &mut Random, loose_from: u8, most: u32) -> u32 {
    if loose_from <= 2 {
        return random.between(0, most + 1);
    }
    let few = random.between(1, 3);
    random.pick(&[few, few, most])
}

/// Question 3: a device behind the last one, which ended at `end`.
fn device(random: &mut Random, loose_from: u8, end: u32) -> Device {
    let length = random.between(1, 8) * CELL;
    if loose_from > 3 {
        return Device { start: end, length, patience: 1, chip: Chip::Plain };
    }
    Device {
        start: random.pick(&[end, end, end, end + 1, end.saturating_sub(1), 0]),
        length: random.pick(&[length, length, length, 0, 1 << 24]),
        patience: random.pick(&[1, 1, 1, 0]),
        chip: Chip::Plain,
    }
}

/// Question 4 for the window, question 7 for the logical start.
fn area(random: &mut Random, loose_from: u8, number: u32) -> Area {
    let (window_start, window_length) = if loose_from > 4 {
        (number * 16, random.between(0, 16))
    } else {
        let base = random.pick(&[0, 0, 0, WINDOW_LIMIT - 40]);
        (base + random.between(0, 41), random.pick(&[0, 0, 1, 2, 4, 8]))
    };
    let logical_start = if loose_from > 7 {
        0
    } else {
        let near_limit = LOGICAL_LIMIT - random.between(0, 4 * CELL);
        random.pick(&[0, 0, 0, near_limit])
    };
    Area { priority: 0, logical_start, window_start, window_length }
}

/// Question 7: the area numbers of the sub-areas, each area once and a few more.
fn area_numbers(random: &mut Random, loose_from: u8, area_count: u32) -> Vec<u32> {
    let mut numbers: Vec<_> = (0..area_count).collect();
    for _ in 0..count(random, loose_from, 6) {
        numbers.push(random.below(area_count.max(1)));
    }
    if loose_from > 7 || random.one_in(2) {
        numbers.sort();
    }
    if loose_from <= 7 && !numbers.is_empty() && random.one_in(3) {
        // May leave an area without a sub-area.
        let (one, other) = (random.index(numbers.len()), random.index(numbers.len()));
        numbers[one] = numbers[other];
    }
    numbers
}

/// Question 6 for the place. The sub-areas of one device often fall into one cell, so that question
/// 8 is asked of plans with and without shared bytes.
fn sub_area(
    random: &mut Random,
    loose_from: u8,
    choice: &Choice,
    devices: &[Device],
    area: u32,
) -> SubArea {
    let mut sub_area = sizes(random, loose_from, choice);
    sub_area.area = low_byte(area);
    if devices.is_empty() {
        return sub_area;
    }
    let index = random.index(devices.len());
    let device = devices[index];
    let cells = (device.length / CELL).clamp(1, 8);
    sub_area.device = u8::try_from(index).expect("few devices");
    sub_area.start = device.start + random.below(cells) * CELL;
    if loose_from <= 6 {
        sub_area.area += random.pick(&[0, 0, 0, 0, 1]);
        sub_area.device += random.pick(&[0, 0, 0, 0, 1]);
        sub_area.start += random.pick(&[0, 0, 0, 1, CELL]);
        sub_area.sector_count += random.pick(&[0, 0, 0, 1, CELL]);
    }
    sub_area
}

/// Question 5: sizes of at most a cell.
fn sizes(random: &mut Random, loose_from: u8, choice: &Choice) -> SubArea {
    let sector = random.pick(choice.sectors);
    let mut sub_area = SubArea {
        area: 0,
        device: 0,
        start: 0,
        sector,
        sector_burst: sector * random.pick(choice.sector_bursts),
        page: sector,
        page_burst: sector * random.pick(choice.page_bursts),
        smallest_read: 1,
        largest_read: random.between(1, 16),
        sector_count: random.between(1, CELL / sector),
        write_retries: 0,
        erase_retries: 0,
    };
    if loose_from <= 5 {
        sub_area.page = random.pick(&[sector, sector, 1, 0, 3]);
        sub_area.smallest_read = random.pick(&[1, 1, 1, 2, 0]);
        sub_area.sector_count = random.pick(&[sub_area.sector_count, 1, 0]);
    }
    sub_area
}
