//! Small plans for lists of calls: short pieces, little patience and few retries, so that within a
//! few rounds jobs end, requests are dropped and tried again, and areas stand in each other's way.

use super::valid::{divisor, spread_over_areas};
use super::{draw_marks, draw_wear, low_byte, resized, Choice, BETWEEN_POWERS};
use crate::plan::{Area, Chip, Device, Plan, SubArea, LOGICAL_LIMIT};
use crate::random::Random;

const ANY_SIZES: Choice =
    Choice { sectors: &[1, 2, 3, 4, 6, 8], sector_bursts: &[1, 2, 3], page_bursts: &[1, 2, 3, 4] };

const POWERS_OF_TWO: Choice =
    Choice { sectors: &[1, 2, 4, 8], sector_bursts: &[1, 2, 4], page_bursts: &[1, 2, 4] };

pub fn small(random: &mut Random) -> Plan {
    if random.one_in(3) {
        return suspending(random);
    }
    let device_count = random.pick(&[1, 1, 1, 2, 2, 3, 4]);
    let area_count = random.pick(&[1, 2, 2, 3, 3, 4, 8]);
    let sub_area_count = area_count + random.below(5);
    of_counts(random, device_count, area_count, sub_area_count)
}

/// Areas of several ranks, two of them equal, on few devices that can suspend, with either mark, and
/// are patient enough for it.
fn suspending(random: &mut Random) -> Plan {
    let device_count = random.pick(&[1, 1, 2]);
    let sub_area_count = random.between(4, 7);
    let mut plan = of_counts(random, device_count, 4, sub_area_count);
    let mut priorities = [0, 1, 1, 65_535];
    random.shuffle(&mut priorities);
    let areas = plan.areas.iter_mut().zip(priorities);
    areas.for_each(|(area, priority)| area.priority = priority);
    for device in &mut plan.devices {
        let chip = random.pick(&[Chip::Suspending, Chip::Clearing]);
        (device.chip, device.patience) = (chip, device.patience.max(2));
    }
    plan
}

/// Areas of several sub-areas on few devices, so that jobs go from one to the other and meet.
pub fn crowded(random: &mut Random) -> Plan {
    let device_count = random.pick(&[1, 2, 2, 3]);
    let area_count = random.pick(&[2, 3, 4, 8]);
    of_counts(random, device_count, area_count, 3 * area_count)
}

/// As many records as can be accepted, each of them small.
pub fn full(random: &mut Random) -> Plan {
    of_counts(random, 4, 8, 32)
}

/// The same without chips that only clear bits and without wear records. The benchmark's sessions run on
/// it: they are to stay as they are.
pub fn full_that_stores(random: &mut Random) -> Plan {
    let mut plan = unmarked(random, &ANY_SIZES, [4, 8, 32]);
    for device in &mut plan.devices {
        device.chip = if random.one_in(3) { Chip::Plain } else { Chip::Suspending };
    }
    plan
}

fn of_counts(random: &mut Random, device_count: u32, area_count: u32, sub_area_count: u32) -> Plan {
    let choice = if random.one_in(BETWEEN_POWERS) { &POWERS_OF_TWO } else { &ANY_SIZES };
    let mut plan = unmarked(random, choice, [device_count, area_count, sub_area_count]);
    draw_marks(random, &mut plan);
    draw_wear(random, &mut plan);
    plan
}

/// Of so many devices, areas and sub-areas, with plain chips.
fn unmarked(random: &mut Random, choice: &Choice, counts: [u32; 3]) -> Plan {
    let [device_count, area_count, sub_area_count] = counts;
    let mut plan = image_layout(random, choice, device_count, sub_area_count);
    // Mixed, the sub-areas of an area lie on several devices, some of them again and again.
    random.shuffle(&mut plan.sub_areas);
    spread_over_areas(random, area_count, &mut plan.sub_areas);
    plan.areas = areas(random, area_count, &plan);
    plan
}

/// Devices joined from 0 on and, on each, sub-areas from its start upwards.
fn image_layout(
    random: &mut Random,
    choice: &Choice,
    device_count: u32,
    sub_area_count: u32,
) -> Plan {
    let homes: Vec<_> = (0..sub_area_count).map(|_| random.below(device_count)).collect();
    let mut plan = Plan::default();
    let mut end = 0;
    for device in 0..device_count {
        let start = end;
        for _ in homes.iter().filter(|home| **home == device) {
            let sub_area = sub_area_from(random, choice, end, device);
            end = sub_area.start + sub_area.sector * sub_area.sector_count;
            plan.sub_areas.push(sub_area);
        }
        end += if end == start { 1 } else { random.below(3) };
        // Enough polls at times for an erase that is suspended more than once.
        let patience = random.pick(&[1, 2, 2, 3, 4, 6]);
        plan.devices.push(Device { start, length: end - start, patience, chip: Chip::Plain });
    }
    plan
}

fn sub_area_from(random: &mut Random, choice: &Choice, end: u32, device: u32) -> SubArea {
    let sub_area = sub_area_of(random, choice);
    SubArea { device: low_byte(device), start: end.next_multiple_of(sub_area.sector), ..sub_area }
}

/// Draws other sizes for every sub-area, in the bytes that it has: it needs 15 of them.
pub fn draw_sizes(random: &mut Random, plan: &mut Plan) {
    for sub_area in &mut plan.sub_areas {
        *sub_area = resized(sub_area, &sub_area_of(random, &ANY_SIZES));
    }
}

/// A sub-area at physical address 0.
fn sub_area_of(random: &mut Random, choice: &Choice) -> SubArea {
    let sector = random.pick(choice.sectors);
    let page = divisor(random, sector);
    let smallest_read = divisor(random, sector);
    SubArea {
        area: 0,
        device: 0,
        start: 0,
        sector,
        sector_burst: sector * random.pick(choice.sector_bursts),
        page,
        page_burst: page * random.pick(choice.page_bursts),
        smallest_read,
        largest_read: smallest_read * random.between(1, 4),
        sector_count: random.between(1, 4),
        write_retries: random.pick(&[0, 0, 1, 2]),
        erase_retries: random.pick(&[0, 0, 1, 2]),
    }
}

/// Windows from 0 on. Priorities are few, one or two at times, so that equal ones are frequent.
fn areas(random: &mut Random, area_count: u32, plan: &Plan) -> Vec<Area> {
    let mut priorities = [0, 1, 2, 65_535];
    random.shuffle(&mut priorities);
    let priorities = &priorities[..random.pick(&[1, 1, 2, 2, 4])];
    let mut window_end = 0;
    let mut areas = Vec::new();
    for number in (0..).take(usize::try_from(area_count).expect("at most 8 areas")) {
        let size = u32::try_from(plan.area_size(number)).expect("a small area");
        let window_start = window_end + random.below(2);
        let window_length = random.pick(&[0, 4, 8, 16, 16, 32, 32]);
        window_end = window_start + window_length;
        let priority = random.pick(priorities);
        let logical_start = random.pick(&[0, 100, LOGICAL_LIMIT - size]);
        areas.push(Area { priority, logical_start, window_start, window_length });
    }
    areas
}
