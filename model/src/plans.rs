//! Making plans: from records to bytes, the plans of document 01 and regular ones, and the mix of
//! random plans on which the model is compared.

mod enduring;
mod loose;
mod small;
mod valid;
mod wear;
mod wounds;

pub use enduring::enduring;
pub use loose::loose;
pub use small::{crowded, draw_sizes, full, full_that_stores, small};
pub use valid::valid;
pub use wear::draw_wear;
pub use wounds::{byte_changes, cuts, field_changes, wounded, wounded_wear};

use crate::plan::{Area, Chip, Device, Plan, SubArea, WearRecord};
use crate::plan::{AREA_MARK, SUB_AREA_MARK, WEAR_MARK};
use crate::random::Random;
use std::collections::BTreeSet;

/// What the sizes of a sub-area are drawn from. A burst is so many units.
struct Choice {
    sectors: &'static [u32],
    sector_bursts: &'static [u32],
    page_bursts: &'static [u32],
}

/// Plans on average from one whose sizes are all drawn as powers of two to the next: most others have a
/// size that is none.
const BETWEEN_POWERS: u32 = 8;

/// A number of a record as it stands in the bytes.
#[derive(Clone, Copy)]
pub struct Field {
    pub value: u32,
    /// In bytes.
    pub width: usize,
}

/// A record as it stands in the bytes, also one that no question would let pass.
#[derive(Clone)]
pub struct RawRecord {
    pub mark: [u8; 2],
    pub fields: Vec<Field>,
}

impl Field {
    fn new(value: impl Into<u32>, width: usize) -> Self {
        let value = value.into();
        Field { value, width }
    }
}

impl RawRecord {
    /// "A two-byte mark stands before each record. Numbers in it are unsigned, least significant
    /// byte first."
    pub fn bytes(&self) -> Vec<u8> {
        let mut bytes = self.mark.to_vec();
        for field in &self.fields {
            bytes.extend(&field.value.to_le_bytes()[..field.width]);
        }
        bytes
    }
}

impl From<&Device> for RawRecord {
    fn from(device: &Device) -> Self {
        RawRecord {
            mark: device.chip.mark(),
            fields: vec![
                Field::new(device.start, 4),
                Field::new(device.length, 4),
                Field::new(device.patience, 2),
            ],
        }
    }
}

impl From<&Area> for RawRecord {
    fn from(area: &Area) -> Self {
        RawRecord {
            mark: AREA_MARK,
            fields: vec![
                Field::new(area.priority, 2),
                Field::new(area.logical_start, 4),
                Field::new(area.window_start, 4),
                Field::new(area.window_length, 4),
            ],
        }
    }
}

impl From<&SubArea> for RawRecord {
    fn from(sub_area: &SubArea) -> Self {
        RawRecord {
            mark: SUB_AREA_MARK,
            fields: vec![
                Field::new(sub_area.area, 1),
                Field::new(sub_area.device, 1),
                Field::new(sub_area.start, 4),
                Field::new(sub_area.sector, 4),
                Field::new(sub_area.sector_burst, 4),
                Field::new(sub_area.page, 4),
                Field::new(sub_area.page_burst, 4),
                Field::new(sub_area.smallest_read, 4),
                Field::new(sub_area.largest_read, 4),
                Field::new(sub_area.sector_count, 4),
                Field::new(sub_area.write_retries, 1),
                Field::new(sub_area.erase_retries, 1),
            ],
        }
    }
}

impl From<&WearRecord> for RawRecord {
    fn from(record: &WearRecord) -> Self {
        RawRecord {
            mark: WEAR_MARK,
            fields: vec![Field::new(record.sub_area, 1), Field::new(record.endurance, 4)],
        }
    }
}

/// The records of a plan in the order of kinds.
pub fn raw_records(plan: &Plan) -> Vec<RawRecord> {
    let devices = plan.devices.iter().map(RawRecord::from);
    let areas = plan.areas.iter().map(RawRecord::from);
    let sub_areas = plan.sub_areas.iter().map(RawRecord::from);
    let wear_records = plan.wear_records.iter().map(RawRecord::from);
    devices.chain(areas).chain(sub_areas).chain(wear_records).collect()
}

pub fn encode_records(records: &[RawRecord]) -> Vec<u8> {
    records.iter().flat_map(RawRecord::bytes).collect()
}

pub fn encode(plan: &Plan) -> Vec<u8> {
    encode_records(&raw_records(plan))
}

/// Document 01's plan T.
pub fn plan_t() -> Plan {
    let sub_area_0 = SubArea {
        area: 0,
        device: 0,
        start: 0,
        sector: 16,
        sector_burst: 32,
        page: 4,
        page_burst: 8,
        smallest_read: 1,
        largest_read: 8,
        sector_count: 2,
        write_retries: 1,
        erase_retries: 0,
    };
    let sub_area_1 = SubArea {
        area: 1,
        start: 32,
        sector_burst: 16,
        page_burst: 4,
        largest_read: 4,
        write_retries: 0,
        ..sub_area_0
    };
    let area = |priority, logical_start, window_start| Area {
        priority,
        logical_start,
        window_start,
        window_length: 16,
    };
    Plan {
        devices: vec![Device { start: 0, length: 64, patience: 2, chip: Chip::Plain }],
        areas: vec![area(1, 0, 0), area(5, 256, 16)],
        sub_areas: vec![sub_area_0, sub_area_1],
        wear_records: Vec::new(),
    }
}

/// Plan T with both priorities 3: the order of acceptance ranks its areas.
pub fn plan_v() -> Plan {
    let mut plan = plan_t();
    for area in &mut plan.areas {
        area.priority = 3;
    }
    plan
}

/// One device that can suspend, with this patience, and three areas of one sub-area each on it, every
/// next one ranked above the last.
pub fn plan_e(patience: u16) -> Plan {
    let sub_area_0 = SubArea {
        area: 0,
        device: 0,
        start: 0,
        sector: 16,
        sector_burst: 16,
        page: 4,
        page_burst: 4,
        smallest_read: 1,
        largest_read: 8,
        sector_count: 1,
        write_retries: 0,
        erase_retries: 0,
    };
    let sub_area_1 =
        SubArea { area: 1, start: 16, largest_read: 4, write_retries: 1, ..sub_area_0 };
    let sub_area_2 = SubArea { area: 2, start: 32, sector_count: 2, ..sub_area_0 };
    let area = |priority, logical_start, window_start| Area {
        priority,
        logical_start,
        window_start,
        window_length: 8,
    };
    Plan {
        devices: vec![Device { start: 0, length: 64, patience, chip: Chip::Suspending }],
        areas: vec![area(1, 0, 0), area(5, 256, 8), area(9, 512, 16)],
        sub_areas: vec![sub_area_0, sub_area_1, sub_area_2],
        wear_records: Vec::new(),
    }
}

/// Plan E with a chip that only clears bits.
pub fn plan_f(patience: u16) -> Plan {
    with_chips(plan_e(patience), Chip::Clearing)
}

/// One sub-area, from byte 12 on, whose bursts, 24 and 12, are no powers of two.
pub fn plan_w() -> Plan {
    let sub_area = SubArea {
        area: 0,
        device: 0,
        start: 12,
        sector: 12,
        sector_burst: 24,
        page: 4,
        page_burst: 12,
        smallest_read: 2,
        largest_read: 6,
        sector_count: 4,
        write_retries: 0,
        erase_retries: 0,
    };
    Plan {
        devices: vec![Device { start: 0, length: 96, patience: 3, chip: Chip::Plain }],
        areas: vec![Area { priority: 1, logical_start: 0, window_start: 0, window_length: 48 }],
        sub_areas: vec![sub_area],
        wear_records: Vec::new(),
    }
}

/// One sub-area of 65,536 sectors of one byte, erased by a burst, with a wear record of endurance 1.
pub fn plan_s() -> Plan {
    let mut plan = plan_w();
    plan.devices[0].length = 65_536;
    plan.sub_areas[0] = SubArea {
        start: 0,
        sector: 1,
        sector_burst: 65_536,
        page: 1,
        page_burst: 1,
        smallest_read: 1,
        largest_read: 1,
        sector_count: 65_536,
        ..plan.sub_areas[0]
    };
    with_wear(plan, &[(0, 1)])
}

/// The plan with wear records of these sub-areas and endurances.
pub fn with_wear(mut plan: Plan, records: &[(u8, u32)]) -> Plan {
    let record = |(sub_area, endurance): &(u8, u32)| WearRecord {
        sub_area: *sub_area,
        endurance: *endurance,
    };
    plan.wear_records = records.iter().map(record).collect();
    plan
}

/// The plan with all its devices of one kind.
pub fn with_chips(mut plan: Plan, chip: Chip) -> Plan {
    plan.devices.iter_mut().for_each(|device| device.chip = chip);
    plan
}

/// The plan with the sizes of one sub-area in all of them.
pub fn with_sizes(mut plan: Plan, sizes: &SubArea) -> Plan {
    plan.sub_areas.iter_mut().for_each(|sub_area| *sub_area = resized(sub_area, sizes));
    plan
}

/// A sub-area with the sizes of another one, in the bytes that it had: it begins at the next multiple of
/// the sector and has as many sectors as there is room for.
fn resized(sub_area: &SubArea, sizes: &SubArea) -> SubArea {
    let end = sub_area.start + sub_area.sector * sub_area.sector_count;
    let start = sub_area.start.next_multiple_of(sizes.sector);
    SubArea {
        area: sub_area.area,
        device: sub_area.device,
        start,
        sector_count: (end - start) / sizes.sector,
        write_retries: sub_area.write_retries,
        erase_retries: sub_area.erase_retries,
        ..*sizes
    }
}

/// Draws the mark of each device. Half of the plans have their marks dealt out in turn, so that with
/// three devices or more all three stand in one plan. Two in three devices can suspend.
pub fn draw_marks(random: &mut Random, plan: &mut Plan) {
    let mut dealt = Chip::ALL;
    random.shuffle(&mut dealt);
    let is_dealt = random.one_in(2);
    for (device, chip) in plan.devices.iter_mut().zip(dealt.into_iter().cycle()) {
        device.chip = if is_dealt { chip } else { random.pick(&Chip::ALL) };
    }
}

/// Do areas of equal priority have bytes on one device, so that the order of acceptance matters?
pub fn equals_meet(plan: &Plan) -> bool {
    let priority = |s: &SubArea| plan.areas[usize::from(s.area)].priority;
    let meet = |one: &SubArea, other: &SubArea| {
        one.area != other.area && one.device == other.device && priority(one) == priority(other)
    };
    plan.sub_areas.iter().any(|one| plan.sub_areas.iter().any(|other| meet(one, other)))
}

/// How many different priorities the areas have.
pub fn priority_count(plan: &Plan) -> usize {
    plan.areas.iter().map(|area| area.priority).collect::<BTreeSet<_>>().len()
}

/// Is some sector burst or page burst of the plan no power of two?
pub fn some_burst_is_no_power_of_two(plan: &Plan) -> bool {
    bursts(plan).any(|burst| !burst.is_power_of_two())
}

/// Is some sector, page or smallest read of the plan no power of two?
pub fn some_unit_is_no_power_of_two(plan: &Plan) -> bool {
    let mut units = plan.sub_areas.iter().flat_map(|s| [s.sector, s.page, s.smallest_read]);
    units.any(|unit| !unit.is_power_of_two())
}

/// Is some sector burst or page burst of the plan 1?
pub fn some_burst_is_1(plan: &Plan) -> bool {
    bursts(plan).any(|burst| burst == 1)
}

fn bursts(plan: &Plan) -> impl Iterator<Item = u32> + '_ {
    plan.sub_areas.iter().flat_map(|s| [s.sector_burst, s.page_burst])
}

/// Bytes of each device of a regular plan.
const REGULAR_DEVICE: u32 = 16_384;

/// A regular plan of these counts, which only question 2 can refuse as long as `areas` is at most
/// `sub_areas`: the sub-areas have plan T's sizes, lie on the devices in turn and are spread evenly
/// over the areas.
pub fn regular(devices: u32, areas: u32, sub_areas: u32) -> Plan {
    let device = |number| Device {
        start: number * REGULAR_DEVICE,
        length: REGULAR_DEVICE,
        patience: 2,
        chip: Chip::Plain,
    };
    let area = |number| Area {
        priority: 1,
        logical_start: 0,
        window_start: number * 16,
        window_length: 16,
    };
    let sub_area = |number| {
        let (row, device) = (number / devices.max(1), number % devices.max(1));
        SubArea {
            area: low_byte(number * areas / sub_areas),
            device: low_byte(device),
            start: device * REGULAR_DEVICE + row * 32,
            ..plan_t().sub_areas[0]
        }
    };
    Plan {
        devices: (0..devices).map(device).collect(),
        areas: (0..areas).map(area).collect(),
        sub_areas: (0..sub_areas).map(sub_area).collect(),
        wear_records: Vec::new(),
    }
}

/// The plan with most records that can be accepted.
pub fn largest() -> Plan {
    regular(4, 8, 32)
}

/// Has every sub-area of the plan a wear record?
pub fn every_sub_area_has_a_wear_record(plan: &Plan) -> bool {
    (0..plan.sub_areas.len()).all(|sub_area| plan.endurance(sub_area).is_some())
}

/// A plan drawn from the mix of all kinds made here. The kinds are weighed so that every question
/// answers "no" often.
pub fn any(random: &mut Random) -> Vec<u8> {
    match random.below(16) {
        0 => encode(&valid(random)),
        1..=5 => {
            let plan = valid(random);
            wounded(random, &plan, 1)
        }
        6..=7 => {
            let (plan, wounds) = (valid(random), random.between(2, 5));
            wounded(random, &plan, wounds)
        }
        8..=13 => encode(&loose(random)),
        14 => {
            let plan = loose(random);
            wounded(random, &plan, 1)
        }
        _ => noise(random),
    }
}

/// Known marks and nothing else but random bytes.
fn noise(random: &mut Random) -> Vec<u8> {
    let mut bytes = Vec::new();
    for _ in 0..random.below(4) {
        let device = (random.pick(&Chip::ALL).mark(), 10);
        let others = [(AREA_MARK, 14), (SUB_AREA_MARK, 36), (WEAR_MARK, 5)];
        let other = random.pick(&others);
        let (mark, width) = random.pick(&[device, other]);
        bytes.extend(mark);
        bytes.extend((0..width).map(|_| random.byte()));
    }
    bytes
}

/// The low byte of a number, as a record field of width 1 keeps it.
fn low_byte(number: u32) -> u8 {
    number.to_le_bytes()[0]
}

/// The low two bytes of a number, as a record field of width 2 keeps them.
fn low_two_bytes(number: u32) -> u16 {
    let [low, high, ..] = number.to_le_bytes();
    u16::from_le_bytes([low, high])
}
