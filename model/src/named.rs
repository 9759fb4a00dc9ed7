//! Named plans, each with the number that document 01, Req 05 and the readings give it by hand: both sides
//! of every limit in questions 1 to 8 and 20, and the order of the questions.
//!
//! The limits are written out here, not taken from the model.

use crate::plan::{Area, Chip, Device, Plan, SubArea};
use crate::plan::{AREA_MARK, CLEARING_DEVICE_MARK, DEVICE_MARK};
use crate::plan::{SUB_AREA_MARK, SUSPENDING_DEVICE_MARK, WEAR_MARK};
use crate::plans::RawRecord;
use crate::plans::{encode, encode_records, largest, plan_t, raw_records, regular, with_wear};

pub struct Named {
    pub name: String,
    pub bytes: Vec<u8>,
    /// 0 if the plan is accepted, else the question that refuses it.
    pub number: u8,
}

/// All named plans.
pub fn all() -> Vec<Named> {
    let groups = [
        papers_plans(),
        question_1_records(),
        question_1_order(),
        question_1_marks(),
        question_1_clearing_marks(),
        question_1_wear(),
        suspending_devices(),
        clearing_devices(),
        question_2(),
        question_3(),
        question_4_ends(),
        question_4_shared(),
        question_5_zeros(),
        question_5_multiples(),
        question_6_numbers_and_starts(),
        question_6_inside(),
        question_6_exactness(),
        question_7(),
        question_8(),
        question_20(),
        question_20_many(),
        order_of_questions(),
    ];
    groups.into_iter().flatten().collect()
}

fn of_bytes(name: &str, number: u8, bytes: Vec<u8>) -> Named {
    let name = name.to_string();
    Named { name, bytes, number }
}

fn of_plan(name: &str, number: u8, plan: &Plan) -> Named {
    of_bytes(name, number, encode(plan))
}

/// What a named plan has unlike its base plan.
type Change = fn(&mut Plan);

/// A base plan with one change.
fn changed(name: &str, number: u8, mut plan: Plan, change: Change) -> Named {
    change(&mut plan);
    of_plan(name, number, &plan)
}

/// Plan T with one change.
fn t(name: &str, number: u8, change: Change) -> Named {
    changed(name, number, plan_t(), change)
}

/// Plan T with its image on two devices of 32 bytes, a sub-area on each.
fn two_devices(name: &str, number: u8, change: Change) -> Named {
    let mut plan = plan_t();
    plan.devices = joined(&[32, 32]);
    plan.sub_areas[1].device = 1;
    changed(name, number, plan, change)
}

/// Plan T with all sizes 1, so that sub-areas may begin and end at any byte: bytes 0 to 31 and 32
/// to 63 of the image.
fn bytewise(name: &str, number: u8, change: Change) -> Named {
    let mut plan = plan_t();
    for sub_area in &mut plan.sub_areas {
        sectors(sub_area, 1, 1);
        pages(sub_area, 1, 1);
        sub_area.sector_count = 32;
    }
    changed(name, number, plan, change)
}

/// Three areas with windows of 16 bytes from 0 on, each with one sub-area of 32 bytes.
fn three_areas(name: &str, number: u8, change: Change) -> Named {
    changed(name, number, regular(1, 3, 3), change)
}

/// Devices of these lengths, each starting where the last ended, modulo 2^32: a loader whose sums
/// wrap finds them joined.
fn joined(lengths: &[u32]) -> Vec<Device> {
    let mut start = 0u32;
    let mut devices = Vec::new();
    for &length in lengths {
        devices.push(Device { start, length, patience: 2, chip: Chip::Plain });
        start = start.wrapping_add(length);
    }
    devices
}

fn window(area: &mut Area, start: u32, length: u32) {
    (area.window_start, area.window_length) = (start, length);
}

fn sectors(sub_area: &mut SubArea, sector: u32, burst: u32) {
    (sub_area.sector, sub_area.sector_burst) = (sector, burst);
}

fn pages(sub_area: &mut SubArea, page: u32, burst: u32) {
    (sub_area.page, sub_area.page_burst) = (page, burst);
}

fn reads(sub_area: &mut SubArea, smallest: u32, largest: u32) {
    (sub_area.smallest_read, sub_area.largest_read) = (smallest, largest);
}

fn place(sub_area: &mut SubArea, start: u32, sector_count: u32) {
    (sub_area.start, sub_area.sector_count) = (start, sector_count);
}

/// The plans that document 01 names itself.
pub fn papers_plans() -> Vec<Named> {
    vec![
        of_bytes("empty plan", 2, Vec::new()),
        of_plan("plan T", 0, &plan_t()),
        t("plan T, patience 0", 3, |p| p.devices[0].patience = 0),
        t("plan T, device length 63", 6, |p| p.devices[0].length = 63),
        t("plan T, sector burst 24", 5, |p| p.sub_areas[0].sector_burst = 24),
    ]
}

/// The plan with this mark on one of its records.
fn marked(plan: &Plan, record: usize, mark: [u8; 2]) -> Vec<u8> {
    let mut records = raw_records(plan);
    records[record].mark = mark;
    encode_records(&records)
}

pub fn question_1_records() -> Vec<Named> {
    let bytes = encode(&plan_t());
    let cut = |length: usize| bytes[..length].to_vec();
    let padded = |end: &[u8]| [&bytes, end].concat();
    let with_mark = |record: usize, mark: [u8; 2]| marked(&plan_t(), record, mark);
    vec![
        of_bytes("last byte cut", 1, cut(bytes.len() - 1)),
        of_bytes("last sub-area cut to its mark", 1, cut(bytes.len() - 36)),
        of_bytes("last sub-area cut to half its mark", 1, cut(bytes.len() - 37)),
        of_bytes("last sub-area cut off whole", 7, cut(bytes.len() - 38)),
        of_bytes("only the first byte", 1, cut(1)),
        of_bytes("a byte behind the last record", 1, padded(&[0])),
        of_bytes("a mark behind the last record", 1, padded(&SUB_AREA_MARK)),
        of_bytes("device mark with its bytes exchanged", 1, with_mark(0, [0x56, 0x44])),
        of_bytes("device mark, first byte unknown", 1, with_mark(0, [0x45, 0x56])),
        of_bytes("device mark, second byte unknown", 1, with_mark(0, [0x44, 0x57])),
        of_bytes("area mark, first byte unknown", 1, with_mark(2, [0x42, 0x52])),
        of_bytes("area mark, second byte unknown", 1, with_mark(2, [0x41, 0x42])),
        of_bytes("sub-area mark, first byte unknown", 1, with_mark(4, [0x52, 0x42])),
        of_bytes("sub-area mark, second byte unknown", 1, with_mark(4, [0x53, 0x52])),
        of_bytes("area with the mark of a device", 1, with_mark(1, DEVICE_MARK)),
        of_bytes("sub-area with the mark of an area", 1, with_mark(3, AREA_MARK)),
    ]
}

/// The mark of a device that can suspend, its neighbours, and the marks of requests not landed yet.
pub fn question_1_marks() -> Vec<Named> {
    let t = |record: usize, mark: [u8; 2]| marked(&plan_t(), record, mark);
    let largest = |record: usize| marked(&largest(), record, [0x44, 0x53]);
    vec![
        of_bytes("device mark 44 53", 0, t(0, [0x44, 0x53])),
        of_bytes("device mark 44 53 on the first of four devices", 0, largest(0)),
        of_bytes("device mark 44 53 on the last of four devices", 0, largest(3)),
        of_bytes("device mark 44 52", 1, t(0, [0x44, 0x52])),
        of_bytes("device mark 44 54", 1, t(0, [0x44, 0x54])),
        of_bytes("device mark 44 55", 1, t(0, [0x44, 0x55])),
        of_bytes("device mark 53 44", 1, t(0, [0x53, 0x44])),
        of_bytes("device mark 43 53", 1, t(0, [0x43, 0x53])),
        of_bytes("area mark 41 53", 1, t(2, [0x41, 0x53])),
        of_bytes("area mark 41 4C", 1, t(2, [0x41, 0x4C])),
        of_bytes("sub-area mark 53 53", 1, t(4, [0x53, 0x53])),
        of_bytes("area with mark 44 53", 1, t(1, SUSPENDING_DEVICE_MARK)),
        of_bytes("sub-area with mark 44 53", 1, t(3, SUSPENDING_DEVICE_MARK)),
        of_bytes("mark 44 53 and nothing else", 1, SUSPENDING_DEVICE_MARK.to_vec()),
    ]
}

/// A device that can suspend answers questions 2 and 3 as any other.
pub fn suspending_devices() -> Vec<Named> {
    vec![
        t("a device that can suspend, patience 0", 3, |p| {
            (p.devices[0].chip, p.devices[0].patience) = (Chip::Suspending, 0);
        }),
        two_devices("the second of two can suspend", 0, |p| p.devices[1].chip = Chip::Suspending),
        two_devices("the second can suspend and starts one more", 3, |p| {
            (p.devices[1].chip, p.devices[1].start) = (Chip::Suspending, 33);
        }),
        t("five devices that can suspend", 2, |p| {
            p.devices = joined(&[64, 1, 1, 1, 1]);
            p.devices.iter_mut().for_each(|device| device.chip = Chip::Suspending);
        }),
    ]
}

/// The mark of a device that only clears bits, and its neighbours.
pub fn question_1_clearing_marks() -> Vec<Named> {
    let t = |record: usize, mark: [u8; 2]| marked(&plan_t(), record, mark);
    let largest = |record: usize| marked(&largest(), record, [0x44, 0x46]);
    vec![
        of_bytes("device mark 44 46", 0, t(0, [0x44, 0x46])),
        of_bytes("device mark 44 46 on the first of four devices", 0, largest(0)),
        of_bytes("device mark 44 46 on the last of four devices", 0, largest(3)),
        of_bytes("device mark 44 45", 1, t(0, [0x44, 0x45])),
        of_bytes("device mark 44 47", 1, t(0, [0x44, 0x47])),
        of_bytes("device mark 46 44", 1, t(0, [0x46, 0x44])),
        of_bytes("device mark 45 46", 1, t(0, [0x45, 0x46])),
        of_bytes("area mark 41 46", 1, t(2, [0x41, 0x46])),
        of_bytes("sub-area mark 53 46", 1, t(4, [0x53, 0x46])),
        of_bytes("area with mark 44 46", 1, t(1, CLEARING_DEVICE_MARK)),
        of_bytes("sub-area with mark 44 46", 1, t(3, CLEARING_DEVICE_MARK)),
        of_bytes("mark 44 46 and nothing else", 1, CLEARING_DEVICE_MARK.to_vec()),
    ]
}

/// The chips of the first devices.
fn set_chips(plan: &mut Plan, chips: &[Chip]) {
    plan.devices.iter_mut().zip(chips).for_each(|(device, chip)| device.chip = *chip);
}

/// A device that only clears bits answers questions 2 and 3 as any other, and the three marks may
/// stand in one plan in any order.
pub fn clearing_devices() -> Vec<Named> {
    use Chip::{Clearing, Plain, Suspending};
    vec![
        t("a device that only clears bits, patience 0", 3, |p| {
            (p.devices[0].chip, p.devices[0].patience) = (Clearing, 0);
        }),
        two_devices("the second of two only clears bits", 0, |p| p.devices[1].chip = Clearing),
        two_devices("the second only clears bits and starts one more", 3, |p| {
            (p.devices[1].chip, p.devices[1].start) = (Clearing, 33);
        }),
        changed("marks 44 56, 44 53 and 44 46 in one plan", 0, largest(), |p| {
            set_chips(p, &[Plain, Suspending, Clearing]);
        }),
        changed("marks 44 46, 44 56, 44 53 and 44 46 in one plan", 0, largest(), |p| {
            set_chips(p, &[Clearing, Plain, Suspending, Clearing]);
        }),
        t("five devices that only clear bits", 2, |p| {
            p.devices = joined(&[64, 1, 1, 1, 1]);
            set_chips(p, &[Clearing; 5]);
        }),
    ]
}

pub fn question_1_order() -> Vec<Named> {
    let records = raw_records(&plan_t());
    let (device, area, sub_area) = (&records[0], &records[1], &records[3]);
    let suspending = RawRecord { mark: SUSPENDING_DEVICE_MARK, ..device.clone() };
    let clearing = RawRecord { mark: CLEARING_DEVICE_MARK, ..device.clone() };
    vec![
        of_records("one record of each kind", 0, &[device, area, sub_area]),
        of_records("area before device", 1, &[area, device, sub_area]),
        of_records("area before a device that can suspend", 1, &[area, &suspending, sub_area]),
        of_records("area before a device that only clears bits", 1, &[area, &clearing, sub_area]),
        of_records(
            "a device that can suspend behind all",
            1,
            &[device, area, sub_area, &suspending],
        ),
        of_records(
            "a device that only clears bits behind all",
            1,
            &[device, area, sub_area, &clearing],
        ),
        of_records("sub-area before area", 1, &[device, sub_area, area]),
        of_records("sub-area before device", 1, &[sub_area, device]),
        of_records("device behind the areas", 1, &[device, area, device, sub_area]),
        of_records("device behind the sub-areas", 1, &[device, area, sub_area, device]),
        of_records("area behind the sub-areas", 1, &[device, area, sub_area, area]),
        of_records("device and sub-area without area", 2, &[device, sub_area]),
        of_records("area and sub-area without device", 2, &[area, sub_area]),
    ]
}

/// Records in this order.
fn of_records(name: &str, number: u8, records: &[&RawRecord]) -> Named {
    of_bytes(name, number, records.iter().flat_map(|record| record.bytes()).collect())
}

/// Wear records are whole, have their mark and stand "after all others".
pub fn question_1_wear() -> Vec<Named> {
    let worn = with_wear(plan_t(), &[(0, 7)]);
    let bytes = encode(&worn);
    let cut = |length: usize| bytes[..length].to_vec();
    let records = raw_records(&worn);
    let (device, area, sub_area, wear) = (&records[0], &records[1], &records[3], &records[5]);
    let padded = |end: &[u8]| [&bytes, end].concat();
    vec![
        of_bytes("wear record, last byte cut", 1, cut(bytes.len() - 1)),
        of_bytes("wear record cut to its sub-area", 1, cut(bytes.len() - 4)),
        of_bytes("wear record cut to its mark", 1, cut(bytes.len() - 5)),
        of_bytes("wear record cut to half its mark", 1, cut(bytes.len() - 6)),
        of_bytes("a byte behind the wear record", 1, padded(&[0])),
        of_bytes("a wear mark behind the wear record", 1, padded(&WEAR_MARK)),
        of_bytes("wear mark 52 57", 1, marked(&worn, 5, [0x52, 0x57])),
        of_bytes("wear mark 57 51", 1, marked(&worn, 5, [0x57, 0x51])),
        of_bytes("wear mark 57 53", 1, marked(&worn, 5, [0x57, 0x53])),
        of_bytes("wear mark 56 52", 1, marked(&worn, 5, [0x56, 0x52])),
        of_bytes("mark 52 54 behind the sub-areas", 1, marked(&worn, 5, [0x52, 0x54])),
        of_bytes("sub-area with the mark of a wear record", 1, marked(&plan_t(), 4, WEAR_MARK)),
        of_records("wear before the sub-areas", 1, &[device, area, wear, sub_area]),
        of_records("wear before the areas", 1, &[device, wear, area, sub_area]),
        of_records("wear before all", 1, &[wear, device, area, sub_area]),
        of_records("wear between sub-areas", 1, &[device, area, sub_area, wear, sub_area]),
        of_records("area behind wear", 1, &[device, area, sub_area, wear, area]),
        of_records("device behind wear", 1, &[device, area, sub_area, wear, device]),
        of_records("one record of each kind with wear", 0, &[device, area, sub_area, wear]),
        of_records("wear without sub-area", 2, &[device, area, wear]),
        of_records("only a wear record", 2, &[wear]),
    ]
}

pub fn question_2() -> Vec<Named> {
    let more_areas = |count: usize| {
        let mut plan = largest();
        plan.areas.resize(count, plan.areas[0]);
        plan
    };
    vec![
        of_plan("1 device, 1 area, 1 sub-area", 0, &regular(1, 1, 1)),
        of_plan("4 devices, 8 areas, 32 sub-areas", 0, &largest()),
        of_plan("0 devices", 2, &regular(0, 1, 1)),
        of_plan("4 devices", 0, &regular(4, 1, 4)),
        of_plan("5 devices", 2, &regular(5, 1, 5)),
        of_plan("256 devices", 2, &regular(256, 1, 1)),
        of_plan("260 devices", 2, &regular(260, 1, 1)),
        of_plan("0 areas", 2, &regular(1, 0, 1)),
        of_plan("8 areas", 0, &regular(1, 8, 8)),
        of_plan("9 areas", 2, &regular(1, 9, 9)),
        of_plan("256 areas", 2, &more_areas(256)),
        of_plan("264 areas", 2, &more_areas(264)),
        of_plan("0 sub-areas", 2, &regular(1, 1, 0)),
        of_plan("32 sub-areas", 0, &regular(1, 1, 32)),
        of_plan("33 sub-areas", 2, &regular(1, 1, 33)),
        of_plan("256 sub-areas", 2, &regular(1, 1, 256)),
        of_plan("288 sub-areas", 2, &regular(1, 1, 288)),
        of_plan("only a device", 2, &regular(1, 0, 0)),
        of_plan("only an area", 2, &regular(0, 1, 0)),
        of_plan("only a sub-area", 2, &regular(0, 0, 1)),
    ]
}

pub fn question_3() -> Vec<Named> {
    vec![
        two_devices("first device starts at 0", 0, |p| p.devices[0].start = 0),
        two_devices("first device starts at 1", 3, |p| p.devices[0].start = 1),
        t("the only device starts at 1", 3, |p| {
            (p.devices[0].start, p.devices[0].length) = (1, 63);
            place(&mut p.sub_areas[0], 16, 1);
        }),
        two_devices("next device starts one less", 3, |p| p.devices[1].start = 31),
        two_devices("next device starts one more", 3, |p| p.devices[1].start = 33),
        two_devices("both devices start at 0", 3, |p| p.devices[1].start = 0),
        t("a gap before the last of three", 3, |p| {
            p.devices = joined(&[64, 1, 1]);
            p.devices[2].start = 66;
        }),
        t("a last device of length 0", 3, |p| p.devices = joined(&[64, 0])),
        t("a last device of length 1", 0, |p| p.devices = joined(&[64, 1])),
        t("the only device of length 0", 3, |p| p.devices[0].length = 0),
        t("patience 1", 0, |p| p.devices[0].patience = 1),
        t("patience 65,535", 0, |p| p.devices[0].patience = 65_535),
        two_devices("the second patience 0", 3, |p| p.devices[1].patience = 0),
        two_devices("the second patience 1", 0, |p| p.devices[1].patience = 1),
        t("sum 16,777,216", 0, |p| p.devices = joined(&[16_777_216])),
        t("sum 16,777,217", 3, |p| p.devices = joined(&[16_777_217])),
        t("four devices, sum 16,777,216", 0, |p| p.devices = joined(&[64, 1, 1, 16_777_150])),
        t("four devices, sum 16,777,217", 3, |p| p.devices = joined(&[64, 1, 1, 16_777_151])),
        t("length 4,294,967,295", 3, |p| p.devices = joined(&[4_294_967_295])),
        t("sum 2^32", 3, |p| p.devices = joined(&[64, 4_294_967_232])),
        t("sum 2^32 + 64", 3, |p| p.devices = joined(&[64, 4_294_967_232, 64])),
    ]
}

pub fn question_4_ends() -> Vec<Named> {
    vec![
        t("window ends at 65,536", 0, |p| window(&mut p.areas[1], 65_520, 16)),
        t("window ends at 65,537", 4, |p| window(&mut p.areas[1], 65_520, 17)),
        t("first window ends at 65,537", 4, |p| window(&mut p.areas[0], 65_521, 16)),
        t("length 0 at 65,535", 0, |p| window(&mut p.areas[1], 65_535, 0)),
        t("length 0 at 65,536", 0, |p| window(&mut p.areas[1], 65_536, 0)),
        t("length 0 at 65,537", 4, |p| window(&mut p.areas[1], 65_537, 0)),
        t("length 0 at 4,294,967,295", 4, |p| window(&mut p.areas[1], u32::MAX, 0)),
        t("window end 2^32", 4, |p| window(&mut p.areas[1], u32::MAX, 1)),
        t("window end 2^32 + 32", 4, |p| window(&mut p.areas[1], 48, u32::MAX - 15)),
        t("windows of 65,536 and 0 bytes", 0, |p| {
            window(&mut p.areas[0], 0, 65_536);
            window(&mut p.areas[1], 65_536, 0);
        }),
    ]
}

pub fn question_4_shared() -> Vec<Named> {
    vec![
        t("windows share one byte", 4, |p| window(&mut p.areas[1], 15, 16)),
        t("windows touch", 0, |p| window(&mut p.areas[1], 16, 16)),
        t("windows one byte apart", 0, |p| window(&mut p.areas[1], 17, 16)),
        t("later window below, one byte shared", 4, |p| {
            window(&mut p.areas[0], 15, 16);
            window(&mut p.areas[1], 0, 16);
        }),
        t("later window below, touching", 0, |p| {
            window(&mut p.areas[0], 16, 16);
            window(&mut p.areas[1], 0, 16);
        }),
        t("second window inside the first", 4, |p| window(&mut p.areas[1], 4, 8)),
        t("first window inside the second", 4, |p| window(&mut p.areas[0], 20, 1)),
        t("equal windows", 4, |p| window(&mut p.areas[1], 0, 16)),
        t("length 0 inside another", 0, |p| window(&mut p.areas[1], 8, 0)),
        t("length 0 first, inside another", 0, |p| window(&mut p.areas[0], 20, 0)),
        t("length 0 at another's start", 0, |p| window(&mut p.areas[1], 0, 0)),
        t("length 0 at another's end", 0, |p| window(&mut p.areas[1], 16, 0)),
        t("both of length 0 at one place", 0, |p| {
            window(&mut p.areas[0], 7, 0);
            window(&mut p.areas[1], 7, 0);
        }),
        three_areas("first and last of three share a byte", 4, |p| window(&mut p.areas[2], 15, 1)),
    ]
}

pub fn question_5_zeros() -> Vec<Named> {
    vec![
        t("sector 0", 5, |p| p.sub_areas[0].sector = 0),
        t("sector burst 0", 5, |p| p.sub_areas[0].sector_burst = 0),
        t("page 0", 5, |p| p.sub_areas[0].page = 0),
        t("page burst 0", 5, |p| p.sub_areas[0].page_burst = 0),
        t("smallest read 0", 5, |p| p.sub_areas[0].smallest_read = 0),
        t("largest read 0", 5, |p| p.sub_areas[0].largest_read = 0),
        t("sector count 0", 5, |p| p.sub_areas[0].sector_count = 0),
        t("page and page burst 0", 5, |p| pages(&mut p.sub_areas[1], 0, 0)),
        t("sector and sector burst 0", 5, |p| sectors(&mut p.sub_areas[1], 0, 0)),
        t("both reads 0", 5, |p| reads(&mut p.sub_areas[1], 0, 0)),
        t("sector count 1", 0, |p| p.sub_areas[0].sector_count = 1),
        t("write retries 0", 0, |p| p.sub_areas[0].write_retries = 0),
        t("write retries 255", 0, |p| p.sub_areas[0].write_retries = 255),
        t("erase retries 255", 0, |p| p.sub_areas[0].erase_retries = 255),
        bytewise("all sizes 1", 0, |p| p.sub_areas[0].largest_read = 1),
    ]
}

pub fn question_5_multiples() -> Vec<Named> {
    vec![
        t("sector no multiple of page", 5, |p| pages(&mut p.sub_areas[0], 3, 3)),
        t("page twice the sector", 5, |p| pages(&mut p.sub_areas[0], 32, 32)),
        t("page equal to the sector", 0, |p| pages(&mut p.sub_areas[0], 16, 16)),
        t("sector no multiple of smallest read", 5, |p| reads(&mut p.sub_areas[0], 3, 3)),
        t("smallest read twice the sector", 5, |p| reads(&mut p.sub_areas[0], 32, 32)),
        t("smallest read equal to the sector", 0, |p| reads(&mut p.sub_areas[0], 16, 16)),
        t("page no multiple of smallest read", 0, |p| reads(&mut p.sub_areas[0], 8, 8)),
        t("sector burst one less", 5, |p| p.sub_areas[0].sector_burst = 31),
        t("sector burst one more", 5, |p| p.sub_areas[0].sector_burst = 33),
        t("sector burst half a sector", 5, |p| p.sub_areas[0].sector_burst = 8),
        t("sector burst one sector", 0, |p| p.sub_areas[0].sector_burst = 16),
        t("sector burst beyond the sub-area", 0, |p| p.sub_areas[0].sector_burst = 48),
        t("largest sector burst", 0, |p| p.sub_areas[0].sector_burst = 4_294_967_280),
        t("sector burst 4,294,967,295", 5, |p| p.sub_areas[0].sector_burst = u32::MAX),
        t("page burst off", 5, |p| p.sub_areas[0].page_burst = 10),
        t("page burst half a page", 5, |p| p.sub_areas[0].page_burst = 2),
        t("page burst that does not divide the sector", 0, |p| p.sub_areas[0].page_burst = 12),
        t("page burst beyond the sub-area", 0, |p| p.sub_areas[0].page_burst = 64),
        t("largest read off", 5, |p| reads(&mut p.sub_areas[0], 2, 7)),
        t("largest read below smallest", 5, |p| reads(&mut p.sub_areas[0], 4, 2)),
        t("largest read beyond the sub-area", 0, |p| p.sub_areas[0].largest_read = u32::MAX),
        t("second sector burst off", 5, |p| p.sub_areas[1].sector_burst = 24),
        t("second page burst off", 5, |p| p.sub_areas[1].page_burst = 6),
    ]
}

pub fn question_6_numbers_and_starts() -> Vec<Named> {
    vec![
        t("last known area", 0, |p| p.sub_areas[1].area = 1),
        t("first unknown area", 6, |p| p.sub_areas[1].area = 2),
        t("area 255", 6, |p| p.sub_areas[1].area = 255),
        two_devices("last known device", 0, |p| p.sub_areas[1].device = 1),
        two_devices("first unknown device", 6, |p| p.sub_areas[1].device = 2),
        two_devices("device 255", 6, |p| p.sub_areas[1].device = 255),
        two_devices("on the wrong device", 6, |p| p.sub_areas[1].device = 0),
        t("start one more", 6, |p| p.sub_areas[0].start = 1),
        t("start one less", 6, |p| place(&mut p.sub_areas[1], 31, 1)),
        t("start a page but no sector", 6, |p| place(&mut p.sub_areas[1], 36, 1)),
        two_devices("start a sector from image start only", 0, |p| {
            p.devices = joined(&[33, 31]);
            place(&mut p.sub_areas[1], 48, 1);
        }),
        two_devices("start a sector from device start only", 6, |p| {
            p.devices = joined(&[40, 24]);
            place(&mut p.sub_areas[1], 40, 1);
        }),
    ]
}

pub fn question_6_inside() -> Vec<Named> {
    vec![
        bytewise("sub-area ends at its device's end", 0, |p| p.devices[0].length = 64),
        bytewise("sub-area ends one past its device's end", 6, |p| p.devices[0].length = 63),
        bytewise("sub-area starts at its device's end", 6, |p| place(&mut p.sub_areas[1], 64, 1)),
        bytewise("sub-area starts at its device's last byte", 0, |p| {
            place(&mut p.sub_areas[1], 63, 1)
        }),
        bytewise("sub-area starts with its device", 0, |p| {
            p.devices = joined(&[32, 32]);
            p.sub_areas[1].device = 1;
        }),
        bytewise("sub-area starts one before its device", 6, |p| {
            p.devices = joined(&[33, 31]);
            p.sub_areas[1].device = 1;
        }),
        bytewise("sub-area reaches into the next device", 6, |p| p.devices = joined(&[63, 1])),
    ]
}

/// Question 6 where sums and products of 32 bits would wrap into the device.
pub fn question_6_exactness() -> Vec<Named> {
    vec![
        t("sector 2^31 times 2", 6, |p| {
            let sub_area = &mut p.sub_areas[0];
            sectors(sub_area, 1 << 31, 1 << 31);
            sub_area.sector_count = 2;
        }),
        t("sector 65,536 times 65,536", 6, |p| {
            let sub_area = &mut p.sub_areas[0];
            sectors(sub_area, 65_536, 65_536);
            sub_area.sector_count = 65_536;
        }),
        t("size 2^32 + 16", 6, |p| p.sub_areas[0].sector_count = (1 << 28) + 1),
        bytewise("size 4,294,967,295", 6, |p| p.sub_areas[0].sector_count = u32::MAX),
        t("sub-area end 2^32", 6, |p| place(&mut p.sub_areas[1], 4_294_967_280, 1)),
        t("sub-area end 2^32 + 16", 6, |p| place(&mut p.sub_areas[1], 4_294_967_280, 2)),
        bytewise("size and end of 64 bits", 6, |p| {
            let sub_area = &mut p.sub_areas[1];
            sectors(sub_area, u32::MAX, u32::MAX);
            place(sub_area, u32::MAX, u32::MAX);
        }),
        t("one sub-area of 16,777,216", 0, |p| {
            p.devices = joined(&[16_777_216]);
            p.areas.pop();
            p.sub_areas.pop();
            p.sub_areas[0].sector_count = 1_048_576;
        }),
    ]
}

pub fn question_7() -> Vec<Named> {
    vec![
        t("area numbers falling", 7, |p| p.sub_areas.swap(0, 1)),
        three_areas("area numbers 0, 2, 1", 7, |p| p.sub_areas.swap(1, 2)),
        changed("area numbers 0, 1, 0", 7, regular(1, 2, 3), |p| p.sub_areas[2].area = 0),
        changed("area numbers 0, 0, 1", 0, regular(1, 2, 3), |p| p.sub_areas[1].area = 0),
        three_areas("first area without sub-area", 7, |p| p.sub_areas[0].area = 1),
        three_areas("middle area without sub-area", 7, |p| p.sub_areas[1].area = 0),
        three_areas("last area without sub-area", 7, |p| p.sub_areas[2].area = 1),
        t("logical end 4,294,967,295", 0, |p| p.areas[0].logical_start = 4_294_967_263),
        t("logical end 4,294,967,296", 7, |p| p.areas[0].logical_start = 4_294_967_264),
        t("logical start 4,294,967,295", 7, |p| p.areas[0].logical_start = u32::MAX),
        t("last logical end 4,294,967,295", 0, |p| p.areas[1].logical_start = 4_294_967_263),
        t("last logical end 4,294,967,296", 7, |p| p.areas[1].logical_start = 4_294_967_264),
        changed("joined logical end 4,294,967,295", 0, regular(1, 1, 3), |p| {
            p.areas[0].logical_start = 4_294_967_199
        }),
        changed("joined logical end 4,294,967,296", 7, regular(1, 1, 3), |p| {
            p.areas[0].logical_start = 4_294_967_200
        }),
        t("equal logical spaces", 0, |p| p.areas[1].logical_start = 0),
        t("logical spaces in falling order", 0, |p| p.areas[0].logical_start = 1_000),
        t("equal priorities", 0, |p| p.areas[0].priority = 5),
        t("priorities 0 and 65,535", 0, |p| {
            (p.areas[0].priority, p.areas[1].priority) = (0, 65_535)
        }),
    ]
}

pub fn question_8() -> Vec<Named> {
    vec![
        bytewise("sub-areas of two areas share a byte", 8, |p| place(&mut p.sub_areas[1], 31, 32)),
        bytewise("sub-areas of two areas touch", 0, |p| p.sub_areas[1].start = 32),
        bytewise("sub-areas one byte apart", 0, |p| place(&mut p.sub_areas[1], 33, 31)),
        bytewise("sub-areas of one area share a byte", 8, |p| {
            p.areas.pop();
            p.sub_areas[1].area = 0;
            p.sub_areas[1].start = 31;
        }),
        bytewise("sub-areas of one area touch", 0, |p| {
            p.areas.pop();
            p.sub_areas[1].area = 0;
        }),
        bytewise("later sub-area below, one byte shared", 8, |p| {
            (p.sub_areas[0].start, p.sub_areas[1].start) = (31, 0)
        }),
        bytewise("later sub-area below, touching", 0, |p| {
            (p.sub_areas[0].start, p.sub_areas[1].start) = (32, 0)
        }),
        bytewise("second sub-area inside the first", 8, |p| place(&mut p.sub_areas[1], 8, 4)),
        bytewise("first sub-area inside the second", 8, |p| place(&mut p.sub_areas[0], 40, 1)),
        t("equal sub-areas", 8, |p| p.sub_areas[1].start = 0),
        t("sub-areas share a sector", 8, |p| p.sub_areas[1].start = 16),
        three_areas("first and last of three share bytes", 8, |p| {
            p.sub_areas[2].start = p.sub_areas[0].start
        }),
        changed("the last two of 32 share bytes", 8, largest(), |p| {
            p.sub_areas[31].start = p.sub_areas[27].start
        }),
    ]
}

/// Plan T with wear records of these sub-areas and endurances. Its sub-areas are 0 and 1.
fn worn(name: &str, number: u8, records: &[(u8, u32)]) -> Named {
    of_plan(name, number, &with_wear(plan_t(), records))
}

pub fn question_20() -> Vec<Named> {
    vec![
        worn("wear 0: 7", 0, &[(0, 7)]),
        worn("wear 1: 1", 0, &[(1, 1)]),
        worn("wear 0: 4,294,967,295", 0, &[(0, 4_294_967_295)]),
        worn("wear 0: 5 and 1: 5", 0, &[(0, 5), (1, 5)]),
        worn("wear 1: 6 and 0: 5", 0, &[(1, 6), (0, 5)]),
        worn("wear 2: 5", 20, &[(2, 5)]),
        worn("wear 255: 5", 20, &[(255, 5)]),
        worn("wear 0: 5 and 2: 5", 20, &[(0, 5), (2, 5)]),
        worn("wear 2: 5 and 0: 5", 20, &[(2, 5), (0, 5)]),
        worn("wear 0: 5 and 0: 6", 20, &[(0, 5), (0, 6)]),
        worn("wear 1: 5 and 1: 5", 20, &[(1, 5), (1, 5)]),
        worn("wear 0: 5, 1: 5 and 0: 5", 20, &[(0, 5), (1, 5), (0, 5)]),
        worn("wear 1: 5, 0: 5 and 0: 5", 20, &[(1, 5), (0, 5), (0, 5)]),
        worn("wear 1: 0", 20, &[(1, 0)]),
        worn("wear 0: 5 and 1: 0", 20, &[(0, 5), (1, 0)]),
        worn("wear 0: 0 and 1: 5", 20, &[(0, 0), (1, 5)]),
        worn("wear 0: 0 and 0: 5", 20, &[(0, 0), (0, 5)]),
        worn("wear 0: 5 and 0: 0", 20, &[(0, 5), (0, 0)]),
        t("shared bytes and wear 9: 0", 8, |p| {
            p.sub_areas[1].start = 16;
            *p = with_wear(p.clone(), &[(9, 0)]);
        }),
    ]
}

/// More than 32 wear records pass questions 1 and 2: all of 33 cannot be right.
pub fn question_20_many() -> Vec<Named> {
    let each_once: Vec<_> = (0..32).map(|sub_area| (sub_area, 1)).collect();
    let falling: Vec<_> = each_once.iter().rev().copied().collect();
    let on_largest = |name: &str, number: u8, records: &[(u8, u32)]| {
        of_plan(name, number, &with_wear(largest(), records))
    };
    vec![
        on_largest("32 sub-areas with wear", 0, &each_once),
        on_largest("32 sub-areas with wear, in falling order", 0, &falling),
        on_largest("the last of 32 with wear", 0, &[(31, 1)]),
        on_largest("wear of the first unknown of 32", 20, &[(32, 1)]),
        on_largest(
            "33 wear records, the last repeated",
            20,
            &[&each_once[..], &[(31, 1)]].concat(),
        ),
        on_largest("33 wear records, the last unknown", 20, &[&each_once[..], &[(32, 1)]].concat()),
        on_largest("64 wear records", 20, &[&each_once[..], &falling].concat()),
        worn("33 times wear 0: 1", 20, &[(0, 1); 33]),
        worn("257 times wear 0: 1", 20, &[(0, 1); 257]),
    ]
}

/// Changes that make plan T fail one question each. They touch different fields, so any two can be
/// made together. Where records can be chosen, an earlier question's change is in a later record:
/// a question is asked over the whole plan before the next.
const FAILURES: [(u8, Change); 8] = [
    (2, |p| p.areas.resize(9, p.areas[0])),
    (3, |p| p.devices[0].patience = 0),
    (4, |p| p.areas[1].window_start = 15),
    (5, |p| p.sub_areas[1].page_burst = 6),
    (6, |p| p.sub_areas[0].device = 1),
    (7, |p| p.areas[0].logical_start = u32::MAX),
    (8, |p| p.sub_areas[1].start = 16),
    (20, |p| *p = with_wear(p.clone(), &[(9, 0)])),
];

/// Every single failure, and every pair, of which the earlier question gives the number.
pub fn order_of_questions() -> Vec<Named> {
    let mut cases = Vec::new();
    for (index, (number, fail)) in FAILURES.into_iter().enumerate() {
        let mut plan = plan_t();
        fail(&mut plan);
        cases.push(of_plan(&format!("fails {number}"), number, &plan));
        let mut cut_short = encode(&plan);
        cut_short.pop();
        cases.push(of_bytes(&format!("fails 1 and {number}"), 1, cut_short));
        for (later, fail_too) in &FAILURES[index + 1..] {
            let mut plan = plan.clone();
            fail_too(&mut plan);
            cases.push(of_plan(&format!("fails {number} and {later}"), number, &plan));
        }
    }
    cases
}
