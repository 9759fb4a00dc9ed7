//! The proved library against the model: the number and every field, for every plan.
#![cfg(feature = "proved")]

use model::histogram::Histogram;
use model::named;
use model::plan::{self, Area, Device, Plan, SubArea};
use model::plans::{any, byte_changes, cuts, field_changes, largest, plan_t, valid, with_wear};
use model::proved::{self, AreaRecord, DeviceRecord, Granularity, LoadView, SubAreaRecord, Window};
use model::random::Random;

const SEEDS: [u64; 4] = [11, 12, 13, 14];
const PLANS_PER_SEED: u32 = 40_000;

fn device_record(device: &Device) -> DeviceRecord {
    DeviceRecord {
        start: device.start,
        length: device.length,
        poll_limit: device.patience,
        suspends: device.chip.can_suspend(),
        clears: device.chip.only_clears(),
    }
}

fn area_record(area: &Area) -> AreaRecord {
    AreaRecord {
        priority: area.priority,
        start: area.logical_start,
        window: Window { start: area.window_start, length: area.window_length },
    }
}

fn sub_area_record(sub_area: &SubArea) -> SubAreaRecord {
    SubAreaRecord {
        area: sub_area.area,
        device: sub_area.device,
        start: sub_area.start,
        erase: Granularity { unit: sub_area.sector, burst: sub_area.sector_burst },
        write: Granularity { unit: sub_area.page, burst: sub_area.page_burst },
        read: Granularity { unit: sub_area.smallest_read, burst: sub_area.largest_read },
        sector_count: sub_area.sector_count,
        write_retries: sub_area.write_retries,
        erase_retries: sub_area.erase_retries,
    }
}

/// The records at the front of the arrays, zeros behind them.
fn plan_view(plan: &Plan) -> proved::Plan {
    let mut view = proved::Plan::default();
    for (slot, device) in view.devices.iter_mut().zip(&plan.devices) {
        *slot = device_record(device);
    }
    for (slot, area) in view.areas.iter_mut().zip(&plan.areas) {
        *slot = area_record(area);
    }
    for (slot, sub_area) in view.sub_areas.iter_mut().zip(&plan.sub_areas) {
        *slot = sub_area_record(sub_area);
    }
    view.device_count = plan.devices.len();
    view.area_count = plan.areas.len();
    view.sub_area_count = plan.sub_areas.len();
    for record in &plan.wear_records {
        view.endurance[usize::from(record.sub_area)] = record.endurance;
    }
    view
}

/// The plan with most records, each sub-area with a wear record of its own.
fn largest_worn() -> Plan {
    let records: Vec<_> = (0..32).map(|sub_area| (sub_area, 1 + u32::from(sub_area))).collect();
    with_wear(largest(), &records)
}

/// What the interface owes for these bytes. "A refused load returns the manager of all zeros";
/// an accepted one the plan with fresh areas, free devices and no wear, which are zeros as well, and with
/// ages that all differ: by number, as no job was accepted yet.
fn owed(bytes: &[u8]) -> LoadView {
    match plan::load(bytes) {
        Ok(plan) => LoadView {
            plan: plan_view(&plan),
            ages: [0, 1, 2, 3, 4, 5, 6, 7],
            ..LoadView::default()
        },
        Err(number) => LoadView { number, ..LoadView::default() },
    }
}

/// Compares both answers whole and gives the number.
fn compare(name: &str, bytes: &[u8]) -> u8 {
    let (proved, owed) = (proved::load(bytes), owed(bytes));
    if proved != owed {
        let (left, right) = (format!("{proved:#?}"), format!("{owed:#?}"));
        let difference = left.lines().zip(right.lines()).find(|(left, right)| left != right);
        panic!("{name}: proved and model differ first at {difference:?}, bytes {bytes:02x?}");
    }
    owed.number
}

#[test]
fn named_plans() {
    let cases = named::all();
    for case in &cases {
        assert_eq!(compare(&case.name, &case.bytes), case.number, "{}", case.name);
    }
    println!("{} named plans", cases.len());
}

#[test]
fn random_plans() {
    let mut histogram = Histogram::default();
    for seed in SEEDS {
        let mut random = Random::new(seed);
        for index in 0..PLANS_PER_SEED {
            let name = format!("plan {index} of seed {seed}");
            histogram.add(compare(&name, &any(&mut random)));
        }
    }
    println!("{histogram}");
    assert!((0..=8).chain([20]).all(|number| histogram.count(number) >= 4_000));
}

#[test]
fn every_field_changed() {
    let mut random = Random::new(21);
    let mut plans = vec![plan_t(), largest(), with_wear(plan_t(), &[(0, 7)]), largest_worn()];
    plans.extend((0..20).map(|_| valid(&mut random)));
    let mut histogram = Histogram::default();
    for plan in &plans {
        for bytes in field_changes(&mut random, plan) {
            histogram.add(compare("field changed", &bytes));
        }
    }
    println!("fields changed, {histogram}");
}

#[test]
fn every_byte_of_plan_t_changed() {
    let mut histogram = Histogram::default();
    for bytes in byte_changes(&with_wear(plan_t(), &[(1, 0x12345678)])) {
        histogram.add(compare("plan T with wear, byte changed", &bytes));
    }
    println!("bytes changed, {histogram}");
}

#[test]
fn every_cut() {
    let mut histogram = Histogram::default();
    for bytes in cuts(&largest_worn()) {
        histogram.add(compare("largest plan, cut", &bytes));
    }
    println!("cuts, {histogram}");
}
