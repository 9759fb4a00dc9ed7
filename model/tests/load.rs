//! The model's own tests of loading.

use model::histogram::Histogram;
use model::named::{self, Named};
use model::plan::{
    load, sub_areas_apart, wear_recorded, whole_records, windows_apart, Area, Chip, Device, Plan,
    SubArea, WearRecord,
};
use model::plans::{any, crowded, encode, every_sub_area_has_a_wear_record};
use model::plans::{full, loose, plan_t, small, valid, wounded_wear};
use model::plans::{some_burst_is_1, some_burst_is_no_power_of_two, some_unit_is_no_power_of_two};
use model::random::Random;
use model::sessions::{bench_plan, busy_plan};
use std::collections::BTreeSet;

fn number(bytes: &[u8]) -> u8 {
    load(bytes).err().unwrap_or(0)
}

fn check(cases: Vec<Named>) {
    for case in cases {
        assert_eq!(number(&case.bytes), case.number, "{}", case.name);
    }
}

#[test]
fn plans_named_in_the_paper() {
    check(named::papers_plans());
}

#[test]
fn question_1_both_sides() {
    check(named::question_1_records());
    check(named::question_1_order());
}

/// "A device record with mark hex 44 53, laid out as before", "a device mark hex 44 46 for such a chip,
/// (...) the layout is the old one": beside the other marks or alone; the marks of later requests are
/// unknown.
#[test]
fn question_1_device_marks() {
    check(named::question_1_marks());
    check(named::question_1_clearing_marks());
    check(named::suspending_devices());
    check(named::clearing_devices());
}

#[test]
fn question_2_both_sides() {
    check(named::question_2());
}

#[test]
fn question_3_both_sides() {
    check(named::question_3());
}

#[test]
fn question_4_both_sides() {
    check(named::question_4_ends());
    check(named::question_4_shared());
}

#[test]
fn question_5_both_sides() {
    check(named::question_5_zeros());
    check(named::question_5_multiples());
}

#[test]
fn question_6_both_sides() {
    check(named::question_6_numbers_and_starts());
    check(named::question_6_inside());
}

#[test]
fn question_6_never_wraps() {
    check(named::question_6_exactness());
}

#[test]
fn question_7_both_sides() {
    check(named::question_7());
}

#[test]
fn question_8_both_sides() {
    check(named::question_8());
}

/// "at most one per sub-area, after all others"; more than 32 of them are for 20 to refuse.
#[test]
fn wear_records_both_sides() {
    check(named::question_1_wear());
    check(named::question_20());
    check(named::question_20_many());
}

#[test]
fn the_earlier_question_gives_the_number() {
    check(named::order_of_questions());
}

#[test]
fn nine_areas_and_a_cut_record_give_1() {
    let case = named::order_of_questions().into_iter().find(|c| c.name == "fails 1 and 2");
    assert_eq!(number(&case.expect("the pair is in the table").bytes), 1);
}

#[test]
fn named_plans_have_different_names() {
    let names: BTreeSet<_> = named::all().into_iter().map(|case| case.name).collect();
    assert_eq!(names.len(), named::all().len());
}

/// Plan T byte for byte, written by hand from the paper's fields and widths.
#[rustfmt::skip]
const PLAN_T: [u8; 120] = [
    0x44, 0x56,  0, 0, 0, 0,  64, 0, 0, 0,  2, 0,
    0x41, 0x52,  1, 0,  0, 0, 0, 0,  0, 0, 0, 0,  16, 0, 0, 0,
    0x41, 0x52,  5, 0,  0, 1, 0, 0,  16, 0, 0, 0,  16, 0, 0, 0,
    0x53, 0x42,  0, 0,  0, 0, 0, 0,
    16, 0, 0, 0,  32, 0, 0, 0,  4, 0, 0, 0,  8, 0, 0, 0,  1, 0, 0, 0,  8, 0, 0, 0,
    2, 0, 0, 0,  1, 0,
    0x53, 0x42,  1, 0,  32, 0, 0, 0,
    16, 0, 0, 0,  16, 0, 0, 0,  4, 0, 0, 0,  4, 0, 0, 0,  1, 0, 0, 0,  4, 0, 0, 0,
    2, 0, 0, 0,  0, 0,
];

#[test]
fn plan_t_has_the_fields_of_the_paper() {
    let plan = load(&PLAN_T).expect("plan T is accepted");
    let area_0 = Area { priority: 1, logical_start: 0, window_start: 0, window_length: 16 };
    let area_1 = Area { priority: 5, logical_start: 256, window_start: 16, window_length: 16 };
    assert_eq!(plan.devices, [Device { start: 0, length: 64, patience: 2, chip: Chip::Plain }]);
    assert_eq!(plan.areas, [area_0, area_1]);
    assert_eq!(plan.device_sum(), 64);
    assert_eq!(plan, plan_t());
    assert_eq!(encode(&plan), PLAN_T);
}

#[test]
fn plan_t_has_the_sub_areas_of_the_paper() {
    let plan = load(&PLAN_T).expect("plan T is accepted");
    let sub_area_0 = SubArea {
        area: 0,
        device: 0,
        start: 0,
        sector: 16,
        sector_burst: 32,
        page: 4,
        page_burst: 8,
        smallest_read: 1,
        largest_read: 8,
        sector_count: 2,
        write_retries: 1,
        erase_retries: 0,
    };
    let sub_area_1 = SubArea {
        area: 1,
        device: 0,
        start: 32,
        sector: 16,
        sector_burst: 16,
        page: 4,
        page_burst: 4,
        smallest_read: 1,
        largest_read: 4,
        sector_count: 2,
        write_retries: 0,
        erase_retries: 0,
    };
    assert_eq!(plan.sub_areas, [sub_area_0, sub_area_1]);
}

/// Every field has its own place and its bytes stand least significant first.
#[test]
fn fields_are_read_in_order() {
    let marks = [(0x56, Chip::Plain), (0x53, Chip::Suspending), (0x46, Chip::Clearing)];
    for (second, chip) in marks {
        let bytes: Vec<u8> = [0x44, second].into_iter().chain(1..=10).collect();
        let device = whole_records(&bytes).expect("a whole device").devices[0];
        let expected = Device { start: 0x04030201, length: 0x08070605, patience: 0x0A09, chip };
        assert_eq!(device, expected);
    }

    let bytes: Vec<u8> = [0x41, 0x52].into_iter().chain(1..=14).collect();
    let area = whole_records(&bytes).expect("a whole area").areas[0];
    let expected = Area {
        priority: 0x0201,
        logical_start: 0x06050403,
        window_start: 0x0A090807,
        window_length: 0x0E0D0C0B,
    };
    assert_eq!(area, expected);

    let bytes: Vec<u8> = [0x53, 0x42].into_iter().chain(1..=36).collect();
    let sub_area = whole_records(&bytes).expect("a whole sub-area").sub_areas[0];
    let expected = SubArea {
        area: 1,
        device: 2,
        start: 0x06050403,
        sector: 0x0A090807,
        sector_burst: 0x0E0D0C0B,
        page: 0x1211100F,
        page_burst: 0x16151413,
        smallest_read: 0x1A191817,
        largest_read: 0x1E1D1C1B,
        sector_count: 0x2221201F,
        write_retries: 35,
        erase_retries: 36,
    };
    assert_eq!(sub_area, expected);
}

#[test]
fn fields_of_wear_records_are_read_in_order() {
    let bytes: Vec<u8> = [0x57, 0x52].into_iter().chain(1..=5).collect();
    let wear_record = whole_records(&bytes).expect("a whole wear record").wear_records[0];
    assert_eq!(wear_record, WearRecord { sub_area: 1, endurance: 0x05040302 });
}

#[test]
fn valid_plans_load_to_themselves() {
    let mut random = Random::new(1);
    for _ in 0..20_000 {
        let plan = valid(&mut random);
        assert_eq!(load(&encode(&plan)), Ok(plan));
    }
}

/// Does a plan show a certain extreme?
type Shows = fn(&Plan) -> bool;

/// The extremes a valid plan can show; each must come up often in the random ones.
const EXTREMES: [(&str, Shows); 24] = [
    ("no device that can suspend", |p| p.devices.iter().all(|d| !d.chip.can_suspend())),
    ("every device can suspend", |p| p.devices.iter().all(|d| d.chip.can_suspend())),
    ("every device only clears bits", |p| p.devices.iter().all(|d| d.chip.only_clears())),
    ("two device marks", |p| mark_count(p) == 2),
    ("all three device marks", |p| mark_count(p) == 3),
    ("all counts at their limits", |p| {
        (p.devices.len(), p.areas.len(), p.sub_areas.len()) == (4, 8, 32)
    }),
    ("all counts 1", |p| (p.devices.len(), p.areas.len(), p.sub_areas.len()) == (1, 1, 1)),
    ("device sum at its limit", |p| p.device_sum() == 16_777_216),
    ("a sub-area that ends at the limit", |p| {
        p.sub_areas.iter().any(|s| s.bytes().end == 16_777_216)
    }),
    ("a device of length 1", |p| p.devices.iter().any(|d| d.length == 1)),
    ("a device without sub-areas", |p| {
        (0u8..).zip(&p.devices).any(|(n, _)| p.sub_areas.iter().all(|s| s.device != n))
    }),
    ("a window that ends at 65,536", |p| p.areas.iter().any(|a| a.window().end == 65_536)),
    ("a window of length 0 at 65,536", |p| p.areas.iter().any(|a| a.window() == (65_536..65_536))),
    ("touching windows", |p| touch(p.areas.iter().map(Area::window).filter(|w| !w.is_empty()))),
    ("touching sub-areas", |p| touch(p.sub_areas.iter().map(SubArea::bytes))),
    ("an area on two devices", |p| {
        p.sub_areas.windows(2).any(|s| s[0].area == s[1].area && s[0].device != s[1].device)
    }),
    ("bursts beyond the sub-area", |p| {
        let beyond = |s: &SubArea| u64::from(s.sector_burst.min(s.page_burst)) > s.size();
        p.sub_areas.iter().any(beyond)
    }),
    ("a logical end at its limit", |p| {
        let end = |n: usize| u128::from(p.areas[n].logical_start) + p.area_size(n);
        (0..p.areas.len()).any(|n| end(n) == 4_294_967_295)
    }),
    ("equal priorities", |p| p.areas.windows(2).any(|a| a[0].priority == a[1].priority)),
    ("32 wear records", |p| p.wear_records.len() == 32),
    ("wear records that fall", |p| !p.wear_records.is_sorted_by_key(|r| r.sub_area)),
    ("a wear record of sub-area 31", |p| p.wear_records.iter().any(|r| r.sub_area == 31)),
    ("endurance 1", |p| p.wear_records.iter().any(|r| r.endurance == 1)),
    ("endurance 4,294,967,295", |p| p.wear_records.iter().any(|r| r.endurance == 4_294_967_295)),
];

fn mark_count(plan: &Plan) -> usize {
    plan.devices.iter().map(|device| device.chip).collect::<BTreeSet<_>>().len()
}

/// Some span ends where another starts.
fn touch(spans: impl Iterator<Item = std::ops::Range<u64>>) -> bool {
    let (starts, ends): (BTreeSet<_>, BTreeSet<_>) = spans.map(|s| (s.start, s.end)).unzip();
    !starts.is_disjoint(&ends)
}

/// Of the devices of every kind of random plan half or more can suspend, and a quarter or more only
/// clear bits. Where there is room for all three marks, half of the plans or more have them.
#[test]
fn every_mark_is_drawn_often() {
    let mut random = Random::new(7);
    for plan in [valid, loose, small, crowded, full] {
        let plans: Vec<_> = (0..2_000).map(|_| plan(&mut random)).collect();
        let devices: Vec<_> = plans.iter().flat_map(|plan| &plan.devices).collect();
        let can_suspend = devices.iter().filter(|device| device.chip.can_suspend()).count();
        assert!((devices.len() / 2..devices.len()).contains(&can_suspend), "{can_suspend}");
        let only_clear = devices.iter().filter(|device| device.chip.only_clears()).count();
        assert!((devices.len() / 4..can_suspend).contains(&only_clear), "{only_clear}");
        let wide: Vec<_> = plans.iter().filter(|plan| plan.devices.len() > 2).collect();
        let with_all = wide.iter().filter(|plan| mark_count(plan) == 3).count();
        assert!(!wide.is_empty() && 2 * with_all >= wide.len(), "{with_all} of {}", wide.len());
    }
}

/// The bytes of a random plan.
type Draw = fn(&mut Random) -> Vec<u8>;

const MIXES: [(&str, Draw); 8] = [
    ("any", any),
    ("valid", |random| encode(&valid(random))),
    ("small", |random| encode(&small(random))),
    ("crowded", |random| encode(&crowded(random))),
    ("full", |random| encode(&full(random))),
    ("loose", |random| encode(&loose(random))),
    ("bench", |random| encode(&bench_plan(random))),
    ("busy", |random| encode(&busy_plan(random))),
];

/// In every mix a third or more of the plans that are accepted have a burst that is no power of two, and a
/// third or more such a unit; on a tenth or more every burst is a power of two, and bursts of 1 occur.
#[test]
fn sizes_of_both_kinds_are_drawn_often() {
    let mut random = Random::new(8);
    for (name, draw) in MIXES {
        let accepted = std::iter::repeat_with(|| load(&draw(&mut random)).ok()).flatten();
        let plans: Vec<_> = accepted.take(1_000).collect();
        let count = |holds: Shows| plans.iter().filter(|plan| holds(plan)).count();
        let bursts = count(some_burst_is_no_power_of_two);
        let units = count(some_unit_is_no_power_of_two);
        let (powers, ones) = (plans.len() - bursts, count(some_burst_is_1));
        let counts = format!("{name}: {bursts}, {units}, {powers}, {ones} of {}", plans.len());
        println!("bursts and units that are no powers, power bursts, bursts of 1, {counts}");
        assert!(3 * bursts.min(units) >= plans.len(), "{counts}");
        assert!(10 * powers >= plans.len() && ones >= 100, "{counts}");
    }
}

/// In every mix a tenth or more of the plans that are accepted have no wear record, a tenth or more one of
/// every sub-area, and a quarter or more of some.
#[test]
fn wear_records_are_drawn_often() {
    let mut random = Random::new(9);
    for (name, draw) in MIXES {
        let accepted = std::iter::repeat_with(|| load(&draw(&mut random)).ok()).flatten();
        let plans: Vec<_> = accepted.take(1_000).collect();
        let none = plans.iter().filter(|plan| plan.wear_records.is_empty()).count();
        let all = plans.iter().filter(|plan| every_sub_area_has_a_wear_record(plan)).count();
        let some = plans.len() - none - all;
        println!("{name}: of no sub-area {none}, of some {some}, of all {all}");
        assert!(none >= 100 && some >= 250 && all >= 100, "{name}: {none} {some} {all}");
    }
}

#[test]
fn valid_plans_reach_the_extremes() {
    let mut random = Random::new(2);
    let plans: Vec<_> = (0..10_000).map(|_| valid(&mut random)).collect();
    for (name, shows) in EXTREMES {
        let count = plans.iter().filter(|plan| shows(plan)).count();
        assert!(count >= 100, "{name}: only {count} of {}", plans.len());
    }
}

#[test]
fn every_number_comes_up_often() {
    let mut random = Random::new(3);
    let mut histogram = Histogram::default();
    for _ in 0..120_000 {
        histogram.add(number(&any(&mut random)));
    }
    println!("{histogram}");
    for number in (0..=8).chain([20]) {
        let count = histogram.count(number);
        assert!(count >= 4_000, "number {number}: only {count}");
    }
}

/// No byte of a plan goes unread: whole records are all there is to the bytes.
#[test]
fn whole_records_encode_to_the_same_bytes() {
    let mut random = Random::new(4);
    for _ in 0..20_000 {
        let bytes = any(&mut random);
        if let Some(plan) = whole_records(&bytes) {
            assert_eq!(encode(&plan), bytes);
        }
    }
}

/// Question 4 decided another way: each window takes its bytes from the job store, one by one.
fn windows_apart_by_bytes(plan: &Plan) -> bool {
    let mut taken = vec![false; 65_536];
    plan.areas.iter().all(|area| area.window_start <= 65_536 && take_all(area.window(), &mut taken))
}

/// Question 8 decided another way: each sub-area takes its bytes from the image, one by one.
fn sub_areas_apart_by_bytes(plan: &Plan, image_length: usize) -> bool {
    let mut taken = vec![false; image_length];
    plan.sub_areas.iter().all(|sub_area| take_all(sub_area.bytes(), &mut taken))
}

/// Takes the bytes, if each is there and free.
fn take_all(mut span: std::ops::Range<u64>, taken: &mut [bool]) -> bool {
    span.all(|byte| {
        let slot = usize::try_from(byte).ok().and_then(|index| taken.get_mut(index));
        slot.is_some_and(|slot| !std::mem::replace(slot, true))
    })
}

/// Question 20 decided another way: each record takes the sub-area that it names from a list of those
/// without record.
fn wear_recorded_by_taking(plan: &Plan) -> bool {
    let mut without: BTreeSet<_> = (0..plan.sub_areas.len()).collect();
    let mut records = plan.wear_records.iter();
    records.all(|record| without.remove(&record.sub_area.into()) && record.endurance > 0)
}

#[test]
fn wear_recorded_agrees_with_taking_sub_areas() {
    let mut random = Random::new(10);
    let mut answers = [0; 2];
    for _ in 0..40_000 {
        let plan = match random.below(4) {
            0 => encode(&loose(&mut random)),
            1 => {
                let plan = small(&mut random);
                wounded_wear(&mut random, &plan)
            }
            _ => any(&mut random),
        };
        let Some(plan) = whole_records(&plan).filter(|plan| !plan.wear_records.is_empty()) else {
            continue;
        };
        let answer = wear_recorded_by_taking(&plan);
        assert_eq!(wear_recorded(&plan), answer, "{plan:?}");
        answers[usize::from(answer)] += 1;
    }
    assert!(answers.iter().all(|count| *count >= 1_000), "{answers:?}");
}

#[test]
fn windows_apart_agrees_with_marking_bytes() {
    let mut random = Random::new(5);
    let mut answers = [0; 2];
    for _ in 0..20_000 {
        let Some(plan) = whole_records(&any(&mut random)) else {
            continue;
        };
        let answer = windows_apart_by_bytes(&plan);
        assert_eq!(windows_apart(&plan), answer, "{plan:?}");
        answers[usize::from(answer)] += 1;
    }
    assert!(answers.iter().all(|count| *count >= 1_000), "{answers:?}");
}

#[test]
fn sub_areas_apart_agrees_with_marking_bytes() {
    let mut random = Random::new(6);
    let mut answers = [0; 2];
    for _ in 0..40_000 {
        let plan = if random.one_in(4) { valid(&mut random) } else { loose(&mut random) };
        let reaches_question_8 = matches!(number(&encode(&plan)), 0 | 8 | 20);
        if !reaches_question_8 || plan.device_sum() > 65_536 {
            continue;
        }
        let answer = sub_areas_apart_by_bytes(&plan, 65_536);
        assert_eq!(sub_areas_apart(&plan), answer, "{plan:?}");
        answers[usize::from(answer)] += 1;
    }
    assert!(answers.iter().all(|count| *count >= 1_000), "{answers:?}");
}
