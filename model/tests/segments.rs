//! The mapping, the pieces and questions 12 to 15 decided another way: byte by byte; pieces of bursts that
//! are powers of two or not, written by hand; and the loops over burst tests and pieces.

use model::admission::{self, Standing};
use model::jobs::{JobType, Operation, Target};
use model::loops::{burst_tests, cuts, placed_cuts, Request};
use model::plan::{load, Plan, SubArea};
use model::plans::{encode, largest, plan_t, plan_w, small, with_sizes};
use model::random::Random;
use model::segments::{pieces, Piece};
use std::ops::Range;

/// A byte of an area: its physical address and its sub-area.
#[derive(Clone, Copy)]
struct Byte {
    physical: u64,
    sub_area: usize,
}

/// The bytes of an area's logical space, in order.
fn area_bytes(plan: &Plan, area: usize) -> Vec<Byte> {
    let own = plan.sub_areas.iter().enumerate().filter(|(_, s)| usize::from(s.area) == area);
    own.flat_map(|(sub_area, s)| s.bytes().map(move |physical| Byte { physical, sub_area }))
        .collect()
}

/// How many of the first bytes lie in the sub-area of the first one.
fn bytes_here(bytes: &[Byte]) -> usize {
    bytes.iter().take_while(|byte| byte.sub_area == bytes[0].sub_area).count()
}

/// Cuts the bytes of a job.
fn cut(plan: &Plan, operation: Operation, mut bytes: &[Byte]) -> Vec<Piece> {
    let size = |number: u32| usize::try_from(number).expect("small sizes");
    let mut pieces = Vec::new();
    while let Some(first) = bytes.first() {
        let s = &plan.sub_areas[first.sub_area];
        let here = bytes_here(bytes);
        let burst = |burst: u32, unit: u32| {
            let is_start = first.physical % u64::from(burst) == 0;
            size(if is_start && size(burst) <= here { burst } else { unit })
        };
        let length = match operation {
            Operation::Erase => burst(s.sector_burst, s.sector),
            Operation::Write => burst(s.page_burst, s.page),
            _ => here.min(size(s.largest_read)),
        };
        pieces.push(Piece {
            device: usize::from(s.device),
            start: first.physical,
            length: u64::try_from(length).expect("small sizes"),
            retries: match operation {
                Operation::Write => s.write_retries,
                Operation::Erase => s.erase_retries,
                _ => 0,
            },
        });
        bytes = &bytes[length..];
    }
    pieces
}

/// Every area idle, no device locked.
struct AllIdle;

impl Standing for AllIdle {
    fn is_pending(&self, _area: usize) -> bool {
        false
    }

    fn lock_holder(&self, _device: usize) -> Option<usize> {
        None
    }
}

/// The bytes of a range, if all of them are in the area.
fn range_bytes<'a>(plan: &Plan, area: &'a [Byte], target: Target) -> Option<&'a [Byte]> {
    let record = plan.areas[usize::try_from(target.area).expect("a known area")];
    let start = usize::try_from(target.address.checked_sub(record.logical_start)?).ok()?;
    let end = start.checked_add(usize::try_from(target.length).ok()?)?;
    area.get(start..end).filter(|bytes| !bytes.is_empty())
}

fn unit(operation: Operation, sub_area: &SubArea) -> u64 {
    u64::from(match operation {
        Operation::Erase => sub_area.sector,
        Operation::Write => sub_area.page,
        Operation::Read | Operation::Compare | Operation::BlankCheck => sub_area.smallest_read,
    })
}

/// Sub-areas start at multiples of their sectors, so the offset is as even as the physical address.
fn job_number(plan: &Plan, bytes: Option<&[Byte]>, operation: Operation, window: u32) -> u8 {
    let Some(bytes) = bytes else {
        return 12;
    };
    let (first, last) = (bytes[0], bytes[bytes.len() - 1]);
    let unit_of = |byte: Byte| unit(operation, &plan.sub_areas[byte.sub_area]);
    if first.physical % unit_of(first) != 0 || (last.physical + 1) % unit_of(last) != 0 {
        return 13;
    }
    let uses_window = [1, 2, 3].contains(&operation.number());
    if uses_window && u64::try_from(bytes.len()).expect("short") > u64::from(window) {
        return 14;
    }
    0
}

fn lock_number(plan: &Plan, bytes: Option<&[Byte]>) -> u8 {
    let device = |byte: &Byte| plan.sub_areas[byte.sub_area].device;
    match bytes {
        None => 12,
        Some(bytes) if bytes.iter().any(|byte| device(byte) != device(&bytes[0])) => 15,
        Some(_) => 0,
    }
}

/// Every range from two bytes before the area to two behind it, as far as addresses go.
fn targets(plan: &Plan, area: usize) -> Vec<Target> {
    let start = plan.areas[area].logical_start;
    let size = u32::try_from(plan.area_size(area)).expect("a small area");
    let addresses = start.saturating_sub(2)..=(start + size).saturating_add(2);
    let area = u32::try_from(area).expect("a known area");
    let lengths = || (0..=size + 3).chain([u32::MAX - 1, u32::MAX]);
    let ranges = addresses.flat_map(|address| lengths().map(move |length| (address, length)));
    ranges.map(|(address, length)| Target { area, address, length }).collect()
}

/// Checks all jobs and the lock of a range, and counts the numbers they give.
fn check(plan: &Plan, area: &[Byte], target: Target, counts: &mut [u32; 16]) {
    let bytes = range_bytes(plan, area, target);
    let number = usize::try_from(target.area).expect("a known area");
    for operation in Operation::ALL {
        let owed = job_number(plan, bytes, operation, plan.areas[number].window_length);
        let given = admission::job(plan, &AllIdle, operation, target).err().unwrap_or(0);
        assert_eq!(given, owed, "{operation:?} {target:?} {plan:?}");
        counts[usize::from(given)] += 1;
        if let (0, Some(bytes)) = (given, bytes) {
            let range: Range<u64> = target.addresses();
            let given: Vec<_> = pieces(plan, operation, number, range).collect();
            assert_eq!(given, cut(plan, operation, bytes), "{operation:?} {target:?} {plan:?}");
        }
    }
    let owed = lock_number(plan, bytes);
    let given = admission::lock(plan, &AllIdle, target).err().unwrap_or(0);
    assert_eq!(given, owed, "lock {target:?} {plan:?}");
    counts[usize::from(given)] += 1;
}

#[test]
fn every_range_of_small_plans() {
    let mut random = Random::new(41);
    let mut plans = vec![plan_t(), plan_w()];
    plans.extend((0..150).map(|_| small(&mut random)));
    let mut counts = [0; 16];
    for plan in &plans {
        for area in 0..plan.areas.len() {
            let bytes = area_bytes(plan, area);
            for target in targets(plan, area) {
                check(plan, &bytes, target, &mut counts);
            }
        }
    }
    println!("numbers 0 to 15: {counts:?}");
    for number in [0, 12, 13, 14, 15] {
        assert!(counts[number] >= 10_000, "number {number}: only {}", counts[number]);
    }
}

/// A range of area 0 on plan W, and its pieces as length and physical address. Logical 0 is physical 12.
type Case = (Range<u64>, &'static [(u64, u64)]);

/// Checks cases on plan W, whose sub-area is changed so.
fn check_pieces(operation: Operation, change: impl Fn(&mut SubArea), cases: &[Case]) {
    let mut plan = plan_w();
    change(&mut plan.sub_areas[0]);
    assert_eq!(load(&encode(&plan)).as_ref(), Ok(&plan));
    for (range, owed) in cases {
        let pieces = pieces(&plan, operation, 0, range.clone());
        let given: Vec<_> = pieces.map(|piece| (piece.length, piece.start)).collect();
        assert_eq!(given, *owed, "{operation:?} {range:?} {plan:?}");
    }
}

/// Page bursts 12, 24, 2 and 1. With burst 12 at 16, and with burst 24 at 32, `address & (burst - 1)` is 0
/// though the address is no multiple; at 12 and 24, and with burst 24 at 24, it is not 0 though it is one.
#[test]
fn writes_with_bursts_of_any_size() {
    let cases: [Case; 7] = [
        (0..12, &[(12, 12)]),
        (0..8, &[(4, 12), (4, 16)]),
        (4..16, &[(4, 16), (4, 20), (4, 24)]),
        (4..24, &[(4, 16), (4, 20), (12, 24)]),
        (12..36, &[(12, 24), (12, 36)]),
        (32..48, &[(4, 44), (12, 48)]),
        (0..48, &[(12, 12), (12, 24), (12, 36), (12, 48)]),
    ];
    check_pieces(Operation::Write, |_| {}, &cases);
    let cases: [Case; 4] = [
        (12..36, &[(24, 24)]),
        (12..32, &[(4, 24), (4, 28), (4, 32), (4, 36), (4, 40)]),
        (8..36, &[(4, 20), (24, 24)]),
        (20..48, &[(4, 32), (4, 36), (4, 40), (4, 44), (4, 48), (4, 52), (4, 56)]),
    ];
    check_pieces(Operation::Write, |s| s.page_burst = 24, &cases);
    let cases: [Case; 4] = [
        (3..7, &[(1, 15), (2, 16), (1, 18)]),
        (4..8, &[(2, 16), (2, 18)]),
        (3..4, &[(1, 15)]),
        (4..5, &[(1, 16)]),
    ];
    check_pieces(Operation::Write, |s| (s.page, s.page_burst) = (1, 2), &cases);
    let cases: [Case; 2] = [(3..6, &[(1, 15), (1, 16), (1, 17)]), (4..5, &[(1, 16)])];
    check_pieces(Operation::Write, |s| (s.page, s.page_burst) = (1, 1), &cases);
}

/// Sector bursts 24, 12, 2 and 1.
#[test]
fn erases_with_bursts_of_any_size() {
    let cases: [Case; 6] = [
        (0..48, &[(12, 12), (24, 24), (12, 48)]),
        (12..36, &[(24, 24)]),
        (12..24, &[(12, 24)]),
        (0..24, &[(12, 12), (12, 24)]),
        (24..48, &[(12, 36), (12, 48)]),
        (36..48, &[(12, 48)]),
    ];
    check_pieces(Operation::Erase, |_| {}, &cases);
    let with_sectors = |sector: u32, burst: u32| {
        move |s: &mut SubArea| {
            (s.sector, s.sector_burst, s.sector_count) = (sector, burst, 48 / sector);
            (s.page, s.smallest_read) = (1, 1);
        }
    };
    let cases: [Case; 3] = [
        (4..16, &[(4, 16), (4, 20), (4, 24)]),
        (4..28, &[(4, 16), (4, 20), (12, 24), (4, 36)]),
        (0..24, &[(12, 12), (12, 24)]),
    ];
    check_pieces(Operation::Erase, with_sectors(4, 12), &cases);
    let cases: [Case; 2] = [(1..5, &[(1, 13), (2, 14), (1, 16)]), (2..6, &[(2, 14), (2, 16)])];
    check_pieces(Operation::Erase, with_sectors(1, 2), &cases);
    let cases: [Case; 1] = [(1..4, &[(1, 13), (1, 14), (1, 15)])];
    check_pieces(Operation::Erase, with_sectors(1, 1), &cases);
}

#[test]
fn burst_tests_of_lists() {
    let multiples =
        [(1, 0), (1, 7), (2, 6), (12, 24), (24, 48), (12, 0), (0, 0), (u64::MAX, u64::MAX)];
    let others = [(2, 7), (12, 16), (24, 12), (24, 32), (0, 1), (u64::MAX, 1), (1 << 63, 1 << 62)];
    let (sizes, addresses): (Vec<_>, Vec<_>) = multiples.into_iter().chain(others).unzip();
    assert_eq!(burst_tests(&sizes, &addresses), 8);
    assert_eq!(burst_tests(&sizes[..9], &addresses[..3]), 3);
    assert_eq!(burst_tests(&sizes[8..], &addresses[8..]), 0);
    assert_eq!(burst_tests(&[], &addresses), 0);
}

/// On plan W, by hand: a write of 20 bytes is cut into 12, 4 and 4, one of 18 too, since a piece is a page
/// at least; behind the 48 bytes of the area there is no piece.
#[test]
fn cuts_one_after_the_other() {
    let sum = |operation: Operation, length: u32, times: u32| {
        cuts(&plan_w(), Request { job_type: JobType::Operation(operation), length }, times)
    };
    assert_eq!(sum(Operation::Write, 20, 4), [12, 16, 0, 12].iter().sum());
    assert_eq!(sum(Operation::Write, 18, 4), [12, 16, 0, 12].iter().sum());
    assert_eq!(sum(Operation::Erase, 48, 4), [12, 36, 0, 12].iter().sum());
    assert_eq!(sum(Operation::Read, 14, 4), [6, 12, 0, 6].iter().sum());
    assert_eq!(sum(Operation::Erase, 60, 5), [12, 36, 48, 48, 48].iter().sum());
    assert_eq!(sum(Operation::Erase, 0, 5), 0);
    let lock = Request { job_type: JobType::LockRequest, length: 20 };
    assert_eq!(cuts(&plan_w(), lock, 5), 0);
    let write = Request { job_type: JobType::Operation(Operation::Write), length: 20 };
    assert_eq!(cuts(&Plan::default(), write, 5), 0);
}

/// The same write: plan W has one sub-area, so that the next piece is cut 32 turns later. With two of them
/// the pieces are cut in turn, and behind the 48 bytes of a sub-area there is none.
#[test]
fn cuts_at_known_places() {
    let request = |length| Request { job_type: JobType::Operation(Operation::Write), length };
    assert_eq!(placed_cuts(&plan_w(), request(20), 32), 32 * 12);
    assert_eq!(placed_cuts(&plan_w(), request(20), 33), 32 * 12 + 16);
    let mut plan = plan_w();
    plan.sub_areas.push(plan.sub_areas[0]);
    assert_eq!(placed_cuts(&plan, request(20), 3), [12, 16, 16].iter().sum());
    plan.sub_areas = plan_w().sub_areas.repeat(32);
    assert_eq!(placed_cuts(&plan, request(20), 4), [12, 16, 0, 12].iter().sum());
    assert_eq!(placed_cuts(&plan, request(60), 6), [12, 24, 36, 48, 48, 48].iter().sum());
    assert_eq!(placed_cuts(&Plan::default(), request(20), 5), 0);
}

/// What the benchmarks rest on: the plan with most records is accepted with plan W's sizes too, and of
/// both every piece of a write over area 0 is a burst.
#[test]
fn pieces_that_are_timed_are_bursts() {
    for plan in [largest(), with_sizes(largest(), &plan_w().sub_areas[0])] {
        assert_eq!(load(&encode(&plan)).as_ref(), Ok(&plan));
        let burst = u64::from(plan.sub_areas[0].page_burst);
        let size = u64::try_from(plan.area_size(0)).expect("a small area");
        let lengths: Vec<_> =
            pieces(&plan, Operation::Write, 0, 0..size).map(|p| p.length).collect();
        assert!(lengths.len() >= 8 && lengths.iter().all(|length| *length == burst), "{lengths:?}");
    }
}
