//! Req 05 of document 02, "Wear account": sessions worked out by hand from the paper. Plan T with wear record
//! 0: 7 has 2 sectors in sub-area 0, a total endurance of 14 there, and no record of sub-area 1.

mod bench;

use bench::{Bench, PLAN_E};
use model::calls::{Call, Query};
use model::jobs::{Answer, Operation, Target};
use model::manager::{Manager, WearInfo};
use model::plan::{load, Chip, Plan};
use model::plans::{encode, plan_e, plan_f, plan_t, with_chips, with_wear};
use model::session::run_session;
use model::wait_book::{Erased, WaitBook};

impl Bench {
    /// Sum and charge.
    fn wear(&self, area: u32, address: u32) -> (u32, u64) {
        let info = self.0.manager.wear_info(area, address).expect("inside a known area");
        (info.sum, info.charge)
    }
}

fn worn_t() -> Plan {
    with_wear(plan_t(), &[(0, 7)])
}

/// Plan E of patience 3 with a total endurance of 2 in the sub-area of area 0.
fn worn_e() -> Plan {
    with_wear(plan_e(3), &[(0, 2)])
}

#[test]
fn a_wear_record_to_the_byte() {
    let record = [0x57, 0x52, 1, 0x78, 0x56, 0x34, 0x12];
    let plan = with_wear(plan_e(3), &[(1, 0x12345678)]);
    let bytes = [&PLAN_E[..], &record].concat();
    assert_eq!(encode(&plan), bytes);
    assert_eq!(load(&bytes), Ok(plan));
}

#[test]
fn endurance_is_that_of_the_record() {
    let plan = with_wear(plan_e(3), &[(2, 9), (0, 4_294_967_295)]);
    let plan = load(&encode(&plan)).expect("an accepted plan");
    assert_eq!([0, 1, 2, 3].map(|n| plan.endurance(n)), [Some(4_294_967_295), None, Some(9), None]);
}

/// A wear record changes no line that the bench prints but for the number of a plan that 20 refuses, and there
/// is no line that asks for wear.
#[test]
fn the_bench_prints_no_wear() {
    let lines = b"4 0 0 32\n0 d\n0 d\n10 0\n11 0 0\n11 0\n";
    let printed = run_session(Some(&encode(&plan_t())), lines);
    assert_eq!(printed, b"0\nR 0:4:0:32\nR -\n0 32 1 0 0 0\n?\n?\n");
    assert_eq!(run_session(Some(&encode(&worn_t())), lines), printed);
    let refused = with_wear(plan_t(), &[(2, 5)]);
    assert_eq!(run_session(Some(&encode(&refused)), lines), b"20\n");
}

/// One after the other: an erase that fails behind 5 bytes, one sector of a cancelled job (1 of 14), a burst
/// of two sectors (3 of 14), and a sector of the sub-area without record.
#[test]
fn done_erases_add_their_sectors() {
    let mut bench = Bench::on(&worn_t());
    assert_eq!(bench.wear(0, 0), (0, 0));
    bench.run(&[("4 0 0 32", "0"), ("0 p", "R 0:4:0:32"), ("0 5", "R -")]);
    assert_eq!(bench.wear(0, 0), (0, 0));
    bench.run(&[("4 0 16 16", "0"), ("0 p", "R 0:4:16:16"), ("9 0", "0"), ("0 d", "R -")]);
    assert_eq!(bench.wear(0, 31), (1, 71_429));
    bench.run(&[("4 0 0 32", "0"), ("0 p", "R 0:4:0:32"), ("0 d", "R -")]);
    assert_eq!(bench.wear(0, 0), (3, 214_286));
    bench.run(&[("4 1 256 16", "0"), ("0 p", "R 1:4:32:16"), ("0 d", "R -")]);
    assert_eq!(bench.wear(1, 256), (1, 0));
    assert_eq!(bench.wear(0, 0), (3, 214_286));
}

/// The same in the wait book, alone. It has no limit: near that of the manager's sums it goes on.
#[test]
fn the_wait_book_keeps_every_done_erase() {
    let (image, store) = ([255; 64], [0; 32]);
    let erase = |book: WaitBook, area: u32, address: u32, length: u32| {
        let (book, number) = book.job(Operation::Erase, Target { area, address, length });
        assert_eq!(number, 0);
        book.round([Answer::Pending; 4], &image, &store).0
    };
    let end = |book: WaitBook, answer: Answer| book.round([answer; 4], &image, &store).0;
    let book = end(erase(WaitBook::of(&worn_t()), 0, 0, 32), Answer::Failed(5));
    assert_eq!(book.wear(), [0, 0]);
    let book = end(erase(book, 0, 16, 16).cancel(0).0, Answer::Done);
    assert_eq!(book.wear(), [1, 0]);
    let book = end(erase(book, 0, 0, 32), Answer::Done);
    assert_eq!(book.wear(), [3, 0]);
    let book = end(erase(book, 1, 256, 16), Answer::Done);
    assert_eq!(book.wear(), [3, 1]);
    let near_limit = Erased { sub_area: 0, sectors: 4_294_967_292 };
    let book = end(erase(book.with_erased(near_limit), 0, 0, 32), Answer::Done);
    assert_eq!(book.wear(), [4_294_967_297, 1]);
}

/// "A query, addressed and refused like memory info".
#[test]
fn refusals_are_those_of_memory_info() {
    let manager = Manager::load(&encode(&worn_t())).expect("an accepted plan");
    for (area, address, number) in [(1, 0, 12), (1, 255, 12), (1, 288, 12), (0, 32, 12), (2, 0, 10)]
    {
        assert_eq!(manager.wear_info(area, address), Err(number));
        assert_eq!(manager.memory_info(area, address), Err(number));
        let call = Call::Query(Query::WearInfo(address), area);
        assert_eq!(call.make(&mut manager.clone(), &mut [], &mut []), number);
    }
    assert_eq!(manager.wear_info(1, 287), Ok(WearInfo::default()));
    assert_eq!(Manager::default().wear_info(0, 0), Err(9));
    assert_eq!(Manager::default().wear_info(9, 0), Err(9));
}

#[test]
fn other_jobs_add_nothing() {
    let mut bench = Bench::on(&worn_t());
    for job in ["1 0 0 16", "2 0 0 16", "3 0 0 16", "6 0 0 32", "7 0 0 32"] {
        assert_eq!(bench.0.answer(job.as_bytes()), "0");
        for _ in 0..8 {
            assert!(bench.0.answer(b"0 d").starts_with('R'));
        }
    }
    bench.run(&[("8 0 0 1", "0"), ("10 0", "0 0 0 0 0 0")]);
    assert_eq!(bench.wear(0, 0), (0, 0));
}

/// Before its end an erase adds nothing, a dropped one nothing at all, and one that is tried again adds its
/// sectors once, when it is done.
#[test]
fn an_erase_adds_when_it_is_done() {
    let mut plan = worn_t();
    plan.sub_areas[0].erase_retries = 2;
    let mut bench = Bench::on(&plan);
    bench.run(&[("4 0 0 32", "0"), ("0 p", "R 0:4:0:32"), ("0 p", "R 0:4:0:32")]);
    assert_eq!(bench.wear(0, 0), (0, 0));
    bench.run(&[("0 p", "R 0:4:0:32"), ("0 32", "R 0:4:0:32")]);
    assert_eq!(bench.wear(0, 0), (0, 0));
    bench.run(&[("0 d", "R -"), ("10 0", "0 32 4 0 0 0")]);
    assert_eq!(bench.wear(0, 0), (2, 142_858));
    // A poll and a drop, three times.
    bench.run(&[("4 0 0 32", "0"), ("0 p", "R 0:4:0:32"), ("0 p", "R 0:4:0:32")]);
    bench.run(&[("0 p", "R 0:4:0:32"), ("0 p", "R 0:4:0:32"), ("0 p", "R 0:4:0:32")]);
    bench.run(&[("0 p", "R 0:4:0:32"), ("0 p", "R -"), ("10 0", "1 0 6 0 0 0")]);
    assert_eq!(bench.wear(0, 0), (2, 142_858));
}

/// The first piece of a job that is cancelled, or that fails then, stays in the sum.
#[test]
fn pieces_of_jobs_without_success_count() {
    let mut plan = with_wear(plan_t(), &[(1, 10)]);
    plan.sub_areas[1].erase_retries = 0;
    let mut bench = Bench::on(&plan);
    bench.run(&[("4 1 256 32", "0"), ("0 p", "R 1:4:32:16"), ("0 d", "R 1:4:48:16")]);
    assert_eq!(bench.wear(1, 256), (1, 50_000));
    bench.run(&[("0 16", "R -"), ("10 1", "1 16 2 0 0 0")]);
    assert_eq!(bench.wear(1, 256), (1, 50_000));
    bench.run(&[("4 1 256 32", "0"), ("0 p", "R 1:4:32:16"), ("0 d", "R 1:4:48:16")]);
    bench.run(&[("9 1", "0"), ("0 p", "R 1:4:48:16"), ("0 p", "R -"), ("10 1", "3 16 3 0 0 0")]);
    assert_eq!(bench.wear(1, 256), (2, 100_000));
}

/// The session on chips that can suspend, with either mark.
fn check_suspended(session: &[(&str, &str)], wear: (u32, u64)) {
    for chip in [Chip::Suspending, Chip::Clearing] {
        let mut bench = Bench::on(&with_chips(worn_e(), chip));
        bench.run(session);
        assert_eq!(bench.wear(0, 0), wear, "{chip:?}");
        assert_eq!(bench.wear(1, 256), (0, 0), "{chip:?}");
    }
}

/// It is suspended twice, and its done request adds its sector once.
#[test]
fn a_suspended_erase_adds_once_it_is_done() {
    let suspended = [
        ("4 0 0 16", "0"),
        ("0 p", "R 0:4:0:16"),
        ("2 1 256 4", "0"),
        ("0 p", "R 1:2:16:4"),
        ("0 d", "R 0:4:0:16"),
        ("2 1 256 4", "0"),
        ("0 p", "R 1:2:16:4"),
        ("0 d", "R 0:4:0:16"),
    ];
    check_suspended(&suspended, (0, 0));
    check_suspended(&[&suspended[..], &[("0 d", "R -")]].concat(), (1, 500_000));
    check_suspended(&[&suspended[..], &[("0 16", "R -")]].concat(), (0, 0));
    check_suspended(&[&suspended[..], &[("0 p", "R -")]].concat(), (0, 0));
}

/// "a cancelled parked erase ends when its resumed request ends", and counts if that is done.
#[test]
fn a_suspended_erase_of_a_cancelled_job_counts() {
    let session = [
        ("4 0 0 16", "0"),
        ("0 p", "R 0:4:0:16"),
        ("2 1 256 4", "0"),
        ("0 p", "R 1:2:16:4"),
        ("9 0", "0"),
        ("0 d", "R 0:4:0:16"),
        ("0 d", "R -"),
        ("10 0", "3 16 2 1 0 0"),
    ];
    check_suspended(&session, (1, 500_000));
}

/// What runs over a suspended erase is answered done, the erase is not.
#[test]
fn the_piece_over_a_suspended_erase_adds_nothing() {
    let session = [
        ("4 0 0 16", "0"),
        ("0 p", "R 0:4:0:16"),
        ("1 2 512 8", "0"),
        ("0 p", "R 2:1:32:4"),
        ("0 d", "R 2:1:36:4"),
        ("0 d", "R 0:4:0:16"),
    ];
    check_suspended(&session, (0, 0));
}

/// An erase from one sub-area into the next adds to each what lies in it. Plan T in one area: sub-area 0 is
/// erased by a burst, sub-area 1, with the same device and area, sector by sector.
#[test]
fn every_sub_area_has_its_own_sum() {
    let mut plan = with_wear(plan_t(), &[(1, 3), (0, 1)]);
    plan.areas.pop();
    plan.sub_areas[1].area = 0;
    let mut bench = Bench::on(&plan);
    bench.run(&[("4 0 0 64", "0"), ("0 p", "R 0:4:0:32"), ("0 d", "R 0:4:32:16")]);
    assert_eq!([0, 31, 32, 63].map(|n| bench.wear(0, n).0), [2, 2, 0, 0]);
    bench.run(&[("0 d", "R 0:4:48:16"), ("0 d", "R -")]);
    assert_eq!((bench.wear(0, 31), bench.wear(0, 32)), ((2, 1_000_000), (2, 333_334)));
}

/// 1 of 2 is exact, 2 of 2 is the whole endurance, and with 3 of 2 it is behind that.
#[test]
fn charges_of_endurance_1() {
    let mut bench = Bench::on(&with_wear(plan_t(), &[(1, 1)]));
    for (sum, charge) in [(1, 500_000), (2, 1_000_000), (3, 1_500_000)] {
        bench.run(&[("4 1 256 16", "0"), ("0 p", "R 1:4:32:16"), ("0 d", "R -")]);
        assert_eq!(bench.wear(1, 256), (sum, charge));
    }
}

/// Each sum of sub-area 0 of plan T with the charge that it has by hand, in millionths of twice the
/// endurance.
#[test]
fn charges_are_rounded_up() {
    let most = 4_294_967_295;
    let cases = [
        (7, 14, 1_000_000),
        (7, 15, 1_071_429),
        (7, 13, 928_572),
        (7, most, 306_783_378_214_286),
        (1, most, 2_147_483_647_500_000),
        (500_000, 1, 1),
        (500_000, 1_000_000, 1_000_000),
        (500_001, 1, 1),
        (500_001, 1_000_001, 1_000_000),
        (500_001, 1_000_002, 1_000_000),
        (500_001, 1_000_003, 1_000_001),
        (most, 0, 0),
        (most, 1, 1),
        (most, 8_589, 1),
        (most, 8_590, 2),
        (most, most, 500_000),
    ];
    for (endurance, sum, charge) in cases {
        let plan = with_wear(plan_t(), &[(0, endurance)]);
        let mut manager = Manager::load(&encode(&plan)).expect("an accepted plan");
        manager.set_wear(0, sum);
        assert_eq!(manager.wear_info(0, 31), Ok(WearInfo { sum, charge }), "{endurance}, {sum}");
    }
}

/// The sum comes to its limit exactly, or would go beyond it, and stays.
#[test]
fn sums_stick_near_the_limit() {
    let limit = 4_294_967_295;
    for (sum, next) in
        [(limit - 3, limit - 1), (limit - 2, limit), (limit - 1, limit), (limit, limit)]
    {
        let mut bench = Bench::on(&worn_t());
        bench.0.manager.set_wear(0, sum);
        bench.run(&[("4 0 0 32", "0"), ("0 p", "R 0:4:0:32"), ("0 d", "R -")]);
        assert_eq!(bench.wear(0, 0).0, next);
        assert_eq!(bench.wear(1, 256), (0, 0));
    }
}

/// One sub-area of 16,777,216 sectors, the most that there can be, which a burst erases: 256 of them come to
/// 2^32, one more than the limit.
#[test]
fn sums_stick_after_many_erases() {
    let mut plan = with_wear(plan_t(), &[(0, 1)]);
    plan.devices[0].length = 16_777_216;
    plan.areas.pop();
    plan.sub_areas.pop();
    let sub_area = &mut plan.sub_areas[0];
    (sub_area.sector, sub_area.sector_burst, sub_area.sector_count) = (1, 16_777_216, 16_777_216);
    (sub_area.page, sub_area.page_burst) = (1, 1);
    let mut manager = Manager::load(&encode(&plan)).expect("an accepted plan");
    let (mut image, mut store) = (vec![255; 16_777_216], vec![0; 16]);
    let mut sums = Vec::new();
    for _ in 0..258 {
        assert_eq!(manager.job(Operation::Erase, 0, 0, 16_777_216), 0);
        for _ in 0..2 {
            assert_eq!(manager.round([Answer::Done; 4], &mut image, &mut store), 0);
        }
        sums.push(manager.wear_info(0, 0).expect("inside area 0"));
    }
    let stuck = WearInfo { sum: 4_294_967_295, charge: 256_000_000 };
    assert_eq!(sums[0], WearInfo { sum: 16_777_216, charge: 1_000_000 });
    assert_eq!(sums[254], WearInfo { sum: 4_278_190_080, charge: 255_000_000 });
    assert_eq!(sums[255..], [stuck; 3]);
}

/// Sums stand over jobs, locks and refused calls, and a load begins with none.
#[test]
fn sums_stand() {
    let mut bench = Bench::on(&with_wear(plan_f(3), &[(2, 3)]));
    bench.run(&[("4 2 512 32", "0"), ("0 d", "R 2:4:32:16"), ("0 d", "R 2:4:48:16")]);
    bench.run(&[("0 d", "R -"), ("4 2 512 8", "13"), ("4 2 512 48", "12"), ("9 2", "17")]);
    bench.run(&[("7 2 512 1", "0"), ("0 d", "R L"), ("8 2 512 1", "0"), ("1 2 512 4", "0")]);
    assert_eq!(bench.wear(2, 543), (2, 333_334));
    assert_eq!([bench.wear(0, 0), bench.wear(1, 256)], [(0, 0); 2]);
    assert_eq!(Bench::on(bench.0.manager.plan()).wear(2, 543), (0, 0));
}
