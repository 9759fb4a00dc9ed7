//! Named cases of the rules that are easy to get wrong, worked out by hand from document 01 and Req
//! 01 of document 02. Most are written as sessions of the bench, with a look at image and store.

use model::jobs::{Answer, Operation, Target};
use model::manager::{DeviceState, JobInfo, Manager, MemoryInfo, RequestInfo, Wait, Waits};
use model::plan::{Area, Chip, Device, Plan, SubArea};
use model::plans::{encode, enduring, plan_t, plan_v};
use model::session::Session;
use model::wait_book::{Numbers, WaitBook};

/// A session whose lines are checked one by one.
struct Bench(Session);

impl Bench {
    fn on(plan: &Plan) -> Bench {
        Bench(Session::open(Some(&encode(plan))).expect("an accepted plan"))
    }

    fn on_t() -> Bench {
        Bench::on(&plan_t())
    }

    /// Each line prints its answer.
    fn run(&mut self, session: &[(&str, &str)]) {
        for (line, answer) in session {
            assert_eq!(self.0.answer(line.as_bytes()), *answer, "{line}");
        }
    }

    fn image(&mut self) -> &mut [u8] {
        &mut self.0.image
    }

    fn store(&mut self) -> &mut [u8] {
        &mut self.0.store
    }

    fn info(&self, area: u32) -> JobInfo {
        self.0.manager.job_info(area).expect("a known area")
    }
}

/// A sub-area with all sizes 4 but bursts of 8: sectors, pages and reads alike.
fn fours(area: u8, device: u8, start: u32, sector_count: u32) -> SubArea {
    SubArea {
        area,
        device,
        start,
        sector: 4,
        sector_burst: 8,
        page: 4,
        page_burst: 8,
        smallest_read: 4,
        largest_read: 8,
        sector_count,
        write_retries: 0,
        erase_retries: 0,
    }
}

/// Areas of these priorities, each with a window of 32 bytes and logical start 0.
fn areas(priorities: &[u16]) -> Vec<Area> {
    let area = |(priority, number): (&u16, u32)| Area {
        priority: *priority,
        logical_start: 0,
        window_start: number * 32,
        window_length: 32,
    };
    priorities.iter().zip(0..).map(area).collect()
}

/// Two devices of 32 bytes, patience 3. Area 0, the lowest, begins on device 0 with 8 bytes and goes
/// on with 8 bytes on device 1. Area 1, above it, has 16 bytes on device 0; area 2, the highest, 16
/// bytes on device 1.
fn two_devices() -> Plan {
    Plan {
        devices: vec![
            Device { start: 0, length: 32, patience: 3, chip: Chip::Plain },
            Device { start: 32, length: 32, patience: 3, chip: Chip::Plain },
        ],
        areas: areas(&[1, 2, 3]),
        sub_areas: vec![
            fours(0, 0, 0, 2),
            fours(0, 1, 32, 2),
            fours(1, 0, 16, 4),
            fours(2, 1, 48, 4),
        ],
        wear_records: Vec::new(),
    }
}

#[test]
fn drop_by_patience_with_a_retry() {
    let mut bench = Bench::on_t();
    bench.store()[..4].copy_from_slice(&[1, 2, 3, 4]);
    bench.run(&[
        ("1 0 0 4", "0"),
        ("0 p", "R 0:1:0:4"),
        ("0 p", "R 0:1:0:4"),
        // The second poll reaches the patience; the piece is due again and starts in this round.
        ("0 p", "R 0:1:0:4"),
    ]);
    assert_eq!(bench.info(0).request.polls, 0);
    assert!(bench.image().iter().all(|byte| *byte == 255));
    bench.run(&[("0 p", "R 0:1:0:4"), ("0 p", "R -"), ("10 0", "1 0 4 0 0 0")]);
    assert!(bench.image().iter().all(|byte| *byte == 255));
}

#[test]
fn drop_by_patience_without_a_retry() {
    let mut bench = Bench::on_t();
    bench.run(&[
        ("1 1 256 4", "0"),
        ("0 p", "R 1:1:32:4"),
        ("0 p", "R 1:1:32:4"),
        ("0 p", "R -"),
        ("10 1", "1 0 2 0 0 0"),
    ]);
}

#[test]
fn patience_of_one_drops_at_the_first_poll() {
    let mut plan = plan_t();
    plan.devices[0].patience = 1;
    let mut bench = Bench::on(&plan);
    bench.run(&[
        ("1 0 0 4", "0"),
        ("0 p", "R 0:1:0:4"),
        ("0 p", "R 0:1:0:4"),
        ("0 p", "R -"),
        ("10 0", "1 0 2 0 0 0"),
    ]);
}

#[test]
fn retries_are_fresh_at_each_piece() {
    let mut bench = Bench::on_t();
    bench.run(&[
        ("1 0 4 12", "0"),
        ("0 p", "R 0:1:4:4"),
        ("0 0", "R 0:1:4:4"),
        ("0 d", "R 0:1:8:8"),
        ("0 0", "R 0:1:8:8"),
        ("0 0", "R -"),
        ("10 0", "1 4 4 0 0 0"),
    ]);
}

#[test]
fn failed_write_has_acted_on_its_first_bytes() {
    let mut bench = Bench::on_t();
    bench.store()[..16].copy_from_slice(&[7; 16]);
    bench.run(&[("1 0 0 4", "0"), ("0 p", "R 0:1:0:4"), ("0 3", "R 0:1:0:4")]);
    assert_eq!(bench.image()[..5], [7, 7, 7, 255, 255]);
    assert_eq!(bench.info(0).processed, 0);
    bench.store()[..16].copy_from_slice(&[8; 16]);
    bench.run(&[("0 1", "R -"), ("10 0", "1 0 2 0 0 0")]);
    assert_eq!(bench.image()[..5], [8, 7, 7, 255, 255]);
}

#[test]
fn failed_write_of_more_bytes_than_the_piece() {
    for k in ["0 4", "0 5", "0 4294967295"] {
        let mut bench = Bench::on_t();
        bench.store().fill(7);
        bench.run(&[
            ("1 1 260 8", "0"),
            ("0 p", "R 1:1:36:4"),
            (k, "R -"),
            ("10 1", "1 0 1 0 0 0"),
        ]);
        let mut written = [255; 64];
        written[36..40].fill(7);
        assert_eq!(bench.image(), written);
    }
}

#[test]
fn failed_erase_has_acted_on_its_first_bytes() {
    let mut bench = Bench::on_t();
    bench.image().fill(0);
    bench.run(&[
        ("4 1 256 16", "0"),
        ("0 p", "R 1:4:32:16"),
        ("0 5", "R -"),
        ("10 1", "1 0 1 0 0 0"),
    ]);
    let mut erased = [0; 64];
    erased[32..37].fill(255);
    assert_eq!(bench.image(), erased);
}

#[test]
fn failed_read_changes_nothing() {
    let mut bench = Bench::on_t();
    bench.run(&[("2 0 0 4", "0"), ("0 p", "R 0:2:0:4"), ("0 4", "R -"), ("10 0", "1 0 1 0 0 0")]);
    assert!(bench.store().iter().all(|byte| *byte == 0));
    assert!(bench.image().iter().all(|byte| *byte == 255));
}

#[test]
fn compare_and_blank_check_have_no_retries() {
    for job in ["2 0 0 4", "3 0 0 4", "6 0 0 4"] {
        let mut bench = Bench::on_t();
        bench.run(&[(job, "0"), ("0 d", &format!("R 0:{}:0:4", &job[..1])), ("0 0", "R -")]);
        assert_eq!(bench.info(0).result, 1);
    }
}

#[test]
fn done_read_and_write_use_the_window_at_the_processed_length() {
    let mut bench = Bench::on_t();
    let pattern: Vec<u8> = (0..64).collect();
    bench.image().copy_from_slice(&pattern);
    bench.run(&[("2 1 257 6", "0"), ("0 d", "R 1:2:33:4"), ("0 d", "R 1:2:37:2"), ("0 d", "R -")]);
    let mut window = [0; 40];
    window[16..22].copy_from_slice(&pattern[33..39]);
    assert_eq!(bench.store()[..40], window);
    bench.run(&[("1 1 264 8", "0"), ("0 d", "R 1:1:40:4"), ("0 d", "R 1:1:44:4"), ("0 d", "R -")]);
    assert_eq!(bench.image()[40..48], window[16..24]);
    assert_eq!(bench.image()[..40], pattern[..40]);
    assert_eq!(bench.image()[48..], pattern[48..]);
}

/// "Window bytes are those of this moment".
#[test]
fn write_takes_the_window_when_it_is_done() {
    let mut bench = Bench::on_t();
    bench.store()[..4].fill(1);
    bench.run(&[("1 0 0 4", "0"), ("0 p", "R 0:1:0:4")]);
    bench.store()[..4].fill(2);
    bench.run(&[("0 p", "R 0:1:0:4")]);
    bench.store()[..4].fill(3);
    bench.run(&[("0 d", "R -")]);
    assert_eq!(bench.image()[..5], [3, 3, 3, 3, 255]);
}

#[test]
fn compare_that_differs_in_its_second_piece() {
    let mut bench = Bench::on_t();
    bench.store()[..16].fill(255);
    bench.store()[12] = 0;
    bench.run(&[
        ("3 0 0 16", "0"),
        ("0 d", "R 0:3:0:8"),
        ("0 d", "R 0:3:8:8"),
        ("0 d", "R -"),
        ("10 0", "2 8 2 0 0 0"),
    ]);
    bench.store()[12] = 255;
    bench.run(&[
        ("3 0 0 16", "0"),
        ("0 d", "R 0:3:0:8"),
        ("0 d", "R 0:3:8:8"),
        ("0 d", "R -"),
        ("10 0", "0 16 2 0 0 0"),
    ]);
}

/// Longer than the window, which a blank check has no use for.
#[test]
fn blank_check_of_a_byte_that_is_not_255() {
    let mut bench = Bench::on_t();
    let started = [("6 0 0 32", "0"), ("0 d", "R 0:6:0:8"), ("0 d", "R 0:6:8:8")];
    bench.run(&started);
    bench.image()[15] = 254;
    bench.run(&[("0 d", "R -"), ("10 0", "2 8 2 0 0 0")]);
    // Bytes behind the piece are not looked at.
    bench.image()[15] = 255;
    bench.image()[16] = 254;
    bench.run(&started);
    bench.run(&[("0 d", "R 0:6:16:8"), ("10 0", "2 16 3 0 0 0"), ("0 d", "R -")]);
    assert_eq!(bench.info(0).result, 2);
    assert_eq!(bench.info(0).processed, 16);
}

#[test]
fn processed_length_is_unmoved_after_a_failure() {
    let mut bench = Bench::on_t();
    bench.run(&[
        ("1 0 4 12", "0"),
        ("0 d", "R 0:1:4:4"),
        ("0 d", "R 0:1:8:8"),
        ("0 8", "R 0:1:8:8"),
        ("10 0", "0 4 3 0 0 0"),
        ("0 8", "R -"),
        ("10 0", "1 4 3 0 0 0"),
    ]);
}

#[test]
fn cancel_of_a_waiting_job_ends_it() {
    let mut bench = Bench::on_t();
    bench.run(&[
        ("1 0 0 4", "0"),
        ("9 0", "0"),
        ("9 0", "17"),
        ("10 0", "3 0 0 0 0 0"),
        ("0 d", "R -"),
        // Behind a running request of another area.
        ("1 1 256 4", "0"),
        ("0 p", "R 1:1:32:4"),
        ("1 0 0 4", "0"),
        ("0 p", "R 1:1:32:4"),
        ("9 0", "0"),
        ("10 0", "3 0 0 1 0 0"),
        ("0 d", "R -"),
        ("10 0", "3 0 0 1 0 0"),
    ]);
}

#[test]
fn cancel_of_a_running_job_that_is_done() {
    let mut bench = Bench::on_t();
    bench.store().fill(7);
    bench.run(&[
        ("1 0 4 12", "0"),
        ("0 p", "R 0:1:4:4"),
        ("9 0", "0"),
        ("10 0", "0 0 1 0 0 0"),
        ("1 0 4 12", "11"),
        ("0 p", "R 0:1:4:4"),
        ("9 0", "0"),
        ("0 d", "R -"),
        // Bytes and processed length follow the request, the next piece does not.
        ("10 0", "3 4 2 0 0 0"),
        ("9 0", "17"),
    ]);
    assert_eq!(bench.image()[3..9], [255, 7, 7, 7, 7, 255]);
}

#[test]
fn cancel_of_a_running_last_piece() {
    let mut bench = Bench::on_t();
    bench.run(&[("1 0 4 4", "0"), ("0 p", "R 0:1:4:4"), ("9 0", "0"), ("0 d", "R -")]);
    bench.run(&[("10 0", "3 4 1 0 0 0")]);
}

#[test]
fn cancel_of_a_running_job_that_fails_or_is_dropped() {
    let mut bench = Bench::on_t();
    bench.store().fill(7);
    bench.run(&[
        ("1 0 4 12", "0"),
        ("0 p", "R 0:1:4:4"),
        ("9 0", "0"),
        ("0 2", "R -"),
        ("10 0", "3 0 1 0 0 0"),
        ("1 0 8 8", "0"),
        ("0 p", "R 0:1:8:8"),
        ("0 p", "R 0:1:8:8"),
        ("9 0", "0"),
        ("0 p", "R -"),
        ("10 0", "3 0 2 0 0 0"),
    ]);
    assert_eq!(bench.image()[3..7], [255, 7, 7, 255]);
    assert!(bench.image()[7..].iter().all(|byte| *byte == 255));
}

#[test]
fn cancel_of_a_running_compare_that_differs() {
    let mut bench = Bench::on_t();
    bench.run(&[
        ("3 0 0 4", "0"),
        ("0 p", "R 0:3:0:4"),
        ("9 0", "0"),
        ("0 d", "R -"),
        ("10 0", "3 0 1 0 0 0"),
    ]);
}

#[test]
fn cancel_of_a_due_retry_ends_at_once() {
    let mut bench = Bench::on_t();
    bench.run(&[
        ("1 0 0 4", "0"),
        ("0 p", "R 0:1:0:4"),
        ("1 1 256 4", "0"),
        ("0 0", "R 1:1:32:4"),
        ("10 0", "0 0 1 1 0 0"),
        ("9 0", "0"),
        ("10 0", "3 0 1 1 0 0"),
        ("0 d", "R -"),
    ]);
}

/// The next job is not cancelled too.
#[test]
fn cancel_is_over_with_its_job() {
    let mut bench = Bench::on_t();
    bench.run(&[
        ("1 0 0 4", "0"),
        ("9 0", "0"),
        ("1 0 0 4", "0"),
        ("0 p", "R 0:1:0:4"),
        ("9 0", "0"),
        ("0 d", "R -"),
        ("1 0 0 4", "0"),
        ("10 0", "3 0 0 0 0 0"),
        ("0 p", "R 0:1:0:4"),
        ("0 d", "R -"),
        ("10 0", "0 4 1 0 0 0"),
    ]);
}

#[test]
fn retry_loses_the_device_to_a_higher_area() {
    let mut bench = Bench::on_t();
    bench.run(&[
        ("1 0 0 4", "0"),
        ("0 p", "R 0:1:0:4"),
        ("4 1 256 32", "0"),
        ("0 0", "R 1:4:32:16"),
        ("0 d", "R 1:4:48:16"),
        ("0 d", "R 0:1:0:4"),
        ("0 d", "R -"),
        ("10 0", "0 4 2 2 0 0"),
        ("10 1", "0 32 2 0 0 0"),
    ]);
}

/// One device of 48 bytes, patience 3, on which three areas of these priorities have 16 bytes each.
fn three_areas(priorities: [u16; 3]) -> Plan {
    Plan {
        devices: vec![Device { start: 0, length: 48, patience: 3, chip: Chip::Plain }],
        areas: areas(&priorities),
        sub_areas: vec![fours(0, 0, 0, 4), fours(1, 0, 16, 4), fours(2, 0, 32, 4)],
        wear_records: Vec::new(),
    }
}

/// `two_devices` with all priorities equal and a retry for the writes of area 2.
fn two_devices_of_equals() -> Plan {
    let mut plan = two_devices();
    plan.areas = areas(&[7, 7, 7]);
    plan.sub_areas[3].write_retries = 1;
    plan
}

/// "Areas of equal priority shall be ranked by acceptance: the earlier accepted job is above."
#[test]
fn earlier_accepted_is_above_whatever_its_number() {
    let mut bench = Bench::on(&plan_v());
    bench.run(&[
        ("1 1 256 8", "0"),
        ("1 0 0 4", "0"),
        ("0 p", "R 1:1:32:4"),
        // Also for its next piece.
        ("0 d", "R 1:1:36:4"),
        ("10 0", "0 0 0 2 0 0"),
        ("0 d", "R 0:1:0:4"),
        ("10 1", "0 8 2 0 0 0"),
    ]);
    let mut bench = Bench::on(&plan_v());
    bench.run(&[
        ("1 0 0 4", "0"),
        ("1 1 256 4", "0"),
        ("0 p", "R 0:1:0:4"),
        ("10 1", "0 0 0 1 0 0"),
        ("0 d", "R 1:1:32:4"),
        ("10 0", "0 4 1 0 0 0"),
    ]);
}

/// In every order of acceptance: the first runs at once, the second waits one round above, the
/// third two.
#[test]
fn three_areas_of_equal_priority() {
    for order in [[0, 1, 2], [0, 2, 1], [1, 0, 2], [1, 2, 0], [2, 0, 1], [2, 1, 0]] {
        let mut bench = Bench::on(&three_areas([7, 7, 7]));
        for area in order {
            bench.run(&[(&format!("1 {area} 0 4"), "0")]);
        }
        for area in order {
            bench.run(&[("0 d", &format!("R {area}:1:{}:4", 16 * area))]);
        }
        bench.run(&[("0 d", "R -")]);
        for (place, area) in order.into_iter().enumerate() {
            bench.run(&[(&format!("10 {area}"), &format!("0 4 1 {place} 0 0"))]);
        }
    }
}

/// "the larger priority is above": also if accepted last; a lower one that runs since before counts
/// below.
#[test]
fn another_priority_decides_before_the_order() {
    let mut bench = Bench::on(&three_areas([1, 2, 1]));
    bench.run(&[
        ("1 2 0 4", "0"),
        ("1 0 0 4", "0"),
        ("1 1 0 4", "0"),
        ("0 d", "R 1:1:16:4"),
        ("0 d", "R 2:1:32:4"),
        ("0 d", "R 0:1:0:4"),
        ("10 0", "0 0 1 2 0 0"),
        ("10 1", "0 4 1 0 0 0"),
        ("10 2", "0 4 1 1 0 0"),
        ("1 1 0 4", "0"),
        ("0 p", "R 0:1:0:4"),
        ("10 1", "0 0 0 0 1 0"),
    ]);
}

/// By a failure and by a drop, of either area.
#[test]
fn retry_keeps_its_place() {
    let mut plan = plan_v();
    plan.sub_areas[1].write_retries = 1;
    let (zero, one) = (("1 0 0 4", "R 0:1:0:4"), ("1 1 256 4", "R 1:1:32:4"));
    for (first, second, infos) in [(zero, one, ["10 0", "10 1"]), (one, zero, ["10 1", "10 0"])] {
        // The second poll reaches the patience.
        for (answer, own) in [("0 0", 2), ("0 p", 3)] {
            let mut bench = Bench::on(&plan);
            bench.run(&[(first.0, "0"), ("0 p", first.1), (second.0, "0")]);
            bench.run(&vec![(answer, first.1); own - 1]);
            bench.run(&[("0 d", second.1), ("0 d", "R -")]);
            bench.run(&[(infos[0], &format!("0 4 {own} 0 0 0"))]);
            bench.run(&[(infos[1], &format!("0 4 1 {} 0 0", own - 1))]);
        }
    }
}

/// Area 0, accepted first, comes to device 1 while area 2 runs there: below. Its place is before
/// that of the failed request.
#[test]
fn retry_does_not_go_before_an_earlier_job() {
    let mut bench = Bench::on(&two_devices_of_equals());
    bench.run(&[
        ("1 0 0 16", "0"),
        ("1 2 0 8", "0"),
        ("0 p p", "R 0:1:0:8 2:1:48:8"),
        ("0 d p", "R - 2:1:48:8"),
        ("10 0", "0 8 1 0 1 0"),
        ("0 p 0", "R - 0:1:32:8"),
        ("10 0", "0 8 2 0 1 0"),
        ("10 2", "0 0 2 1 0 0"),
        ("0 p d", "R - 2:1:48:8"),
        ("10 0", "0 16 2 0 1 0"),
    ]);
}

/// "A cancelled running job counts own and keeps its rank": above for who came later, below for who
/// came earlier, until it ends.
#[test]
fn cancelled_job_keeps_its_place_while_its_request_runs() {
    let mut bench = Bench::on(&plan_v());
    bench.run(&[
        ("1 1 256 4", "0"),
        ("0 p", "R 1:1:32:4"),
        ("1 0 0 4", "0"),
        ("9 1", "0"),
        ("0 p", "R 1:1:32:4"),
        ("10 0", "0 0 0 1 0 0"),
        ("0 d", "R 0:1:0:4"),
        ("10 1", "3 4 2 0 0 0"),
    ]);
    let mut bench = Bench::on(&two_devices_of_equals());
    bench.run(&[
        ("1 0 0 16", "0"),
        ("1 2 0 8", "0"),
        ("0 p p", "R 0:1:0:8 2:1:48:8"),
        ("9 2", "0"),
        ("0 d p", "R - 2:1:48:8"),
        ("0 d p", "R - 2:1:48:8"),
        ("10 0", "0 8 1 0 2 0"),
        ("0 p d", "R - 0:1:32:8"),
        // Its next job comes last.
        ("1 2 0 8", "0"),
        ("0 p p", "R - 0:1:32:8"),
        ("10 2", "3 0 0 1 0 0"),
    ]);
}

#[test]
fn lock_request_has_its_place() {
    let mut bench = Bench::on(&three_areas([7, 7, 7]));
    bench.run(&[
        ("1 1 0 4", "0"),
        ("7 2 0 1", "0"),
        ("1 0 0 4", "0"),
        ("0 d", "R 1:1:16:4"),
        ("0 d", "R L"),
        ("10 0", "0 0 0 1 0 1"),
        ("10 2", "0 0 0 1 0 0"),
        ("8 2 0 1", "0"),
        ("0 d", "R 0:1:0:4"),
        // The lower number's lock request waits for the earlier job of the higher.
        ("1 2 0 4", "0"),
        ("7 1 0 1", "0"),
        ("0 d", "R 2:1:32:4"),
        ("0 d", "R L"),
        ("10 1", "0 0 0 1 0 0"),
    ]);
}

/// After an end by a round, and after a cancel.
#[test]
fn next_job_of_an_area_comes_last() {
    let mut bench = Bench::on(&three_areas([7, 7, 7]));
    bench.run(&[
        ("1 0 0 4", "0"),
        ("1 1 0 4", "0"),
        ("1 2 0 4", "0"),
        ("0 d", "R 0:1:0:4"),
        ("0 d", "R 1:1:16:4"),
        ("1 0 0 4", "0"),
        ("0 d", "R 2:1:32:4"),
        ("10 0", "0 0 0 1 0 0"),
        ("0 d", "R 0:1:0:4"),
        ("0 d", "R -"),
        ("1 0 0 4", "0"),
        ("1 1 0 4", "0"),
        ("9 0", "0"),
        ("1 0 0 4", "0"),
        ("0 d", "R 1:1:16:4"),
        ("0 d", "R 0:1:0:4"),
    ]);
}

/// "a refused call leaves image, store and manager as they were": it neither takes a place nor
/// loses one.
#[test]
fn refused_call_changes_no_order() {
    let mut bench = Bench::on(&plan_v());
    bench.run(&[
        ("1 0 0 0", "12"),
        ("7 0 0 0", "12"),
        ("1 1 256 4", "0"),
        ("1 0 0 4", "0"),
        ("1 1 256 4", "11"),
        ("7 1 256 1", "11"),
        ("8 1 256 1", "16"),
        ("0 p", "R 1:1:32:4"),
        ("10 0", "0 0 0 1 0 0"),
    ]);
}

/// Whether a round ends it or a cancel.
#[test]
fn order_of_the_others_stays_when_a_job_ends() {
    let mut bench = Bench::on(&three_areas([7, 7, 7]));
    bench.run(&[
        ("1 0 0 4", "0"),
        ("1 2 0 4", "0"),
        ("1 1 0 4", "0"),
        ("0 d", "R 0:1:0:4"),
        ("0 d", "R 2:1:32:4"),
        ("0 d", "R 1:1:16:4"),
        ("0 d", "R -"),
        ("1 1 0 4", "0"),
        ("1 2 0 4", "0"),
        ("1 0 0 4", "0"),
        ("9 1", "0"),
        ("0 d", "R 2:1:32:4"),
        ("0 d", "R 0:1:0:4"),
    ]);
}

#[test]
fn lock_against_a_waiting_write() {
    let mut bench = Bench::on_t();
    // The higher area's lock goes before the lower area's write.
    bench.run(&[
        ("1 0 0 4", "0"),
        ("7 1 256 1", "0"),
        ("0 d", "R L"),
        ("10 0", "0 0 0 0 0 1"),
        ("10 1", "0 0 0 0 0 0"),
        ("0 d", "R L"),
        ("8 1 256 1", "0"),
        ("0 d", "R 0:1:0:4"),
        ("0 d", "R -"),
        ("10 0", "0 4 1 0 0 2"),
    ]);
    // The lower area's lock waits for the higher area's write.
    bench.run(&[
        ("1 1 256 4", "0"),
        ("7 0 0 1", "0"),
        ("0 d", "R 1:1:32:4"),
        ("10 0", "0 0 0 1 0 0"),
        ("0 d", "R L"),
        ("10 0", "0 0 0 1 0 0"),
    ]);
}

#[test]
fn lock_waits_for_a_running_request_of_a_lower_area() {
    let mut bench = Bench::on_t();
    bench.run(&[
        ("4 0 0 32", "0"),
        ("0 p", "R 0:4:0:32"),
        ("7 1 287 1", "0"),
        ("0 p", "R 0:4:0:32"),
        ("10 1", "0 0 0 0 1 0"),
        ("0 d", "R L"),
        ("10 1", "0 0 0 0 1 0"),
        ("10 0", "0 32 2 0 0 0"),
    ]);
}

#[test]
fn lock_of_a_device_that_the_area_holds_waits() {
    let mut bench = Bench::on_t();
    bench.run(&[
        ("7 0 0 32", "0"),
        ("0 p", "R L"),
        ("7 0 0 1", "0"),
        ("0 p", "R L"),
        ("0 p", "R L"),
        ("10 0", "0 0 0 0 0 2"),
        ("8 0 31 1", "0"),
        ("8 0 31 1", "16"),
        ("0 p", "R L"),
        ("10 0", "0 0 0 0 0 2"),
        ("8 0 0 1", "0"),
        ("0 p", "R -"),
    ]);
}

#[test]
fn locked_device_starts_nothing_for_its_holder() {
    let mut bench = Bench::on_t();
    bench.run(&[
        ("7 1 256 1", "0"),
        ("0 d", "R L"),
        ("1 1 256 4", "0"),
        ("0 d", "R L"),
        ("0 3", "R L"),
        ("10 1", "0 0 0 0 0 2"),
        // Also while its job is pending the area can release.
        ("8 1 287 1", "0"),
        ("0 d", "R 1:1:32:4"),
        ("10 1", "0 0 1 0 0 2"),
    ]);
}

#[test]
fn cancelled_lock_request_ends_at_once() {
    let mut bench = Bench::on_t();
    bench.run(&[
        ("7 0 0 1", "0"),
        ("9 0", "0"),
        ("10 0", "3 0 0 0 0 0"),
        ("0 d", "R -"),
        ("7 0 0 1", "0"),
        ("0 d", "R L"),
        ("9 0", "17"),
        ("10 0", "0 0 0 0 0 0"),
    ]);
}

#[test]
fn release_refusals() {
    let mut bench = Bench::on(&two_devices());
    bench.run(&[
        ("8 3 0 1", "10"),
        ("8 0 0 0", "12"),
        ("8 0 0 17", "12"),
        ("8 0 7 2", "15"),
        ("8 0 7 1", "16"),
        ("7 0 0 8", "0"),
        // Not given yet.
        ("8 0 0 8", "16"),
        ("0 p p", "R L -"),
        // Another area, and another device.
        ("8 1 0 1", "16"),
        ("8 0 8 8", "16"),
        ("8 0 3 1", "0"),
        ("0 p p", "R - -"),
        ("8 0 3 1", "16"),
    ]);
}

#[test]
fn lock_needs_no_alignment_but_one_device() {
    let mut bench = Bench::on(&two_devices());
    bench.run(&[
        ("7 0 7 2", "15"),
        ("7 0 0 16", "15"),
        ("7 0 9 5", "0"),
        ("7 0 9 5", "11"),
        ("0 p p", "R - L"),
        ("7 1 15 1", "0"),
        ("0 p p", "R L L"),
    ]);
}

/// Both ends on device 0 and a byte of device 1 between them.
#[test]
fn every_byte_of_a_lock_lies_on_one_device() {
    let mut plan = two_devices();
    plan.sub_areas.insert(2, fours(0, 0, 8, 1));
    let mut bench = Bench::on(&plan);
    bench.run(&[("7 0 7 10", "15"), ("8 0 7 10", "15"), ("7 0 16 4", "0"), ("0 p p", "R L -")]);
}

#[test]
fn two_devices_in_one_round() {
    let mut bench = Bench::on(&two_devices());
    bench.store()[32..64].fill(1);
    bench.store()[64..96].fill(2);
    bench.run(&[
        ("1 1 0 8", "0"),
        ("1 2 0 8", "0"),
        ("0 p p", "R 1:1:16:8 2:1:48:8"),
        ("0 d 3", "R - -"),
        ("10 1", "0 8 1 0 0 0"),
        ("10 2", "1 0 1 0 0 0"),
    ]);
    assert_eq!(bench.image()[15..25], [255, 1, 1, 1, 1, 1, 1, 1, 1, 255]);
    assert_eq!(bench.image()[47..52], [255, 2, 2, 2, 255]);
}

/// Device 1 is free only after its own answer, and the job of device 0 comes to it only after that
/// of device 0: both are in before device 1 picks.
#[test]
fn devices_start_after_all_answers_are_in() {
    let mut bench = Bench::on(&two_devices());
    bench.run(&[
        ("1 0 0 16", "0"),
        ("0 p p", "R 0:1:0:8 -"),
        ("0 d p", "R - 0:1:32:8"),
        ("0 p d", "R - -"),
        ("10 0", "0 16 2 0 0 0"),
    ]);
    // From device 1 back to device 0, which is asked first.
    let mut plan = two_devices();
    plan.sub_areas.swap(0, 1);
    let mut bench = Bench::on(&plan);
    bench.run(&[("1 0 0 16", "0"), ("0 p p", "R - 0:1:32:8"), ("0 p d", "R 0:1:0:8 -")]);
}

#[test]
fn job_over_two_devices_waits_on_each() {
    let mut bench = Bench::on(&two_devices());
    bench.run(&[
        ("1 1 0 8", "0"),
        ("1 0 0 16", "0"),
        ("0 p p", "R 1:1:16:8 -"),
        ("10 0", "0 0 0 1 0 0"),
        ("1 2 0 8", "0"),
        ("0 d p", "R 0:1:0:8 2:1:48:8"),
        ("0 d p", "R - 2:1:48:8"),
        ("10 0", "0 8 1 2 0 0"),
        ("0 p d", "R - 0:1:32:8"),
        ("0 p 8", "R - -"),
        ("10 0", "1 8 2 2 0 0"),
    ]);
}

#[test]
fn job_over_two_devices_meets_a_lock_on_the_second() {
    let mut bench = Bench::on(&two_devices());
    bench.run(&[
        ("7 2 0 1", "0"),
        ("1 0 0 16", "0"),
        ("0 p p", "R 0:1:0:8 L"),
        ("0 d d", "R - L"),
        ("0 d d", "R - L"),
        ("8 2 15 1", "0"),
        ("0 d d", "R - 0:1:32:8"),
        ("0 d d", "R - -"),
        ("10 0", "0 16 2 0 0 2"),
    ]);
}

/// Pieces end at a sub-area's border also where the next sub-area touches it.
#[test]
fn pieces_do_not_cross_touching_sub_areas() {
    let mut plan = two_devices();
    plan.sub_areas[2].sector_count = 2;
    plan.sub_areas.insert(3, fours(1, 0, 24, 2));
    let mut bench = Bench::on(&plan);
    bench.run(&[
        ("2 1 4 8", "0"),
        ("0 d p", "R 1:2:20:4 -"),
        ("0 d p", "R 1:2:24:4 -"),
        ("0 d p", "R - -"),
        ("4 1 0 16", "0"),
        ("0 d p", "R 1:4:16:8 -"),
        ("0 d p", "R 1:4:24:8 -"),
    ]);
}

/// A burst goes by the physical address: here logical 0 is physical 4 and logical 4 physical 8.
#[test]
fn bursts_are_aligned_on_the_physical_address() {
    let mut plan = two_devices();
    plan.sub_areas[0] = fours(0, 0, 4, 3);
    let mut bench = Bench::on(&plan);
    bench.run(&[
        ("1 0 0 12", "0"),
        ("0 d p", "R 0:1:4:4 -"),
        ("0 d p", "R 0:1:8:8 -"),
        ("0 d p", "R - -"),
        ("4 0 0 8", "0"),
        ("0 d p", "R 0:4:4:4 -"),
        ("0 d p", "R 0:4:8:4 -"),
    ]);
}

#[test]
fn questions_come_in_the_order_of_their_numbers() {
    let mut bench = Bench::on_t();
    bench.run(&[
        ("1 0 1 400", "12"),
        ("1 0 1 30", "13"),
        ("1 0 0 20", "14"),
        ("4 0 0 32", "0"),
        ("1 0 1 400", "11"),
        ("7 0 1 400", "11"),
        ("8 0 1 400", "12"),
        ("1 2 1 400", "10"),
    ]);
}

/// Question 13 asks the first and the last sub-area of the range, each with its own unit.
#[test]
fn alignment_is_asked_of_first_and_last_sub_area() {
    let mut plan = two_devices();
    plan.sub_areas[1].sector = 8;
    plan.sub_areas[1].page = 8;
    plan.sub_areas[1].smallest_read = 2;
    plan.sub_areas[1].sector_count = 1;
    let mut bench = Bench::on(&plan);
    bench.run(&[
        ("1 0 4 8", "13"),
        ("4 0 4 8", "13"),
        ("2 0 4 7", "13"),
        ("2 0 2 8", "13"),
        ("2 0 10 6", "0"),
        ("9 0", "0"),
        ("2 0 4 6", "0"),
        ("9 0", "0"),
        ("1 0 4 12", "0"),
        ("9 0", "0"),
        // The end is measured in the sub-area of the last byte, not in the next.
        ("1 0 4 4", "0"),
    ]);
}

#[test]
fn window_limits_write_read_and_compare_only() {
    let mut plan = plan_t();
    plan.areas[0].window_length = 0;
    let mut bench = Bench::on(&plan);
    bench.run(&[
        ("1 0 0 4", "14"),
        ("2 0 0 1", "14"),
        ("3 0 0 1", "14"),
        ("7 0 0 1", "0"),
        ("9 0", "0"),
        ("6 0 0 1", "0"),
        ("9 0", "0"),
        ("4 0 0 16", "0"),
        ("0 d", "R 0:4:0:16"),
        ("0 d", "R -"),
        ("10 0", "0 16 1 0 0 0"),
    ]);
}

/// The area ends at 4,294,967,295, and sums beyond do not wrap.
#[test]
fn ranges_at_the_end_of_the_logical_space() {
    let mut plan = plan_t();
    plan.areas[0].logical_start = 4_294_967_263;
    let mut bench = Bench::on(&plan);
    bench.run(&[
        ("2 0 4294967294 1", "0"),
        ("0 d", "R 0:2:31:1"),
        ("0 d", "R -"),
        ("2 0 4294967294 2", "12"),
        ("2 0 4294967295 1", "12"),
        ("2 0 4294967263 4294967295", "12"),
        ("2 0 4294967262 1", "12"),
        ("2 0 0 1", "12"),
        ("7 0 4294967263 32", "0"),
        ("0 d", "R L"),
        ("8 0 4294967295 4294967295", "12"),
        ("8 0 4294967294 1", "0"),
    ]);
}

#[test]
fn refused_round_is_no_round() {
    let mut manager = Manager::load(&encode(&plan_t())).expect("plan T");
    let (mut image, mut store) = ([255; 64], [7; 32]);
    let pending = [Answer::Pending; 4];
    let done = [Answer::Done; 4];
    assert_eq!(manager.job(Operation::Write, 0, 0, 4), 0);
    assert_eq!(manager.round(pending, &mut image, &mut store), 0);
    let before = manager.clone();
    assert_eq!(manager.round(done, &mut image[..63], &mut store), 18);
    assert_eq!(manager.round(done, &mut [255; 65], &mut store), 18);
    assert_eq!(manager.round(done, &mut [], &mut store), 18);
    assert_eq!(manager.round(done, &mut image[..63], &mut []), 18);
    assert_eq!(manager.round(done, &mut image, &mut store[..31]), 19);
    assert_eq!(manager.round(done, &mut image, &mut []), 19);
    assert_eq!(manager, before);
    assert_eq!((image, store), ([255; 64], [7; 32]));
    assert_eq!(manager.round(done, &mut image, &mut store), 0);
    assert_eq!(manager.processed(0), Ok(4));
}

/// A window of length 0 counts for the furthest end; a longer store is no matter.
#[test]
fn store_reaches_the_furthest_window_end() {
    let mut plan = plan_t();
    (plan.areas[0].window_start, plan.areas[0].window_length) = (50, 0);
    let mut manager = Manager::load(&encode(&plan)).expect("an accepted plan");
    let (mut image, mut store) = ([255; 64], [0; 100]);
    for (length, number) in [(49, 19), (50, 0), (51, 0), (100, 0)] {
        let pending = [Answer::Pending; 4];
        assert_eq!(manager.round(pending, &mut image, &mut store[..length]), number, "{length}");
    }
}

#[test]
fn answers_of_devices_with_nothing_running_are_ignored() {
    let mut bench = Bench::on(&two_devices());
    bench.image()[16] = 0;
    bench.run(&[
        ("7 2 0 1", "0"),
        ("0 d d", "R - L"),
        ("1 1 0 4", "0"),
        // The answer that comes with the start of a request is not the request's.
        ("0 d d", "R 1:1:16:4 L"),
        ("0 p 0", "R 1:1:16:4 L"),
        ("10 1", "0 0 2 0 0 0"),
    ]);
    assert_eq!(bench.image()[16], 0);
}

#[test]
fn counts_stick() {
    let almost = u32::MAX - 1;
    let mut waits = Waits { own: almost, above: almost, below: almost, locked: almost };
    for wait in [Wait::Own, Wait::Above, Wait::Below, Wait::Locked] {
        waits.add(wait);
        waits.add(wait);
    }
    let stuck = 4_294_967_295;
    assert_eq!(waits, Waits { own: stuck, above: stuck, below: stuck, locked: stuck });
}

#[test]
fn job_info_before_during_and_after_a_job() {
    let mut bench = Bench::on(&two_devices());
    let no_request = RequestInfo::default();
    let fresh = JobInfo {
        job_type: 0,
        address: 0,
        length: 0,
        result: 0,
        processed: 0,
        waits: Waits::default(),
        request: no_request,
    };
    assert_eq!(bench.info(2), fresh);
    bench.run(&[("1 2 4 12", "0")]);
    let accepted = JobInfo { job_type: 1, address: 4, length: 12, ..fresh };
    assert_eq!(bench.info(2), accepted);
    bench.run(&[("0 p p", "R - 2:1:52:4"), ("0 p d", "R - 2:1:56:8"), ("0 p p", "R - 2:1:56:8")]);
    let request = RequestInfo { device: 1, physical_address: 56, length: 8, polls: 1 };
    let waits = Waits { own: 3, ..Waits::default() };
    assert_eq!(bench.info(2), JobInfo { processed: 4, waits, request, ..accepted });
    assert_eq!(bench.0.manager.status(2), Ok(1));
    bench.run(&[("0 p 0", "R - -")]);
    let ended = JobInfo { result: 1, processed: 4, waits, ..accepted };
    assert_eq!(bench.info(2), ended);
    assert_eq!(bench.0.manager.status(2), Ok(0));
    assert_eq!(bench.0.manager.result(2), Ok(1));
    assert_eq!(bench.0.manager.processed(2), Ok(4));
    // A lock request is the latest job too.
    bench.run(&[("7 2 5 3", "0"), ("0 p p", "R - L")]);
    let locked = JobInfo { job_type: 7, address: 5, length: 3, ..fresh };
    assert_eq!(bench.info(2), locked);
}

#[test]
fn queries_of_unknown_areas_give_10() {
    let manager = Manager::load(&encode(&plan_t())).expect("plan T");
    for area in [2, 8, 255, 256, u32::MAX] {
        assert_eq!(manager.status(area), Err(10));
        assert_eq!(manager.result(area), Err(10));
        assert_eq!(manager.processed(area), Err(10));
        assert_eq!(manager.job_info(area), Err(10));
        assert_eq!(manager.memory_info(area, 0), Err(10));
        assert_eq!(manager.wear_info(area, 0), Err(10));
    }
}

/// Plan T with a second sub-area of area 1, every size of which is another.
fn unlike_sizes() -> Plan {
    let mut plan = plan_t();
    plan.devices.push(Device { start: 64, length: 64, patience: 1, chip: Chip::Plain });
    plan.sub_areas.push(SubArea {
        area: 1,
        device: 1,
        start: 80,
        sector: 8,
        sector_burst: 24,
        page: 4,
        page_burst: 12,
        smallest_read: 2,
        largest_read: 6,
        sector_count: 3,
        write_retries: 9,
        erase_retries: 7,
    });
    plan
}

#[test]
fn memory_info_is_that_of_the_sub_area() {
    let manager = Manager::load(&encode(&unlike_sizes())).expect("an accepted plan");
    let info = MemoryInfo {
        logical_start_address: 288,
        physical_start_address: 80,
        max_offset: 23,
        erase_sector_size: 8,
        erase_sector_burst_size: 24,
        min_read_size: 2,
        write_page_size: 4,
        max_read_size: 6,
        write_page_burst_size: 12,
        hw_id: 1,
    };
    assert_eq!(manager.memory_info(1, 288), Ok(info));
    assert_eq!(manager.memory_info(1, 311), Ok(info));
    let first = manager.memory_info(1, 287).expect("inside area 1");
    assert_eq!((first.logical_start_address, first.max_offset, first.hw_id), (256, 31, 0));
    assert_eq!(manager.memory_info(1, 256), Ok(first));
    assert_eq!(manager.memory_info(1, 255), Err(12));
    assert_eq!(manager.memory_info(1, 312), Err(12));
    assert_eq!(manager.memory_info(1, u32::MAX), Err(12));
}

/// "Area 0: 6 = 1 + 4 + 1. Area 1: 3 = 1 + 1 + 1." The wait book, alone.
#[test]
fn wait_book_of_the_printed_session() {
    let (image, store) = ([255; 64], [0; 32]);
    let round = |book: WaitBook, answer: Answer| {
        let (book, number) = book.round([answer; 4], &image, &store);
        assert_eq!(number, 0);
        book
    };
    let (book, _) =
        WaitBook::of(&plan_t()).job(Operation::Write, Target { area: 0, address: 4, length: 12 });
    let (book, _) = round(book, Answer::Pending)
        .job(Operation::Write, Target { area: 1, address: 256, length: 4 });
    let answers = [Answer::Pending, Answer::Done, Answer::Done, Answer::Failed(0), Answer::Done];
    let book = answers.into_iter().fold(book, round);
    let numbers = |area: usize| book.entry(area).numbers;
    assert_eq!(numbers(0), Numbers { rounds: 6, own: 4, above: 1, below: 0, locked: 0 });
    assert_eq!(numbers(1), Numbers { rounds: 3, own: 1, above: 0, below: 1, locked: 0 });
    for area in [0, 1] {
        assert!(book.entry(area).round_ended_it && !book.entry(area).is_pending);
    }
}

/// The wait book alone on plan V: the second area is accepted first.
#[test]
fn wait_book_keeps_the_order() {
    let (image, store) = ([255; 64], [0; 32]);
    let done = |book: WaitBook| {
        let (book, number) = book.round([Answer::Done; 4], &image, &store);
        assert_eq!(number, 0);
        book
    };
    let write = |book: WaitBook, area: u32, address: u32| {
        book.job(Operation::Write, Target { area, address, length: 4 })
    };
    let (book, _) = write(WaitBook::of(&plan_v()), 1, 256);
    let (book, _) = write(book, 0, 4);
    let (book, refused) = write(book, 1, 256);
    assert_eq!((refused, book.order()), (11, &[1, 0][..]));
    let book = done(book);
    assert_eq!(book.order(), [1, 0]);
    let book = done(book);
    assert_eq!(book.order(), [0]);
    let (book, _) = write(book, 1, 256);
    assert_eq!(book.order(), [0, 1]);
    let (book, _) = book.cancel(0);
    assert_eq!(book.order(), [0, 1]);
    let book = done(book);
    assert_eq!(book.order(), [1]);
    let numbers = |area: usize| book.entry(area).numbers;
    assert_eq!(numbers(0), Numbers { rounds: 3, own: 1, above: 1, below: 0, locked: 0 });
    assert_eq!(numbers(1), Numbers { rounds: 1, own: 1, above: 0, below: 0, locked: 0 });
}

/// What the benchmarks rest on: in long runs of rounds no job ends, and every device is busy.
#[test]
fn enduring_plans_keep_every_device_busy() {
    for (devices, areas, sub_areas) in [(1, 1, 1), (1, 8, 32), (2, 8, 32), (3, 8, 32), (4, 8, 32)] {
        let plan = enduring(devices, areas, sub_areas);
        let mut manager = Manager::load(&encode(&plan)).expect("an accepted plan");
        for area in 0..areas {
            assert_eq!(manager.job(Operation::Read, area, 0, 8_192), 0);
        }
        let mut image = vec![255; usize::try_from(plan.device_sum()).expect("an image")];
        let mut store = vec![0; 65_536];
        for _ in 0..8_000 {
            assert_eq!(manager.round([Answer::Done; 4], &mut image, &mut store), 0);
            for device in 0..plan.devices.len() {
                assert!(matches!(manager.device(device), DeviceState::Running(_)));
            }
        }
    }
}
