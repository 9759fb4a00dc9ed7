//! Req 02 of document 02, "Erase gives way": sessions on plan E worked out by hand from the paper. The
//! larger priority is above, so area 2 outranks area 1 and that one area 0.

mod bench;

use bench::{Bench, PLAN_E};
use model::manager::RequestInfo;
use model::plan::{load, Chip};
use model::plans::{encode, plan_e, plan_f, with_chips};

impl Bench {
    fn request(&self, area: u32) -> RequestInfo {
        self.0.manager.job_info(area).expect("a known area").request
    }
}

/// The session on plan E of patience 3, and on plan F, whose chip "can pause too".
fn check(session: &[(&str, &str)]) {
    for plan in [plan_e(3), plan_f(3)] {
        Bench::on(&plan).run(session);
    }
}

#[test]
fn plan_e_to_the_byte() {
    assert_eq!(encode(&plan_e(3)), PLAN_E);
    assert_eq!(load(&PLAN_E), Ok(plan_e(3)));
}

/// The erase has 2 polls when it is suspended; the first one after its resume drops it.
#[test]
fn polls_are_kept() {
    check(&[
        ("4 0 0 16", "0"),
        ("0 p", "R 0:4:0:16"),
        ("0 p", "R 0:4:0:16"),
        ("2 1 256 4", "0"),
        ("0 p", "R 1:2:16:4"),
        ("10 0", "0 0 2 1 0 0"),
        ("0 d", "R 0:4:0:16"),
        ("0 p", "R -"),
        ("10 0", "1 0 3 1 0 0"),
        ("10 1", "0 4 1 0 0 0"),
    ]);
}

/// The same session with mark 44 56: nothing gives way.
#[test]
fn other_chips_suspend_nothing() {
    Bench::on(&with_chips(plan_e(3), Chip::Plain)).run(&[
        ("4 0 0 16", "0"),
        ("0 p", "R 0:4:0:16"),
        ("0 p", "R 0:4:0:16"),
        ("2 1 256 4", "0"),
        ("0 p", "R 0:4:0:16"),
        ("10 0", "0 0 3 0 0 0"),
        ("0 d", "R 1:2:16:4"),
        ("0 p", "R 1:2:16:4"),
        ("10 0", "0 16 3 0 0 0"),
        ("10 1", "0 0 2 0 1 0"),
    ]);
}

/// Area 2's lock request is the highest ranked ready job, so area 1's read has to wait as well.
#[test]
fn lock_request_suspends_nothing() {
    check(&[
        ("4 0 0 16", "0"),
        ("0 p", "R 0:4:0:16"),
        ("7 2 512 4", "0"),
        ("2 1 256 4", "0"),
        ("0 p", "R 0:4:0:16"),
        ("0 p", "R 0:4:0:16"),
        ("0 d", "R L"),
        ("10 2", "0 0 0 0 2 0"),
        ("10 1", "0 0 0 0 2 1"),
        ("8 2 512 4", "0"),
        ("0 p", "R 1:2:16:4"),
        ("0 d", "R -"),
        ("10 1", "0 4 1 0 2 1"),
    ]);
}

#[test]
fn erase_suspends_no_erase() {
    check(&[
        ("4 0 0 16", "0"),
        ("0 p", "R 0:4:0:16"),
        ("4 1 256 16", "0"),
        ("0 p", "R 0:4:0:16"),
        ("0 d", "R 1:4:16:16"),
        ("0 d", "R -"),
        ("10 0", "0 16 2 0 0 0"),
        ("10 1", "0 16 1 0 1 0"),
    ]);
}

/// Area 2's erase is found first; that area 1's read would qualify is not asked.
#[test]
fn read_behind_an_erase_suspends_nothing() {
    check(&[
        ("4 0 0 16", "0"),
        ("0 p", "R 0:4:0:16"),
        ("4 2 512 16", "0"),
        ("2 1 256 4", "0"),
        ("0 p", "R 0:4:0:16"),
        ("0 d", "R 2:4:32:16"),
        // Nor does area 1 outrank the erase that runs now.
        ("0 p", "R 2:4:32:16"),
        ("0 d", "R 1:2:16:4"),
        ("0 d", "R -"),
        ("10 1", "0 4 1 2 1 0"),
    ]);
}

#[test]
fn only_an_erase_gives_way() {
    check(&[
        ("1 0 0 4", "0"),
        ("0 p", "R 0:1:0:4"),
        ("2 1 256 4", "0"),
        ("0 p", "R 0:1:0:4"),
        ("0 d", "R 1:2:16:4"),
        ("0 d", "R -"),
        ("10 0", "0 4 2 0 0 0"),
        ("10 1", "0 4 1 0 1 0"),
    ]);
}

#[test]
fn next_piece_goes_on_over_the_erase() {
    check(&[
        ("4 0 0 16", "0"),
        ("0 p", "R 0:4:0:16"),
        ("2 1 256 8", "0"),
        ("0 p", "R 1:2:16:4"),
        ("0 d", "R 1:2:20:4"),
        ("0 d", "R 0:4:0:16"),
        ("0 d", "R -"),
        ("10 0", "0 16 2 2 0 0"),
        ("10 1", "0 8 2 0 0 0"),
    ]);
}

#[test]
fn two_jobs_over_one_erase() {
    check(&[
        ("4 0 0 16", "0"),
        ("0 p", "R 0:4:0:16"),
        ("2 1 256 4", "0"),
        ("0 p", "R 1:2:16:4"),
        ("2 2 512 8", "0"),
        ("0 d", "R 2:2:32:8"),
        ("0 d", "R 0:4:0:16"),
        ("0 d", "R -"),
        ("10 0", "0 16 2 2 0 0"),
        ("10 1", "0 4 1 0 0 0"),
        ("10 2", "0 8 1 0 0 0"),
    ]);
}

/// "One erase is parked per chip": what runs over it is not displaced, not even by area 2.
#[test]
fn piece_over_an_erase_does_not_give_way() {
    check(&[
        ("4 0 0 16", "0"),
        ("0 p", "R 0:4:0:16"),
        ("2 1 256 4", "0"),
        ("0 p", "R 1:2:16:4"),
        ("2 2 512 8", "0"),
        ("0 p", "R 1:2:16:4"),
        ("0 p", "R 1:2:16:4"),
        // Dropped, without a retry left; the erase still waits.
        ("0 p", "R 2:2:32:8"),
        ("0 d", "R 0:4:0:16"),
        ("10 1", "1 0 3 0 0 0"),
        ("10 2", "0 8 1 0 2 0"),
        ("10 0", "0 0 2 4 0 0"),
    ]);
}

#[test]
fn no_lock_while_an_erase_is_suspended() {
    check(&[
        ("4 0 0 16", "0"),
        ("0 p", "R 0:4:0:16"),
        ("2 1 256 4", "0"),
        ("0 p", "R 1:2:16:4"),
        ("7 2 512 4", "0"),
        ("0 d", "R 0:4:0:16"),
        ("0 p", "R 0:4:0:16"),
        ("0 d", "R L"),
        ("10 2", "0 0 0 0 2 0"),
        ("10 0", "0 16 3 1 0 0"),
    ]);
}

/// Below of area 2 is 2 (2 - 1): one round for the piece, one for the resumed erase.
#[test]
fn below_reaches_its_doubled_bound() {
    Bench::on(&plan_e(2)).run(&[
        ("4 0 0 16", "0"),
        ("0 p", "R 0:4:0:16"),
        ("2 1 256 4", "0"),
        ("0 p", "R 1:2:16:4"),
        ("4 2 512 16", "0"),
        ("0 p", "R 1:2:16:4"),
        ("0 d", "R 0:4:0:16"),
        ("10 2", "0 0 0 0 2 0"),
        ("0 d", "R 2:4:32:16"),
        ("0 d", "R -"),
        ("10 2", "0 16 1 0 2 0"),
    ]);
}

#[test]
fn cancel_of_a_suspended_erase() {
    check(&[
        ("4 0 0 16", "0"),
        ("0 p", "R 0:4:0:16"),
        ("2 1 256 4", "0"),
        ("0 p", "R 1:2:16:4"),
        ("9 0", "0"),
        ("10 0", "0 0 1 1 0 0"),
        // Its area has a job still.
        ("4 0 0 16", "11"),
        ("0 d", "R 0:4:0:16"),
        ("9 0", "0"),
        ("0 d", "R -"),
        ("10 0", "3 16 2 1 0 0"),
    ]);
}

#[test]
fn cancelled_erase_gives_way_too() {
    check(&[
        ("4 0 0 16", "0"),
        ("0 p", "R 0:4:0:16"),
        ("9 0", "0"),
        ("2 1 256 4", "0"),
        ("0 p", "R 1:2:16:4"),
        ("10 0", "0 0 1 1 0 0"),
        ("0 d", "R 0:4:0:16"),
        ("0 d", "R -"),
        ("10 0", "3 16 2 1 0 0"),
        ("10 1", "0 4 1 0 0 0"),
    ]);
}

/// The cancelled piece over the erase runs to its end; its job's next piece is none any more.
#[test]
fn erase_resumes_after_a_cancelled_piece() {
    check(&[
        ("4 0 0 16", "0"),
        ("0 p", "R 0:4:0:16"),
        ("2 1 256 8", "0"),
        ("0 p", "R 1:2:16:4"),
        ("9 1", "0"),
        ("0 d", "R 0:4:0:16"),
        ("10 1", "3 4 1 0 0 0"),
    ]);
}

/// "After each piece": a failed one that is due again goes on over the erase, unless a lock request
/// is the highest ranked ready job by then.
#[test]
fn retry_over_an_erase() {
    let begun =
        [("4 0 0 16", "0"), ("0 p", "R 0:4:0:16"), ("1 1 256 4", "0"), ("0 p", "R 1:1:16:4")];
    let mut bench = Bench::on(&plan_e(3));
    bench.run(&begun);
    bench.run(&[("0 2", "R 1:1:16:4"), ("0 0", "R 0:4:0:16"), ("10 1", "1 0 2 0 0 0")]);
    let mut bench = Bench::on(&plan_e(3));
    bench.run(&begun);
    bench.run(&[
        ("7 2 512 4", "0"),
        ("0 2", "R 0:4:0:16"),
        ("10 1", "0 0 1 0 1 0"),
        // The lock request gone, the retry suspends the erase again.
        ("9 2", "0"),
        ("0 p", "R 1:1:16:4"),
        ("0 d", "R 0:4:0:16"),
        ("0 d", "R -"),
        ("10 1", "0 4 2 0 1 0"),
        ("10 0", "0 16 3 2 0 0"),
        ("10 2", "3 0 0 0 1 0"),
    ]);
}

/// "The wait counts, in the wait book too, and job info take a parked erase as not running": request
/// fields are 0 until it resumes, with its polls.
#[test]
fn request_fields_of_a_suspended_erase() {
    let mut bench = Bench::on(&plan_e(3));
    let running = |polls| RequestInfo { device: 0, physical_address: 0, length: 16, polls };
    bench.run(&[("4 0 0 16", "0"), ("0 p", "R 0:4:0:16"), ("2 1 256 4", "0")]);
    assert_eq!(bench.request(0), running(0));
    bench.run(&[("0 p", "R 1:2:16:4")]);
    assert_eq!(bench.request(0), RequestInfo::default());
    bench.run(&[("0 p", "R 1:2:16:4"), ("0 d", "R 0:4:0:16")]);
    assert_eq!(bench.request(0), running(1));
}

/// Equal priorities are ranked by acceptance: the earlier job does not give way to the later.
#[test]
fn erase_gives_way_by_acceptance_among_equals() {
    let mut plan = plan_e(3);
    plan.areas.iter_mut().for_each(|area| area.priority = 4);
    Bench::on(&plan).run(&[
        ("4 0 0 16", "0"),
        ("0 p", "R 0:4:0:16"),
        ("2 1 256 4", "0"),
        ("0 p", "R 0:4:0:16"),
        ("0 d", "R 1:2:16:4"),
        ("10 1", "0 0 1 1 0 0"),
    ]);
}

/// A read that comes to the erase from another chip, accepted before the erase: it outranks it. The
/// first chip is of the other mark.
#[test]
fn earlier_job_from_another_chip_suspends() {
    let mut plan = plan_e(3);
    plan.areas.iter_mut().for_each(|area| area.priority = 4);
    let mut devices = [plan.devices[0]; 2];
    (devices[0].length, devices[0].chip) = (16, Chip::Plain);
    (devices[1].start, devices[1].length) = (16, 48);
    plan.devices = devices.to_vec();
    // Area 0 begins on device 0 and goes on behind the sub-area of area 1 on device 1.
    let mut second = plan.sub_areas[0];
    second.start = 48;
    plan.sub_areas[1].device = 1;
    plan.sub_areas[2] = second;
    plan.sub_areas[2].device = 1;
    plan.sub_areas.swap(1, 2);
    plan.areas.pop();
    Bench::on(&plan).run(&[
        ("2 0 12 8", "0"),
        ("4 1 256 16", "0"),
        ("0 p p", "R 0:2:12:4 1:4:16:16"),
        ("0 d p", "R - 0:2:48:4"),
        ("10 1", "0 0 1 1 0 0"),
        ("0 p d", "R - 1:4:16:16"),
        ("0 p d", "R - -"),
        ("10 0", "0 8 2 0 0 0"),
        ("10 1", "0 16 2 1 0 0"),
    ]);
}
