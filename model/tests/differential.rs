//! The comparison of sessions itself, and of the queries when they are over: what its sessions try,
//! that it finds subjects that are wrong, and how small it makes what it finds.

mod mutants;

use model::answers::{self, cut, Answers, Place, Queried, Tried, Try, Worn};
use model::coverage::{BurstSize, BurstTest, Clearing, Coverage, Equals, Image, Kind, Marks};
use model::coverage::{PlanAnswer, Priorities, Sizes, Suspension, Wear, WearRecords};
use model::fuzz::{fuzz, Ending};
use model::manager::WearInfo;
use model::plan::Plan;
use model::plans::{encode, plan_e, plan_t, plan_w, with_wear};
use model::random::Random;
use model::script::{Lending, Script};
use model::shrink::{report, smallest};
use model::subject::{compare, play, Model, Subject};
use mutants::wear;
use std::path::Path;
use std::time::Duration;

const SESSIONS: u32 = 3_000;
const MOST_LINES: usize = 200;

/// The first difference in so many sessions.
fn first_difference(subject: &mut dyn Subject, seed: u64, sessions: u32) -> Option<Script> {
    let mut random = Random::new(seed);
    let mut scripts = (0..sessions).map(|_| Script::drawn(&mut random, MOST_LINES));
    scripts.find(|script| compare(subject, script).is_err())
}

#[test]
fn the_sessions_try_everything() {
    let mut random = Random::new(61);
    let mut coverage = Coverage::default();
    for _ in 0..SESSIONS {
        let script = Script::drawn(&mut random, MOST_LINES);
        let outcome = compare(&mut Model, &script).expect("the model is the model");
        coverage.add(&script, &outcome.output);
    }
    println!("{coverage}");
    assert_eq!(coverage.rarer_than(3), []);
    assert_order_is_tried(&coverage);
    assert_suspensions_are_tried(&coverage);
    assert_clearing_is_tried(&coverage);
    assert_sizes_are_tried(&coverage);
    assert_bursts_are_tried(&coverage);
    assert_wear_is_tried(&coverage);
    let at_bound = coverage.count(Kind::AboveAtBound);
    assert!(at_bound >= 100, "above at its bound: only {at_bound}");
}

/// On half of the plans or more the order of acceptance matters, and it decides often.
fn assert_order_is_tried(coverage: &Coverage) {
    let priorities = [Priorities::One, Priorities::Two, Priorities::More];
    let meetings = priorities.map(|priorities| coverage.count(Kind::Priorities(priorities)));
    let plans = coverage.count(Kind::Plan(PlanAnswer::Taken));
    assert!(2 * meetings.iter().sum::<u64>() >= plans, "{meetings:?} of {plans}");
    assert!(meetings.iter().all(|count| *count >= 100), "{meetings:?}");
    assert!(coverage.count(Kind::Busy) >= 10, "sessions with more than 300 jobs of every area");
    for equals in Equals::ALL {
        let count = coverage.count(Kind::Equals(equals));
        assert!(count >= 100, "{equals:?}: only {count}");
    }
}

/// Most plans have a device that can suspend, both marks often stand in one plan, and erases give way
/// often, in every manner.
fn assert_suspensions_are_tried(coverage: &Coverage) {
    let marks = [Marks::NoneSuspends, Marks::SomeSuspend, Marks::AllSuspend];
    let plans = marks.map(|marks| coverage.count(Kind::Marks(marks)));
    assert!(plans.iter().all(|count| *count >= 200), "{plans:?}");
    assert!(2 * plans[0] <= plans[1] + plans[2], "{plans:?}");
    for suspension in Suspension::ALL {
        let count = coverage.count(Kind::Suspension(suspension));
        let least = match suspension {
            Suspension::Suspended | Suspension::Resumed => 600,
            Suspension::BelowDoubled => 10,
            _ => 30,
        };
        assert!(count >= least, "{suspension:?}: only {count}");
    }
}

/// Half of the sessions or more begin with an image of any bytes, all three marks often stand in one
/// plan, and writes on chips that only clear bits end often, in every manner.
fn assert_clearing_is_tried(coverage: &Coverage) {
    let images = [Image::Blank, Image::Drawn].map(|image| coverage.count(Kind::Image(image)));
    assert!(images[0] >= 300 && images[0] <= images[1], "{images:?}");
    let all_marks = coverage.count(Kind::AllMarks);
    assert!(all_marks >= 200, "{all_marks}");
    for clearing in Clearing::ALL {
        let count = coverage.count(Kind::Clearing(clearing));
        let least = match clearing {
            Clearing::Done | Clearing::Failed | Clearing::DoneAgain | Clearing::FailedAgain => 600,
            _ => 100,
        };
        assert!(count >= least, "{clearing:?}: only {count}");
    }
}

/// A third of the plans or more have a burst that is no power of two, a third or more such a unit; on a
/// tenth or more every burst is a power of two.
fn assert_sizes_are_tried(coverage: &Coverage) {
    let plans = coverage.count(Kind::Plan(PlanAnswer::Taken));
    let count = |sizes: Sizes| coverage.count(Kind::Sizes(sizes));
    let counts = Sizes::ALL.map(count);
    assert!(3 * count(Sizes::OtherBurst) >= plans, "{counts:?} of {plans}");
    assert!(3 * count(Sizes::OtherUnit) >= plans, "{counts:?} of {plans}");
    assert!(10 * count(Sizes::PowerBursts) >= plans, "{counts:?} of {plans}");
    assert!(count(Sizes::BurstOf1) >= 100, "{counts:?} of {plans}");
}

/// How often bursts of a size were cut in each way.
fn burst_counts(coverage: &Coverage, size: BurstSize) -> [u64; 4] {
    BurstTest::ALL.map(|test| coverage.count(Kind::Burst(size, test)))
}

/// Bursts of both sizes are taken often and not taken often, and often so that a wrong mask would show.
fn assert_bursts_are_tried(coverage: &Coverage) {
    for size in BurstSize::ALL {
        let counts @ [taken, not_taken, says_yes, says_no] = burst_counts(coverage, size);
        assert!(taken >= 600 && not_taken >= 600, "{size:?}: {counts:?}");
        assert!(says_yes >= 200 && says_no >= 200, "{size:?}: {counts:?}");
    }
}

/// A quarter of the plans or more have no wear record, some and all; erases end often in every manner, in
/// sub-areas with a record and without, and often beyond the endurance.
fn assert_wear_is_tried(coverage: &Coverage) {
    let plans = coverage.count(Kind::Plan(PlanAnswer::Taken));
    let records = WearRecords::ALL.map(|records| coverage.count(Kind::WearRecords(records)));
    assert!(records.iter().all(|count| 4 * count >= plans), "{records:?} of {plans}");
    assert!(coverage.count(Kind::Plan(PlanAnswer::Refused(20))) >= 30);
    for wear in Wear::ALL {
        let count = coverage.count(Kind::Wear(wear));
        let least = match wear {
            Wear::DoneResumedCancelled => 30,
            Wear::DoneResumed | Wear::FailedResumed | Wear::DoneCancelled => 200,
            Wear::FailedCancelled => 200,
            _ => 600,
        };
        assert!(count >= least, "{wear:?}: only {count}");
    }
}

/// What a session on a plan tries.
fn coverage_of(plan: &Plan, lines: &[&str]) -> Coverage {
    let plan = encode(plan);
    let script = Script {
        lines: lines.iter().map(|line| line.as_bytes().to_vec()).collect(),
        is_last_ended: true,
        lending: Lending::bench(&plan),
        plan,
    };
    let mut coverage = Coverage::default();
    coverage.add(&script, &play(&mut Model, &script).output);
    coverage
}

/// Bursts that are powers of two, and others, in a session on a plan.
fn bursts_of(plan: &Plan, lines: &[&str]) -> [[u64; 4]; 2] {
    let coverage = coverage_of(plan, lines);
    BurstSize::ALL.map(|size| burst_counts(&coverage, size))
}

/// By hand. On plan T 4 at 4 and 8 at 8, which runs on and is tried again: 4 & 8 is 0, 8 & 8 is not. On plan
/// W a write of 4 at 16, 4 at 20 and 12 at 24: 16 & 11 and 20 & 11 are 0, 24 & 11 is not; and an erase of 12
/// at 12, 24 at 24 and 12 at 48, where too few bytes are left: 12 & 23 and 24 & 23 are not 0.
#[test]
fn burst_tests_are_counted() {
    let on_t = bursts_of(&plan_t(), &["1 0 4 12", "0 d", "0 d", "0 p", "0 0", "0 d"]);
    assert_eq!(on_t, [[2, 1, 1, 2], [0; 4]]);
    let write = bursts_of(&plan_w(), &["1 0 4 20", "0 d", "0 d", "0 d", "0 d"]);
    assert_eq!(write, [[0; 4], [1, 2, 2, 1]]);
    let erase = bursts_of(&plan_w(), &["4 0 0 48", "0 d", "0 d", "0 d", "0 d"]);
    assert_eq!(erase, [[0; 4], [1, 2, 0, 1]]);
    let read = bursts_of(&plan_w(), &["2 0 0 48", "0 d", "0 d", "0 d", "0 d"]);
    assert_eq!(read, [[0; 4]; 2]);
}

/// By hand, on plan E with a total endurance of 1 in the sub-area of area 0: an erase that is suspended and
/// then done, and one of a cancelled job, which is one too many; one that fails and one that is dropped; two
/// sectors of a sub-area without record. On plan T a burst of two sectors.
#[test]
fn wear_is_counted() {
    let suspended = ["4 0 0 16", "0 p", "2 1 256 4", "0 p", "0 d", "0 d"];
    let cancelled = ["4 0 0 16", "0 p", "9 0", "0 d"];
    let failed = ["4 1 256 16", "0 p", "0 5", "4 1 256 16", "0 p", "0 p", "0 p", "0 p"];
    let done = ["4 2 512 32", "0 p", "0 d", "0 d"];
    let lines = [&suspended[..], &cancelled, &failed, &done].concat();
    let on_e = coverage_of(&with_wear(plan_e(3), &[(0, 1)]), &lines);
    let counts = |coverage: &Coverage| {
        let counts = Wear::ALL.map(|wear| (wear, coverage.count(Kind::Wear(wear))));
        counts.into_iter().filter(|(_, count)| *count > 0).collect::<Vec<_>>()
    };
    let expected = [
        (Wear::Done, 4),
        (Wear::DoneResumed, 1),
        (Wear::DoneCancelled, 1),
        (Wear::Failed, 1),
        (Wear::Dropped, 1),
        (Wear::WithRecord, 2),
        (Wear::WithoutRecord, 2),
        (Wear::BeyondEndurance, 1),
    ];
    assert_eq!(counts(&on_e), expected);
    let on_t = coverage_of(&plan_t(), &["4 0 0 32", "0 p", "0 d"]);
    assert_eq!(
        counts(&on_t),
        [(Wear::Done, 1), (Wear::DoneOfSeveral, 1), (Wear::WithoutRecord, 1)]
    );
}

/// By hand, on plan T: area 1's write is one piece of 2 rounds at most, and area 0 waits for both of them, or for
/// one. When area 1 has ended, its job is no more among those above; cancelled before it starts, it takes none.
#[test]
fn above_at_its_bound_is_counted() {
    let count = |lines: &[&str]| coverage_of(&plan_t(), lines).count(Kind::AboveAtBound);
    let both = ["1 0 4 4", "1 1 256 4", "0 p", "0 p", "0 d"];
    assert_eq!(count(&[&both[..], &["10 0", "10 1"]].concat()), 1);
    assert_eq!(count(&["1 0 4 4", "1 1 256 4", "0 p", "0 d", "10 0", "10 1"]), 0);
    let ended = ["1 1 256 4", "0 p", "0 d"];
    assert_eq!(count(&[&ended[..], &both, &["10 0"]].concat()), 1);
    let cancelled = ["1 1 256 16", "9 1"];
    assert_eq!(count(&[&cancelled[..], &both, &["10 0"]].concat()), 1);
}

#[test]
fn every_mutant_is_found() {
    for (number, mut mutant) in (0..).zip(mutants::all().into_iter().chain(mutants::large())) {
        let found = first_difference(&mut mutant, 62 + number, SESSIONS);
        assert!(found.is_some(), "{} was not found", mutant.name);
    }
}

/// What is found of the mutants of the order, of those of erases that give way, of those of writes that
/// leave other bytes, and of those of jobs that are cut otherwise, is not owed to the way they are made.
#[test]
fn what_is_right_is_not_found() {
    let right_ones = [
        mutants::right_order(),
        mutants::no_flaw(),
        mutants::right_writes(),
        mutants::right_cuts(),
    ];
    for mut right in right_ones {
        let found = first_difference(&mut right, 62, SESSIONS / 4);
        assert_eq!(found, None, "{}", right.name);
    }
}

/// The first difference of answers in so many sessions, each cut after any line.
fn first_wrong_answer(subject: &dyn Queried, seed: u64, sessions: u32) -> Option<Script> {
    let mut random = Random::new(seed);
    let mut scripts = (0..sessions).map(|_| {
        let script = Script::drawn(&mut random, MOST_LINES);
        cut(&mut random, &script)
    });
    let mut tried = Tried::default();
    scripts.find(|script| answers::compare(subject, script, &mut tried).is_err())
}

/// Two fields exchanged, one left out, the request of another area and their like.
#[test]
fn every_wrong_answer_is_found() {
    for (number, mutant) in (0..).zip(mutants::queries::all()) {
        let found = first_wrong_answer(&mutant, 262 + number, SESSIONS);
        assert!(found.is_some(), "{} was not found", mutant.name);
    }
    for (number, mutant) in (0..).zip(wear::all()) {
        let found = first_wrong_answer(&mutant, 462 + number, SESSIONS);
        assert!(found.is_some(), "{} was not found", mutant.name);
    }
}

/// What is found of them is not owed to the way they are made.
#[test]
fn right_answers_are_not_found() {
    let right_ones: [&dyn Queried; 3] =
        [&mutants::queries::right_answers(), &wear::right_charges(), &wear::right_wear()];
    for (number, right) in (0..).zip(right_ones) {
        assert_eq!(first_wrong_answer(right, 262 + number, SESSIONS / 10), None);
    }
}

/// 65,535 erases of 65,536 sectors bring a sum to 4,294,901,760, one more to its limit, and there it stays.
#[test]
fn sums_stick_in_sessions() {
    let origin = Place { area: 0, address: 0 };
    let sums = [65_535, 65_536, 65_537].map(|erases| {
        let manager = answers::left_by(&Script::wearing_out(erases)).expect("an accepted plan");
        Answers::of(Some(&manager), origin).wear_info.value
    });
    // The limit is one less than 65,536 times 65,536: its share is less by 15.26 millionths.
    let stuck = WearInfo { sum: 4_294_967_295, charge: 65_535_999_985 };
    assert_eq!(sums, [WearInfo { sum: 4_294_901_760, charge: 65_535_000_000 }, stuck, stuck]);
}

#[test]
fn every_wrong_limit_is_found() {
    let script = Script::wearing_out(65_536);
    let is_found =
        |mutant: &dyn Queried| answers::compare(mutant, &script, &mut Tried::default()).is_err();
    for mutant in wear::of_limits() {
        assert!(is_found(&mutant), "{} was not found", mutant.name);
    }
    for mutant in wear::of_great_charges() {
        assert!(is_found(&mutant), "{} was not found", mutant.name);
    }
    assert!(!is_found(&wear::right_wear()));
}

/// What `tests/proved_queries.rs` rests on: the same sessions, asked of the model alone.
#[test]
fn the_queries_try_everything() {
    let mut random = Random::new(95);
    let (right, mut tried) = (wear::right_wear(), Tried::default());
    for _ in 0..SESSIONS / 3 {
        let script = Script::drawn(&mut random, MOST_LINES);
        for _ in 0..4 {
            let part = cut(&mut random, &script);
            assert!(answers::compare(&right, &part, &mut tried).is_ok(), "{part:?}");
        }
    }
    println!("{tried}");
    assert_eq!(tried.rarer_than(50), []);
    for worn in Worn::ALL {
        let count = tried.count(Try::Wear(worn));
        assert!(count >= 200, "{worn:?}: only {count}");
    }
}

/// What is found is made so small that a person sees what is wrong.
#[test]
fn what_is_found_is_made_small() {
    for (number, mut mutant) in (0..).zip(mutants::all()) {
        let script = first_difference(&mut mutant, 162 + number, SESSIONS).expect("found");
        let small = smallest(script, &mut |script| compare(&mut mutant, script).is_err());
        let difference = compare(&mut mutant, &small).expect_err("still different");
        println!("{}\n{}", mutant.name, report(&small, &difference));
        assert!(small.lines.len() <= 14, "{}: {small:?}", mutant.name);
        assert!(small.plan.len() <= 320, "{}: {small:?}", mutant.name);
    }
}

/// A run with ever new seeds ends with the time, or with a file that says all about a difference.
#[test]
fn fuzzing_ends_with_the_time_or_a_report() {
    let folder = Path::new(env!("CARGO_TARGET_TMPDIR")).join("differences");
    let run = |subject: &mut dyn Subject, milliseconds| {
        let time = Duration::from_millis(milliseconds);
        fuzz(subject, 71, time, &folder, &mut |_| {}).expect("a folder to write to")
    };
    match run(&mut Model, 200) {
        Ending::NoDifference(coverage) => assert!(coverage.lines > 0),
        Ending::Difference(file) => panic!("the model differs from itself: {file:?}"),
    }
    let Ending::Difference(file) = run(&mut mutants::all()[0], 60_000) else {
        panic!("not found in a minute");
    };
    let report = std::fs::read_to_string(file).expect("a report");
    for part in ["difference: ", "plan (hex): ", "input:\n", "of the model:\n", "found:\n"] {
        assert!(report.contains(part), "{report}");
    }
}
