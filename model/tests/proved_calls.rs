//! The loops of the timing library, in each of their forms, against the same loops on the model:
//! numbers, lengths, image and store, on plans of all kinds and with memory of wrong lengths; burst tests
//! on sizes and addresses of 64 bits, and pieces cut on plans of all kinds.
#![cfg(feature = "timing")]

use model::admission::furthest_window_end;
use model::histogram::Histogram;
use model::jobs::{Answer, JobType, Operation};
use model::loops::{self, Request};
use model::manager::Manager;
use model::plan;
use model::plans::{any, encode};
use model::proved::timing;
use model::random::Random;
use model::sessions::bench_plan;

const PLANS: u32 = 20_000;

fn drawn_plan(random: &mut Random) -> Vec<u8> {
    match random.below(8) {
        0 => any(random),
        _ => encode(&bench_plan(random)),
    }
}

fn drawn_operation(random: &mut Random) -> JobType {
    JobType::Operation(random.pick(&Operation::ALL))
}

fn drawn_length(random: &mut Random) -> u32 {
    random.pick(&[0, 1, 2, 3, 4, 6, 8, 8, 12, 16, 16, 24, 32, 64, u32::MAX])
}

fn drawn_request(random: &mut Random) -> Request {
    let operation = drawn_operation(random);
    Request {
        job_type: random.pick(&[operation, operation, operation, JobType::LockRequest]),
        length: drawn_length(random),
    }
}

fn drawn_answer(random: &mut Random) -> Answer {
    let k = random.pick(&[0, 1, 2, 5, u32::MAX - 2]);
    random.pick(&[Answer::Pending, Answer::Done, Answer::Done, Answer::Failed(k)])
}

/// The model's manager of a load. "A refused load returns the manager of all zeros", on which every call
/// answers 9.
fn loaded(plan: &[u8]) -> Manager {
    Manager::load(plan).unwrap_or_default()
}

#[test]
fn calls_in_loops() {
    let mut random = Random::new(91);
    for number in 0..PLANS {
        let plan = drawn_plan(&mut random);
        let (request, times) = (drawn_request(&mut random), random.below(40));
        let case = format!("plan {number}: {plan:02x?} {request:?} {times} times");
        let model = loops::cancels(&mut loaded(&plan), times);
        for cancels in timing::CANCELS.both() {
            assert_eq!(cancels.run(&plan, times), model, "cancels, {case}");
        }
        let model = loops::jobs(&mut loaded(&plan), request, times);
        for jobs in timing::JOBS.both() {
            assert_eq!(jobs.run(&plan, request, times), model, "jobs, {case}");
        }
        let model = loops::jobs_and_cancels(&mut loaded(&plan), request, times);
        let forms = [timing::JOBS_AND_CANCELS.both(), timing::GROWN_JOBS_AND_CANCELS.both()];
        for jobs in forms.into_iter().flatten() {
            assert_eq!(jobs.run(&plan, request, times), model, "jobs and cancels, {case}");
        }
        let mut begun = loaded(&plan);
        loops::begin(&mut begun, request);
        let model = loops::infos(&mut begun, times);
        assert_eq!(timing::INFOS.run(&plan, request, times), model, "infos, {case}");
    }
}

/// Lengths that fit the plan, and at times others; every byte drawn.
fn drawn_memory(random: &mut Random, plan: &[u8]) -> (Vec<u8>, Vec<u8>) {
    let (sum, end) = plan::load(plan).map_or((0, 0), |plan| {
        (usize::try_from(plan.device_sum()).expect("an image"), furthest_window_end(&plan))
    });
    let image_length = random.pick(&[sum, sum, sum, sum, sum, sum, sum + 1, sum.saturating_sub(1)]);
    let store_length = random.pick(&[end, end, end, end + 7, end.saturating_sub(1), 65_536]);
    let blank = random.one_in(2);
    let mut bytes = |length: usize| {
        (0..length).map(|_| if blank { 255 } else { random.byte() }).collect::<Vec<_>>()
    };
    (bytes(image_length), bytes(store_length))
}

/// The numbers of questions 9, 18 and 19 come up here as well: no line of a session that the bench runs
/// is refused by them.
#[test]
fn rounds_in_loops() {
    let mut random = Random::new(92);
    let mut numbers = Histogram::default();
    for number in 0..PLANS {
        let plan = drawn_plan(&mut random);
        if plan::load(&plan).is_ok_and(|plan| plan.device_sum() > 65_536) {
            continue;
        }
        let (request, answer) = (drawn_request(&mut random), drawn_answer(&mut random));
        let times = random.below(12);
        let lent = drawn_memory(&mut random, &plan);
        let mut manager = loaded(&plan);
        loops::begin(&mut manager, request);
        let (mut image, mut store) = lent.clone();
        let mut first = (manager.clone(), lent.clone());
        numbers.add(first.0.round([answer; 4], &mut first.1 .0, &mut first.1 .1));
        let model = loops::rounds(&mut manager, answer, times, &mut image, &mut store);
        let case = format!("plan {number}: {plan:02x?} {request:?} {answer:?} {times} times");
        let forms = [timing::ROUNDS.both(), timing::GROWN_ROUNDS.both()];
        for rounds in forms.into_iter().flatten() {
            let mut left = lent.clone();
            let sum = rounds.run(&plan, request, answer, times, &mut left.0, &mut left.1);
            assert_eq!(sum, model, "{case}");
            assert!(left.0 == image, "image of {case}");
            assert!(left.1 == store, "store of {case}");
        }
    }
    println!("{}", numbers.of("first rounds"));
    assert!([0, 9, 18, 19].iter().all(|number| numbers.count(*number) > 500), "{numbers}");
}

/// Powers of two and their neighbours, three times a power, small numbers, 0, 1 and the greatest.
fn drawn_size(random: &mut Random) -> u64 {
    let power = 1 << random.below(64);
    match random.below(12) {
        0..=4 => power,
        5 => power - 1,
        6 => power + 1,
        7..=8 => 3 << random.below(63),
        9..=10 => random.between(2, 100).into(),
        _ => random.pick(&[0, 1, u64::MAX]),
    }
}

/// 0, a multiple of the size, a neighbour of one, a multiple of half the size, or any.
fn drawn_address(random: &mut Random, size: u64) -> u64 {
    let most = u64::MAX.checked_div(size).unwrap_or(0);
    let times = most.min(random.bits() >> random.below(64));
    match random.below(12) {
        0 => 0,
        1..=5 => size * times,
        6 => (size * times).wrapping_add(1),
        7 => (size * times).wrapping_sub(1),
        8..=9 => size / 2 * times,
        _ => random.bits(),
    }
}

/// Lists of one pair too, so that no wrong answer is made up for by another.
#[test]
fn burst_tests_in_loops() {
    let mut random = Random::new(93);
    // Sizes that are no powers of two and those that are, with the answers no and yes of each.
    let mut answers = [[0; 2]; 2];
    for _ in 0..PLANS {
        let pairs = random.pick(&[1, 1, 2, 5, 40]);
        let mut sizes: Vec<_> = (0..pairs).map(|_| drawn_size(&mut random)).collect();
        let mut addresses: Vec<_> =
            sizes.iter().map(|size| drawn_address(&mut random, *size)).collect();
        match random.below(4) {
            0 => sizes.truncate(random.index(sizes.len() + 1)),
            1 => addresses.truncate(random.index(addresses.len() + 1)),
            _ => {}
        }
        for (size, address) in sizes.iter().zip(&addresses) {
            let answer = usize::from(address.is_multiple_of(*size));
            answers[usize::from(size.is_power_of_two())][answer] += 1;
        }
        let model = loops::burst_tests(&sizes, &addresses);
        assert_eq!(timing::burst_tests(&sizes, &addresses), model, "{sizes:?} {addresses:?}");
    }
    println!("no powers and powers, answers no and yes: {answers:?}");
    assert!(answers.iter().flatten().all(|count| *count >= 10_000), "{answers:?}");
}

/// The plan with its area 0 at logical address 0, where the cutting begins, and the area's size; as it is
/// and 0 if it is refused.
fn with_area_0_in_place(bytes: Vec<u8>) -> (Vec<u8>, u32) {
    match plan::load(&bytes) {
        Ok(mut plan) => {
            plan.areas[0].logical_start = 0;
            let size = u32::try_from(plan.area_size(0)).expect("an area lies in the image");
            (encode(&plan), size)
        }
        Err(_) => (bytes, 0),
    }
}

/// Of operations alone: a lock request has no pieces. Jobs that no area would accept are cut too: they
/// end inside a unit or beyond the area, or begin before it.
#[test]
fn cuts_in_loops() {
    let mut random = Random::new(94);
    let mut with_pieces = 0;
    for number in 0..PLANS {
        let drawn = drawn_plan(&mut random);
        let (in_place, size) = with_area_0_in_place(drawn.clone());
        let plan = if random.one_in(8) { drawn } else { in_place };
        let job_type = drawn_operation(&mut random);
        let lengths = [drawn_length(&mut random), size, size, size.saturating_sub(1), size + 1];
        let request = Request { job_type, length: random.pick(&lengths) };
        let times = random.below(80);
        let model = loops::cuts(loaded(&plan).plan(), request, times);
        let case = format!("plan {number}: {plan:02x?} {request:?} {times} times");
        assert_eq!(timing::CUTS.run(&plan, request, times), model, "{case}");
        let placed = loops::placed_cuts(loaded(&plan).plan(), request, times);
        assert_eq!(timing::PLACED_CUTS.run(&plan, request, times), placed, "placed, {case}");
        with_pieces += u32::from(model > 0 && placed > 0);
    }
    println!("{with_pieces} of {PLANS} jobs of more than one piece");
    assert!(2 * with_pieces >= PLANS, "{with_pieces} of {PLANS}");
}
