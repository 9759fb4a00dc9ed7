//! The three demands after every call of long random runs, and the bounds of demand 3 reached.

use model::calls::Call;
use model::demands::{Tally, Trial};
use model::jobs::{Answer, Operation, Target};
use model::plan::{Area, Chip, Device, Plan, SubArea};
use model::plans::{draw_marks, draw_wear, equals_meet, largest, priority_count, small, valid};
use model::plans::{plan_e, plan_f, plan_t, plan_v, plan_w};
use model::random::Random;
use model::sessions::{busy_calls, busy_plan, steps, Step};
use std::time::Instant;

const STEPS_PER_PLAN: usize = 400;

/// Bytes of any value in more than half of the cases, else of two values or of one.
fn memory(random: &mut Random, length: usize) -> Vec<u8> {
    match random.below(9) {
        0..=4 => random.bytes(length),
        5..=6 => (0..length).map(|_| random.pick(&[0, 255])).collect(),
        7 => vec![0; length],
        _ => vec![255; length],
    }
}

/// A trial with random memory; the store goes beyond the furthest window end. One in four begins worn out.
fn trial(random: &mut Random, plan: &Plan) -> Trial {
    let sum = usize::try_from(plan.device_sum()).expect("an image");
    let end = plan.areas.iter().map(|area| area.window().end).max().expect("an area");
    let store_length = usize::try_from(end).expect("a store") + random.index(4) + 1;
    let (image, store) = (memory(random, sum), memory(random, store_length));
    let mut trial = Trial::of(plan, image, store);
    if random.one_in(4) {
        // A few sectors before the limit of every sum.
        for sub_area in 0..plan.sub_areas.len() {
            trial.wear_out(sub_area, 4_294_967_295 - random.below(8));
        }
    }
    trial
}

/// Takes the steps and stops at the first that breaks a demand.
fn run(trial: &mut Trial, steps: &[Step], tally: &mut Tally, name: &str) {
    for (number, step) in steps.iter().enumerate() {
        if let Err(failure) = trial.take(step, tally) {
            let plan = trial.manager().plan();
            panic!("{name}, step {number}: {failure}\n{plan:?}\n{:#?}", &steps[..=number]);
        }
    }
}

/// Random runs over plans of one kind.
fn runs(seed: u64, plans: u32, plan: fn(&mut Random) -> Plan) -> Tally {
    let mut random = Random::new(seed);
    let mut tally = Tally::default();
    // Plans on which the order of acceptance matters, of one priority, of two and of more.
    let mut meetings = [0; 3];
    // Images that begin with bytes of any value.
    let mut drawn_images = 0;
    let start = Instant::now();
    for number in 0..plans {
        let plan = plan(&mut random);
        if equals_meet(&plan) {
            meetings[priority_count(&plan).min(3) - 1] += 1;
        }
        let steps = steps(&mut random, &plan, STEPS_PER_PLAN);
        let name = format!("seed {seed}, plan {number}");
        let mut trial = trial(&mut random, &plan);
        drawn_images += u32::from(trial.image().iter().any(|byte| !matches!(byte, 0 | 255)));
        run(&mut trial, &steps, &mut tally, &name);
    }
    let seconds = start.elapsed().as_secs_f64();
    let per_second = |count: u64| count as f64 / seconds;
    let (calls, rounds) = (per_second(tally.calls), per_second(tally.rounds));
    println!(
        "seed {seed}, {plans} plans, per second {calls:.0} calls, {rounds:.0} rounds\n{tally}\n\
         areas of equal priority meet: {meetings:?}, images of any bytes: {drawn_images}\n"
    );
    assert!(2 * drawn_images >= plans, "{drawn_images} of {plans}");
    assert!(2 * meetings.iter().sum::<u32>() >= plans, "{meetings:?} of {plans}");
    assert!(meetings.iter().all(|count| *count >= 100), "{meetings:?}");
    tally
}

/// Every number, result and kind of wait came up at least so often, every type of job with every
/// result that it can have, and both bounds were reached.
fn assert_tried(tally: &Tally, often: u64) {
    for number in std::iter::once(0).chain(10..=19) {
        let count = tally.numbers.count(number);
        assert!(count >= often, "number {number}: only {count}");
    }
    let jobs = [1, 2, 3, 4, 6].into_iter();
    let endings = jobs.flat_map(|job_type| [0, 1, 3].map(|result| (job_type, result)));
    for ending in endings.chain([(3, 2), (6, 2), (7, 0), (7, 3)]) {
        let count = tally.endings.get(&ending).copied().unwrap_or(0);
        assert!(count >= often, "type and result {ending:?}: only {count}");
    }
    assert_eq!(tally.endings.len(), 19, "{:?}", tally.endings);
    for (wait, count) in ["own", "above", "below", "locked"].iter().zip(tally.waits) {
        assert!(count >= u128::from(often), "{wait}: only {count}");
    }
    let bounds = [tally.own_bounds_reached, tally.below_bounds_reached, tally.above_bounds_reached];
    assert!(bounds.iter().all(|reached| *reached >= often), "{bounds:?}");
    for (name, count) in tally.suspensions.counts() {
        assert!(count >= often / 4, "erases, {name}: only {count}");
    }
    for (name, count) in tally.clearing.counts() {
        assert!(count >= often / 4, "writes with a byte of neither version, {name}: only {count}");
    }
    for (name, count) in tally.wear.counts() {
        assert!(count >= often / 4, "erases, {name}: only {count}");
    }
    // Below is rare between equals: the busy lists try it.
    for (name, count) in tally.equals.counts().into_iter().filter(|(name, _)| *name != "below") {
        assert!(count >= often, "between equals, {name}: only {count}");
    }
}

#[test]
fn small_plans() {
    assert_tried(&runs(51, 9_000, small), 1_000);
}

/// Longer jobs on plans T, W, V, E and F, on the plan with most records, and on random plans with little
/// patience.
#[test]
fn other_plans() {
    let plan = |random: &mut Random| match random.below(16) {
        0 => random.pick(&[plan_t, plan_w])(),
        1 => random.pick(&[plan_e, plan_f])(random.pick(&[2, 3, 5])),
        2..=5 => plan_v(),
        6 => largest(),
        7 => {
            let mut plan = largest();
            draw_marks(random, &mut plan);
            draw_wear(random, &mut plan);
            plan
        }
        _ => impatient(random),
    };
    let tally = runs(52, 4_000, plan);
    assert!(tally.suspensions.counts().iter().all(|(_, count)| *count >= 50));
    assert!(tally.clearing.counts().iter().all(|(_, count)| *count >= 100));
    assert!(tally.wear.counts().iter().all(|(_, count)| *count >= 100));
    assert!((0..=3).all(|result| tally.results(result) >= 1_000));
    assert!(tally.waits.iter().all(|count| *count >= 1_000));
}

/// "the bounds hold with it": lists in which every area has more than 300 jobs and locks accepted,
/// and in which areas of equal priority stand above and below each other.
#[test]
fn busy_lists() {
    let mut random = Random::new(53);
    let (mut sums, mut suspended, mut wear) = ([0; 6], 0, [0; 11]);
    for number in 0..24 {
        let plan = busy_plan(&mut random);
        let calls = busy_calls(&mut random, &plan);
        let steps: Vec<_> = calls.into_iter().map(Step::Call).collect();
        let mut tally = Tally::default();
        run(&mut trial(&mut random, &plan), &steps, &mut tally, &format!("busy list {number}"));
        let acceptances = &tally.acceptances[..plan.areas.len()];
        println!("{} priorities, acceptances {acceptances:?}\n{tally}\n", priority_count(&plan));
        assert!(acceptances.iter().all(|count| *count > 300), "{acceptances:?}");
        let counts = tally.equals.counts().map(|(_, count)| count);
        sums.iter_mut().zip(counts).for_each(|(sum, count)| *sum += count);
        suspended += tally.suspensions.suspended;
        let counts = tally.wear.counts().map(|(_, count)| count);
        wear.iter_mut().zip(counts).for_each(|(sum, count)| *sum += count);
    }
    println!("between equals: {sums:?}, erases suspended: {suspended}, wear: {wear:?}");
    assert!(sums.iter().all(|sum| *sum >= 100), "{sums:?}");
    assert!(suspended >= 50, "{suspended}");
}

/// A random valid plan with an image that is not too large to be looked at after every call.
fn impatient(random: &mut Random) -> Plan {
    loop {
        let mut plan = valid(random);
        if plan.device_sum() <= 4_096 {
            for device in &mut plan.devices {
                device.patience = device.patience.min(5);
            }
            return plan;
        }
    }
}

/// Device 0 of patience 3 and device 1 of patience 4. Area 0, the highest, has 8 bytes on device 0,
/// 4 on device 1 and 4 on device 0 again: three stretches. Area 1 lies on device 0, area 2 on 1.
fn three_stretches() -> Plan {
    let sub_area = |area, device, start, sector_count, write_retries| SubArea {
        area,
        device,
        start,
        sector: 4,
        sector_burst: 4,
        page: 4,
        page_burst: 4,
        smallest_read: 4,
        largest_read: 4,
        sector_count,
        write_retries,
        erase_retries: 0,
    };
    let area = |priority, window_start| Area {
        priority,
        logical_start: 0,
        window_start,
        window_length: 16,
    };
    Plan {
        devices: vec![
            Device { start: 0, length: 32, patience: 3, chip: Chip::Plain },
            Device { start: 32, length: 32, patience: 4, chip: Chip::Plain },
        ],
        areas: vec![area(9, 0), area(1, 16), area(1, 32)],
        sub_areas: vec![
            sub_area(0, 0, 0, 2, 2),
            sub_area(0, 1, 32, 1, 1),
            sub_area(0, 0, 8, 1, 0),
            sub_area(1, 0, 16, 1, 0),
            sub_area(2, 1, 48, 1, 0),
        ],
        wear_records: Vec::new(),
    }
}

/// The same with a device 0 of this chip, which can suspend, and an area 3 on it, between area 0 and
/// area 1.
fn three_stretches_that_suspend(chip: Chip) -> Plan {
    let mut plan = three_stretches();
    plan.devices[0].chip = chip;
    plan.areas.push(Area { priority: 5, window_start: 48, ..plan.areas[0] });
    plan.sub_areas.push(SubArea { area: 3, start: 20, ..plan.sub_areas[3] });
    plan
}

fn job(operation: Operation, area: u32, length: u32) -> Step {
    Step::Call(Call::Job(operation, Target { area, address: 0, length }))
}

fn write(area: u32, length: u32) -> Step {
    job(Operation::Write, area, length)
}

fn round(device_0: Answer, device_1: Answer) -> Step {
    Step::Call(Call::Round([device_0, device_1, Answer::Done, Answer::Done]))
}

/// Runs the steps on fresh memory and gives own and below of area 0, which must have succeeded, with
/// their bounds.
fn bounds_after(plan: &Plan, steps: &[Step]) -> [(u128, u128); 2] {
    let mut trial = Trial::of(plan, vec![255; 64], vec![0; 64]);
    run(&mut trial, steps, &mut Tally::default(), "bounds");
    let info = trial.manager().job_info(0).expect("area 0");
    assert_eq!((info.result, info.processed), (0, 16));
    let entry = trial.book().entry(0);
    assert!(entry.round_ended_it);
    let work = entry.work.as_ref().expect("a job");
    let bounds = (trial.book().own_bound(work), trial.book().below_bound(work));
    [(entry.numbers.own, bounds.0), (entry.numbers.below, bounds.1)]
}

/// Every attempt but the last of each piece is dropped, and the last is done when one more poll
/// would have dropped it.
fn slowest_success() -> Vec<Step> {
    let (p, d) = (Answer::Pending, Answer::Done);
    let mut steps = vec![write(0, 16), round(p, p)];
    for (patience, retries) in [(3, 2), (3, 2), (4, 1), (3, 0)] {
        let polls = patience * (retries + 1) - 1;
        steps.extend((0..polls).map(|_| round(p, p)));
        steps.push(round(d, d));
    }
    steps
}

/// At the start of each stretch a lower request has just begun, and is never answered.
fn slowest_others() -> Vec<Step> {
    let (p, d) = (Answer::Pending, Answer::Done);
    let mut steps = vec![write(1, 4), round(p, p), write(0, 16)];
    // Two rounds below, then area 0 starts on device 0 and gets through its first piece.
    steps.extend([round(p, p), round(p, p), round(p, p), round(d, p)]);
    // Area 2 starts before area 0 comes to device 1: three rounds below.
    steps.extend([write(2, 4), round(p, p), round(d, p), round(p, p), round(p, p), round(p, p)]);
    // Area 1 starts before area 0 comes back to device 0: two rounds below.
    steps.extend([write(1, 4), round(p, p), round(p, d), round(p, p), round(p, p), round(d, p)]);
    steps
}

/// The same where device 0 can suspend: area 0 erases, so that nothing gives way to it.
fn slowest_others_that_suspend() -> Vec<Step> {
    let (p, d) = (Answer::Pending, Answer::Done);
    let (erase, read) = (job(Operation::Erase, 1, 4), job(Operation::Read, 3, 4));
    // The read suspends the erase before area 0 has a job there.
    let suspension = [erase, round(p, p), read, round(p, p)];
    // Two rounds below for the read, two for the erase that resumes with one poll.
    let wait = [round(p, p), round(p, p), round(d, p), round(p, p), round(d, p)];
    let mut steps = suspension.to_vec();
    steps.push(job(Operation::Erase, 0, 16));
    steps.extend(wait.clone());
    // Area 2 starts before area 0 comes to device 1, which suspends nothing: three rounds below.
    steps.extend([write(2, 4), round(d, p), round(d, p), round(p, p), round(p, p), round(p, p)]);
    // Both are there before area 0 comes back to device 0: its piece is done in the first of the
    // rounds.
    steps.extend(suspension);
    steps.push(round(p, d));
    steps.extend(wait.into_iter().skip(1));
    steps.push(round(d, p));
    steps
}

#[test]
fn both_bounds_are_reached() {
    let [own, _] = bounds_after(&three_stretches(), &slowest_success());
    assert_eq!(own, (9 + 9 + 8 + 3, 29));
    let [_, below] = bounds_after(&three_stretches(), &slowest_others());
    assert_eq!(below, (2 + 3 + 2, 7));
}

/// On plan T, by hand. Area 1 ranks above and takes all that its write of four pieces can, 2 rounds each,
/// before area 0 starts; and when area 0 has its first piece done, all that its next write can.
#[test]
fn bound_on_above_is_reached() {
    let job = |area, address, length| {
        Step::Call(Call::Job(Operation::Write, Target { area, address, length }))
    };
    let (p, d) = (round(Answer::Pending, Answer::Pending), round(Answer::Done, Answer::Done));
    // The first round starts a piece, and so does each that answers done.
    let write: Vec<_> = std::iter::repeat_n([p.clone(), d.clone()], 4).flatten().collect();
    let mut trial = Trial::of(&plan_t(), vec![255; 64], vec![0; 32]);
    let mut take = |steps: &[Step]| {
        run(&mut trial, steps, &mut Tally::default(), "above");
        (trial.book().entry(0).numbers.above, trial.above_bound(0))
    };
    assert_eq!(take(&[job(0, 4, 12)]), (0, 0));
    assert_eq!(take(&[job(1, 256, 16)]), (0, 8));
    assert_eq!(take(&[p]), (1, 8));
    assert_eq!(take(&write), (8, 8));
    // Area 0's first piece runs.
    assert_eq!(take(&[job(1, 256, 16)]), (8, 16));
    assert_eq!(take(std::slice::from_ref(&d)), (9, 16));
    assert_eq!(take(&write), (16, 16));
    assert_eq!(take(&[d]), (16, 16));
    assert!(trial.book().entry(0).round_ended_it);
}

/// "On such chips the bound on rounds below becomes twice (patience less one) per stretch": on those
/// that only clear bits too.
#[test]
fn doubled_bound_is_reached() {
    for chip in [Chip::Suspending, Chip::Clearing] {
        let plan = three_stretches_that_suspend(chip);
        let [_, below] = bounds_after(&plan, &slowest_others_that_suspend());
        assert_eq!(below, (2 * 2 + 3 + 2 * 2, 11));
    }
}
