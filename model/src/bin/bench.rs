//! Times the model and the proved library on the same work in one run, in nanoseconds of one
//! operation, with the ratios to the model: of calls that take the manager by value and of an owner that
//! holds it and writes back what a call changes. Where the library has one form, the other column is
//! empty.

use model::jobs::{Answer, JobType, Operation};
use model::loops::{self, Request};
use model::manager::Manager;
use model::plan::{self, Chip, Plan, DEVICE_SUM_LIMIT};
use model::plans::{encode, enduring, largest, plan_w, with_chips, with_sizes};
use model::proved;
use model::proved::timing::{self, CancelLoop, Forms, JobLoop, RoundLoop};
use model::race::{race, Runner};
use model::random::Random;
use std::hint::black_box;

#[cfg(feature = "session")]
use model::{
    plans::{full_that_stores, plan_t},
    proved::session::Library,
    script::{Lending, Script},
    sessions::lines,
    subject::{play, Model, Outcome},
};

fn main() {
    let forms = format!("{:>12} {:>8}", "by value ns", "ratio");
    println!("{:<44} {:>10} {forms} {:>12} {:>8}", "", "model ns", "in place ns", "ratio");
    loads();
    calls();
    cuts();
    rounds();
    growth();
    #[cfg(feature = "session")]
    sessions();
    grown();
}

/// A time and its ratio to another, or nothing where there is none.
fn column(time: Option<f64>, to: f64) -> String {
    time.map_or(format!("{:>21}", ""), |time| format!("{time:>12.1} {:>8.2}", time / to))
}

fn report(name: &str, model: f64, by_value: Option<f64>, in_place: Option<f64>) {
    let forms = format!("{} {}", column(by_value, model), column(in_place, model));
    println!("{name:<44} {model:>10.1} {forms}");
}

/// Where the library has one form.
fn report_form(name: &str, operations: u32, model: Runner<'_>, proved: Runner<'_>) {
    let [model, by_value] = race(operations, [model, proved]);
    report(name, model, Some(by_value), None);
}

/// The three race in one run.
fn report_forms(name: &str, operations: u32, model: Runner<'_>, forms: [Runner<'_>; 2]) {
    let [by_value, in_place] = forms;
    let [model, by_value, in_place] = race(operations, [model, by_value, in_place]);
    report(name, model, Some(by_value), Some(in_place));
}

const LOADS: u32 = 2_000;

fn loads() {
    load("load, accepted", 0, &encode(&largest()));
    load("load, refused by question 1", 1, &cut_short(&largest()));
    load("load, refused by question 8", 8, &encode(&last_two_overlap(largest())));
}

/// Refused only behind the last whole record.
fn cut_short(plan: &Plan) -> Vec<u8> {
    let mut bytes = encode(plan);
    bytes.pop();
    bytes
}

/// Refused only by the last two sub-areas of the last device.
fn last_two_overlap(mut plan: Plan) -> Plan {
    plan.sub_areas[31].start = plan.sub_areas[27].start;
    plan
}

fn load(name: &str, number: u8, bytes: &[u8]) {
    assert_eq!(plan::load(bytes).err().unwrap_or(0), number, "{name}");
    let sum =
        |load: &dyn Fn(&[u8]) -> u8| (0..LOADS).map(|_| u64::from(load(black_box(bytes)))).sum();
    let model = |bytes: &[u8]| black_box(plan::load(bytes)).err().unwrap_or(0);
    let proved = |bytes: &[u8]| black_box(proved::load(bytes)).number;
    report_form(name, LOADS, &mut || sum(&model), &mut || sum(&proved));
}

const CALLS: u32 = 200_000;

/// The model's manager of a plan, beside the bytes that the library loads.
struct Peer {
    bytes: Vec<u8>,
    manager: Manager,
}

impl Peer {
    fn of(plan: &Plan) -> Peer {
        let bytes = encode(plan);
        let manager = Manager::load(&bytes).expect("an accepted plan");
        Peer { bytes, manager }
    }

    /// With a job asked of each area.
    fn begun(plan: &Plan, request: Request) -> Peer {
        let mut peer = Peer::of(plan);
        loops::begin(&mut peer.manager, request);
        peer
    }
}

fn request(operation: Operation, length: u32) -> Request {
    Request { job_type: JobType::Operation(operation), length }
}

/// Calls on the plan with most records.
fn calls() {
    let peer = Peer::of(&largest());
    let mut model = || loops::cancels(&mut peer.manager.clone(), CALLS);
    let run = |cancels: CancelLoop| cancels.run(&peer.bytes, CALLS);
    let Forms { by_value, in_place } = timing::CANCELS;
    let forms: [Runner<'_>; 2] = [&mut || run(by_value), &mut || run(in_place)];
    report_forms("cancel, refused by question 17", CALLS, &mut model, forms);
    job("write, refused by question 11", &peer, request(Operation::Write, 16));
    job("write, refused by question 12", &peer, request(Operation::Write, 0));
    job("write, refused by question 14", &peer, request(Operation::Write, 20));
    for operation in Operation::ALL {
        job_and_cancel(&peer, operation);
    }
    info();
}

/// Of all these jobs at most the first on each area is accepted.
fn job(name: &str, peer: &Peer, request: Request) {
    let mut model = || loops::jobs(&mut peer.manager.clone(), request, CALLS);
    report_jobs(name, peer, request, timing::JOBS, &mut model);
}

fn job_and_cancel(peer: &Peer, operation: Operation) {
    let request = request(operation, 16);
    let mut model = || loops::jobs_and_cancels(&mut peer.manager.clone(), request, CALLS);
    assert_eq!(model(), 0, "all are accepted");
    let name = format!("{operation:?} accepted, and its cancel");
    report_jobs(&name, peer, request, timing::JOBS_AND_CANCELS, &mut model);
}

fn report_jobs(name: &str, peer: &Peer, request: Request, jobs: Forms<JobLoop>, model: Runner<'_>) {
    let run = |jobs: JobLoop| jobs.run(&peer.bytes, request, CALLS);
    let forms: [Runner<'_>; 2] = [&mut || run(jobs.by_value), &mut || run(jobs.in_place)];
    report_forms(name, CALLS, model, forms);
}

fn info() {
    let request = request(Operation::Write, 16);
    let peer = Peer::begun(&largest(), request);
    let mut model = || loops::infos(&mut peer.manager.clone(), CALLS);
    let mut proved = || timing::INFOS.run(&peer.bytes, request, CALLS);
    report_form("job info", CALLS, &mut model, &mut proved);
}

/// Few enough for the nearer caches, and too many to be foreseen from the turn before.
const BURST_TESTS: u32 = 16_384;

/// The burst test alone, and the cutting of a segment with it.
fn cuts() {
    let power: SizeDraw = |random| 1 << random.between(1, 16);
    let other: SizeDraw = |random| {
        let size = random.between(3, 65_535);
        size + u32::from(size.is_power_of_two())
    };
    burst_test("burst test, powers of two", [power; 2]);
    burst_test("burst test, no powers of two", [other; 2]);
    burst_test("burst test, both mixed", [power, other]);
    let others = with_sizes(largest(), &plan_w().sub_areas[0]);
    // What a segment costs without a burst test is that of a read.
    let kinds = [
        ("burst a power of two", largest(), Operation::Write),
        ("burst no power of two", others, Operation::Write),
        ("a read", largest(), Operation::Read),
    ];
    for (name, plan, operation) in &kinds {
        placed_segment(&format!("segment cut, {name}"), plan, *operation);
    }
    for (name, plan, operation) in &kinds {
        segment(&format!("lookup and cut, {name}"), plan, *operation);
    }
}

/// A size above 1 and up to 65,536.
type SizeDraw = fn(&mut Random) -> u32;

fn burst_test(name: &str, draws: [SizeDraw; 2]) {
    let mut random = Random::new(2);
    let mut pair = |_| {
        let size = random.pick(&draws)(&mut random);
        (u64::from(size), u64::from(address(&mut random, size)))
    };
    let (sizes, addresses): (Vec<_>, Vec<_>) = (0..BURST_TESTS).map(&mut pair).unzip();
    let mut model = || loops::burst_tests(&sizes, &addresses);
    let mut proved = || timing::burst_tests(&sizes, &addresses);
    report_form(name, BURST_TESTS, &mut model, &mut proved);
}

/// An address on a device, half of the time a multiple of the size.
fn address(random: &mut Random, size: u32) -> u32 {
    let multiple = size * random.below(DEVICE_SUM_LIMIT / size);
    multiple + if random.one_in(2) { 0 } else { random.between(1, size - 1) }
}

/// The segments of a job over a whole sub-area, whose place is known, again and again.
fn placed_segment(name: &str, plan: &Plan, operation: Operation) {
    let request = request(operation, length(plan.sub_areas[0].size()));
    let peer = Peer::of(plan);
    let mut model = || loops::placed_cuts(peer.manager.plan(), request, CALLS);
    let mut proved = || timing::PLACED_CUTS.run(&peer.bytes, request, CALLS);
    report_form(name, CALLS, &mut model, &mut proved);
}

/// The segments of a job over the whole of area 0, again and again.
fn segment(name: &str, plan: &Plan, operation: Operation) {
    let request = request(operation, length(plan.area_size(0)));
    let peer = Peer::of(plan);
    let mut model = || loops::cuts(peer.manager.plan(), request, CALLS);
    let mut proved = || timing::CUTS.run(&peer.bytes, request, CALLS);
    report_form(name, CALLS, &mut model, &mut proved);
}

/// The length of a job over so many bytes.
fn length(size: impl TryInto<u32>) -> u32 {
    size.try_into().ok().expect("they lie in the image")
}

/// Fewer than the bytes of a job, so that no job ends.
const ROUNDS: u32 = 8_000;
const JOB_LENGTH: u32 = 8_192;
const STORE_LENGTH: usize = 65_536;

/// Rounds on the plan with most records, all four devices busy.
fn rounds() {
    let plan = enduring(4, 8, 32);
    round("round, 4 writes pending", &plan, Operation::Write, Answer::Pending);
    round("round, 4 erases pending", &plan, Operation::Erase, Answer::Pending);
    let suspending = with_chips(plan.clone(), Chip::Suspending);
    let name = "round, 4 erases pending, chips can suspend";
    round(name, &suspending, Operation::Erase, Answer::Pending);
    for operation in Operation::ALL {
        let name = format!("round, 4 requests of {operation:?} done");
        round(&name, &plan, operation, Answer::Done);
    }
    let clearing = with_chips(plan, Chip::Clearing);
    round("round, 4 writes done, chips only clear bits", &clearing, Operation::Write, Answer::Done);
}

/// Image and store are all 255, so that no compare or blank check finds a difference.
fn memory(plan: &Plan) -> (Vec<u8>, Vec<u8>) {
    let image_length = usize::try_from(plan.device_sum()).expect("an image");
    (vec![255; image_length], vec![255; STORE_LENGTH])
}

fn round(name: &str, plan: &Plan, operation: Operation, answer: Answer) {
    let request = request(operation, JOB_LENGTH);
    let peer = Peer::begun(plan, request);
    let (mut image, mut store) = memory(plan);
    let mut model = || {
        let mut manager = peer.manager.clone();
        loops::rounds(&mut manager, answer, ROUNDS, &mut image, &mut store)
    };
    let mut by_value = round_runner(timing::ROUNDS.by_value, plan, request, answer);
    let mut in_place = round_runner(timing::ROUNDS.in_place, plan, request, answer);
    report_forms(name, ROUNDS, &mut model, [&mut by_value, &mut in_place]);
}

/// A loop of the library on memory of its own.
fn round_runner(
    rounds: RoundLoop,
    plan: &Plan,
    request: Request,
    answer: Answer,
) -> impl FnMut() -> u64 {
    let (bytes, (mut image, mut store)) = (encode(plan), memory(plan));
    move || rounds.run(&bytes, request, answer, ROUNDS, &mut image, &mut store)
}

/// How the cost of a round grows with the records of the plan, from one of each kind on.
fn growth() {
    let counts = [
        [1, 1, 1],
        [1, 1, 8],
        [1, 1, 32],
        [1, 2, 32],
        [1, 4, 32],
        [1, 8, 32],
        [2, 8, 32],
        [3, 8, 32],
        [4, 8, 32],
    ];
    for [devices, areas, sub_areas] in counts {
        let name = format!("round, {devices} devices, {areas} areas, {sub_areas} sub-areas");
        round(&name, &enduring(devices, areas, sub_areas), Operation::Read, Answer::Done);
    }
}

/// The bench's sessions as the tests draw them, but for damaged lines of many bytes.
#[cfg(feature = "session")]
fn sessions() {
    const LINES: usize = 20_000;
    let mut random = Random::new(1);
    for (name, plan) in [("plan T", plan_t()), ("most records", full_that_stores(&mut random))] {
        let mut lines: Vec<_> = lines(&mut random, &plan, LINES);
        lines.retain(|line| line.text.len() < 100);
        let script = Script {
            plan: encode(&plan),
            lending: Lending::bench(&encode(&plan)),
            lines: lines.into_iter().map(|line| line.text).collect(),
            is_last_ended: true,
        };
        let count = u32::try_from(script.lines.len()).expect("so many lines");
        let bytes = |outcome: Outcome| outcome.output.iter().map(|byte| u64::from(*byte)).sum();
        let runners: [Runner<'_>; 2] =
            [&mut || bytes(play(&mut Model, &script)), &mut || bytes(play(&mut Library, &script))];
        let [model, in_place] = race(count, runners);
        report(&format!("line of a session, {name}"), model, None, Some(in_place));
        let per_second = |nanoseconds: f64| 1e9 / nanoseconds;
        let (model, proved) = (per_second(model), per_second(in_place));
        println!("{:<44} {model:>10.0} {:>21} {proved:>12.0}", "    lines per second", "");
    }
}

/// What a larger manager costs: the same work on one with 6 KB more, and the ratio to the plain one.
fn grown() {
    println!();
    let forms = format!("{:>12} {:>10} {:>8}", "by value ns", "grown ns", "ratio");
    let header = "manager grown by 6 KB";
    println!("{header:<44} {forms} {:>12} {:>10} {:>8}", "in place ns", "grown ns", "ratio");
    let (bytes, write) = (encode(&largest()), request(Operation::Write, 16));
    let run = |jobs: JobLoop| jobs.run(&bytes, write, CALLS);
    let (plain, grown) = (timing::JOBS_AND_CANCELS, timing::GROWN_JOBS_AND_CANCELS);
    let by_value: [Runner<'_>; 2] = [&mut || run(plain.by_value), &mut || run(grown.by_value)];
    let in_place: [Runner<'_>; 2] = [&mut || run(plain.in_place), &mut || run(grown.in_place)];
    report_grown("Write accepted, and its cancel", CALLS, by_value, in_place);
    grown_round("round, 4 writes pending", Answer::Pending);
    grown_round("round, 4 requests of Write done", Answer::Done);
}

fn grown_round(name: &str, answer: Answer) {
    let (plan, write) = (enduring(4, 8, 32), request(Operation::Write, JOB_LENGTH));
    let runner = |rounds: RoundLoop| round_runner(rounds, &plan, write, answer);
    let (plain, grown) = (timing::ROUNDS, timing::GROWN_ROUNDS);
    let by_value: [Runner<'_>; 2] = [&mut runner(plain.by_value), &mut runner(grown.by_value)];
    let in_place: [Runner<'_>; 2] = [&mut runner(plain.in_place), &mut runner(grown.in_place)];
    report_grown(name, ROUNDS, by_value, in_place);
}

/// Each form plain and grown; the four race in one run.
fn report_grown(name: &str, operations: u32, by_value: [Runner<'_>; 2], in_place: [Runner<'_>; 2]) {
    let ([plain, grown], [plain_in_place, grown_in_place]) = (by_value, in_place);
    let times = race(operations, [plain, grown, plain_in_place, grown_in_place]);
    let column =
        |plain: f64, grown: f64| format!("{plain:>12.1} {grown:>10.1} {:>8.2}", grown / plain);
    println!("{name:<44} {} {}", column(times[0], times[1]), column(times[2], times[3]));
}
