//! Question 9, by the model's soundness test: states that no call leads to, made by hand and at random,
//! are refused by every call and left as they are; states that calls lead to never are.

use model::admission::furthest_window_end;
use model::calls::{Call, Query};
use model::jobs::{Answer, Job, JobType, Operation, Target};
use model::manager::{DeviceState, Manager, Request};
use model::plan::{Chip, Device, Plan};
use model::plans::{encode, plan_e, plan_t, with_chips};
use model::random::Random;
use model::segments::Piece;
use model::sessions::{bench_plan, steps, Step};

/// Every kind of call; areas, ranges and memory also wrong, so that 9 is seen to come first.
fn every_call() -> Vec<Call> {
    let mut calls: Vec<_> = [Answer::Pending, Answer::Done, Answer::Failed(1)]
        .map(|answer| Call::Round([answer; 4]))
        .to_vec();
    for (area, address, length) in [(0, 0, 4), (1, 256, 4), (1, 0, 0), (8, 0, 4)] {
        let target = Target { area, address, length };
        calls.extend(Operation::ALL.map(|operation| Call::Job(operation, target)));
        calls.extend([Call::Lock(target), Call::Release(target), Call::Cancel { area }]);
        let queries = [Query::Status, Query::Result, Query::Processed, Query::JobInfo];
        calls.extend(queries.map(|query| Call::Query(query, area)));
        let at_address = [Query::MemoryInfo(address), Query::WearInfo(address)];
        calls.extend(at_address.map(|query| Call::Query(query, area)));
    }
    calls
}

/// Image and store as the plan has them, and of other lengths.
fn memories(plan: &Plan) -> [(Vec<u8>, Vec<u8>); 2] {
    let sum = usize::try_from(plan.device_sum()).expect("an image");
    [(vec![0x5A; sum], vec![0xA5; furthest_window_end(plan)]), (vec![0x5A; sum + 1], vec![])]
}

/// Every call answers 9, and leaves manager, image and store.
fn assert_refused(name: &str, manager: &Manager) {
    for (image, store) in memories(manager.plan()) {
        for call in every_call() {
            let mut left = (manager.clone(), image.clone(), store.clone());
            let number = call.make(&mut left.0, &mut left.1, &mut left.2);
            assert_eq!(number, 9, "{name}: {call:?}");
            assert!(left == (manager.clone(), image.clone(), store.clone()), "{name}: {call:?}");
        }
    }
}

/// No call answers 9.
fn assert_sound(name: &str, manager: &Manager) {
    for (mut image, mut store) in memories(manager.plan()) {
        for call in every_call() {
            let number = call.make(&mut manager.clone(), &mut image, &mut store);
            assert_ne!(number, 9, "{name}: {call:?}");
        }
    }
}

fn round(manager: &mut Manager, answer: Answer) {
    let [(mut image, mut store), _] = memories(manager.plan());
    assert_eq!(manager.round([answer; 4], &mut image, &mut store), 0);
}

/// Plan T with a second device, on which no area lies.
fn loaded() -> Manager {
    let mut plan = plan_t();
    plan.devices.push(Device { start: 64, length: 64, patience: 2, chip: Chip::Plain });
    Manager::load(&encode(&plan)).expect("an accepted plan")
}

/// The first request of the printed session runs: `R 0:1:4:4`.
fn running() -> (Manager, Request) {
    let mut manager = loaded();
    assert_eq!(manager.job(Operation::Write, 0, 4, 12), 0);
    round(&mut manager, Answer::Pending);
    let piece = Piece { device: 0, start: 4, length: 4, retries: 1 };
    let request = Request { area: 0, operation: Operation::Write, piece, polls: 0 };
    assert_eq!(manager.device(0), DeviceState::Running(request));
    (manager, request)
}

/// The manager with this on a device.
fn with(mut manager: Manager, device: usize, state: DeviceState) -> Manager {
    manager.set_device(device, state, None);
    manager
}

#[test]
fn the_manager_of_all_zeros_is_not_sound() {
    assert_refused("all zeros", &Manager::default());
    assert_sound("fresh", &loaded());
}

#[test]
fn a_request_is_its_areas_next_piece() {
    let (manager, request) = running();
    let piece = request.piece;
    let second = Piece { start: 8, length: 8, ..piece };
    let wrong = [
        ("no such area", Request { area: 2, ..request }),
        ("no area at all", Request { area: usize::MAX, ..request }),
        ("an area that never had a job", Request { area: 1, ..request }),
        ("another operation", Request { operation: Operation::Erase, ..request }),
        ("the job's second piece", Request { piece: second, ..request }),
        ("a shorter piece", Request { piece: Piece { length: 3, ..piece }, ..request }),
        ("no bytes", Request { piece: Piece { length: 0, ..piece }, ..request }),
        ("past the image", Request { piece: Piece { start: 128, ..piece }, ..request }),
        ("polls at the limit", Request { polls: 2, ..request }),
        ("most polls", Request { polls: u16::MAX, ..request }),
    ];
    for (name, request) in wrong {
        assert_refused(name, &with(manager.clone(), 0, DeviceState::Running(request)));
    }
    let polled = DeviceState::Running(Request { polls: 1, ..request });
    assert_sound("one poll less than the limit", &with(manager, 0, polled));
}

#[test]
fn a_request_is_on_its_device() {
    let (manager, request) = running();
    let elsewhere = Request { piece: Piece { device: 1, ..request.piece }, ..request };
    for request in [request, elsewhere] {
        let both = with(manager.clone(), 1, DeviceState::Running(request));
        assert_refused("on both devices", &both);
        assert_refused("on the other device", &with(both, 0, DeviceState::Free));
    }
}

/// An ended job's data stays, and a lock request has no piece.
#[test]
fn idle_areas_and_lock_requests_have_no_request() {
    let (_, request) = running();
    let mut waiting = loaded();
    assert_eq!(waiting.job(Operation::Write, 0, 4, 12), 0);
    assert_sound("pending", &with(waiting.clone(), 0, DeviceState::Running(request)));
    assert_eq!(waiting.cancel(0), 0);
    assert_refused("cancelled", &with(waiting, 0, DeviceState::Running(request)));
    let mut locking = loaded();
    assert_eq!(locking.lock(0, 4, 12), 0);
    assert_refused("lock request", &with(locking, 0, DeviceState::Running(request)));
}

/// Area 1 of plan T with a job and a running request, both made by hand: the piece that the rule cuts
/// from the job, fit or not.
fn made(operation: Operation, range: (u32, u32), processed: u64, piece: (u64, u64)) -> Manager {
    let mut manager = loaded();
    let target = Target { area: 1, address: range.0, length: range.1 };
    manager.set_job(1, Job { job_type: JobType::Operation(operation), target }, processed);
    let piece = Piece { device: 0, start: piece.0, length: piece.1, retries: 0 };
    let request = Request { area: 1, operation, piece, polls: 0 };
    with(manager, 0, DeviceState::Running(request))
}

/// Each beside a job that differs in that alone and fits.
#[test]
fn a_request_has_its_bytes() {
    let write = |range, processed, piece| made(Operation::Write, range, processed, piece);
    assert_refused("past the device", &write((286, 4), 0, (62, 4)));
    assert_sound("to the end of the device", &write((284, 4), 0, (60, 4)));
    assert_refused("past the job", &write((256, 2), 0, (32, 4)));
    assert_sound("to the end of the job", &write((256, 4), 0, (32, 4)));
    assert_refused("past the window", &write((256, 20), 16, (48, 4)));
    assert_sound("to the end of the window", &write((256, 20), 12, (44, 4)));
    assert_sound("without a window", &made(Operation::Erase, (256, 32), 16, (48, 16)));
}

#[test]
fn locks_are_of_known_areas() {
    assert_refused("no such area", &with(loaded(), 1, DeviceState::Locked(2)));
    assert_sound("a known area", &with(loaded(), 1, DeviceState::Locked(1)));
}

/// On plan E: a read of area 2 runs over the erase of area 0.
fn suspending() -> (Manager, Request) {
    let mut manager = Manager::load(&encode(&plan_e(3))).expect("an accepted plan");
    assert_eq!(manager.job(Operation::Erase, 0, 0, 16), 0);
    round(&mut manager, Answer::Pending);
    assert_eq!(manager.job(Operation::Read, 2, 512, 8), 0);
    assert_eq!(manager.job(Operation::Write, 1, 256, 8), 0);
    round(&mut manager, Answer::Pending);
    let erase = manager.suspended(0).expect("a suspended erase");
    assert_eq!((erase.area, erase.operation, erase.polls), (0, Operation::Erase, 1));
    (manager, erase)
}

#[test]
fn a_suspended_erase_is_a_request_of_its_own() {
    let (manager, erase) = suspending();
    assert_sound("suspended", &manager);
    let page = Piece { start: 16, length: 4, retries: 1, ..erase.piece };
    let wrong = [
        ("no such area", Request { area: 3, ..erase }),
        ("another piece", Request { piece: page, ..erase }),
        ("polls at the limit", Request { polls: 3, ..erase }),
        ("a write", Request { area: 1, operation: Operation::Write, piece: page, polls: 0 }),
    ];
    for (name, request) in wrong {
        let mut manager = manager.clone();
        manager.set_device(0, manager.device(0), Some(request));
        assert_refused(name, &manager);
    }
    let mut twice = manager.clone();
    twice.set_device(0, DeviceState::Running(erase), Some(erase));
    assert_refused("one area runs and is suspended", &twice);
}

/// The same state on a chip that cannot suspend.
#[test]
fn no_erase_is_suspended_on_plain_chips() {
    let plan = with_chips(plan_e(3), Chip::Plain);
    let mut manager = Manager::load(&encode(&plan)).expect("an accepted plan");
    assert_eq!(manager.job(Operation::Erase, 0, 0, 16), 0);
    assert_eq!(manager.job(Operation::Read, 2, 512, 8), 0);
    round(&mut manager, Answer::Pending);
    assert_sound("a read runs", &manager);
    let (_, erase) = suspending();
    manager.set_device(0, manager.device(0), Some(erase));
    assert_refused("an erase is suspended", &manager);
}

/// What is made wrong at random, of a request or of its place.
#[derive(Clone, Copy, Debug)]
enum Wound {
    Area,
    Operation,
    Start,
    Length,
    Polls,
    Device,
    Twice,
    Place,
    Lock,
}

impl Wound {
    const ALL: [Wound; 9] = [
        Wound::Area,
        Wound::Operation,
        Wound::Start,
        Wound::Length,
        Wound::Polls,
        Wound::Device,
        Wound::Twice,
        Wound::Place,
        Wound::Lock,
    ];

    /// The request made wrong; none if the wound is one of its place.
    fn of(self, random: &mut Random, plan: &Plan, request: Request) -> Option<Request> {
        let Request { area, operation, piece, .. } = request;
        let others = Operation::ALL.map(|o| if o == operation { Operation::ALL[0] } else { o });
        let least = plan.devices[piece.device].patience;
        Some(match self {
            Wound::Area => Request { area: area + 1 + random.index(8), ..request },
            Wound::Operation => Request { operation: random.pick(&others), ..request },
            Wound::Start => Request { piece: Piece { start: piece.start + 1, ..piece }, ..request },
            Wound::Length => {
                Request { piece: Piece { length: piece.length + 1, ..piece }, ..request }
            }
            Wound::Polls => {
                Request { polls: least.saturating_add(random.pick(&[0, 1, 9])), ..request }
            }
            Wound::Device => {
                Request { piece: Piece { device: piece.device + 1, ..piece }, ..request }
            }
            Wound::Twice | Wound::Place | Wound::Lock => return None,
        })
    }

    /// The manager with the wound on a device, where that is one.
    fn deal(self, random: &mut Random, manager: &Manager, device: usize) -> Option<Manager> {
        let (plan, mut wounded) = (manager.plan(), manager.clone());
        let (state, suspended) = (manager.device(device), manager.suspended(device));
        let other = (device + 1) % plan.devices.len();
        match (self, state, suspended) {
            (Wound::Lock, DeviceState::Free, _) => {
                wounded.set_device(device, DeviceState::Locked(plan.areas.len()), None);
            }
            (Wound::Twice, DeviceState::Running(request), _) => {
                wounded.set_device(device, state, Some(request));
            }
            (Wound::Place, DeviceState::Running(_), _) if other != device => {
                wounded.set_device(other, state, manager.suspended(other));
            }
            (_, _, Some(erase)) if random.one_in(2) => {
                wounded.set_device(device, state, Some(self.of(random, plan, erase)?));
            }
            (_, DeviceState::Running(request), _) => {
                let request = self.of(random, plan, request)?;
                wounded.set_device(device, DeviceState::Running(request), suspended);
            }
            _ => return None,
        }
        Some(wounded).filter(|wounded| wounded != manager)
    }
}

/// A list of calls on a load; after each a look at the manager.
fn follow(plan: &Plan, steps: &[Step], mut look: impl FnMut(&Manager)) {
    let mut manager = Manager::load(&encode(plan)).expect("an accepted plan");
    let [(mut image, mut store), _] = memories(plan);
    for step in steps {
        let number = match step {
            Step::Call(call) => call.make(&mut manager, &mut image, &mut store),
            Step::RoundLent { answers, image_length, store_length } => {
                manager.round(*answers, &mut vec![0; *image_length], &mut vec![0; *store_length])
            }
            Step::Change { .. } => continue,
        };
        assert_ne!(number, 9, "{step:?}");
        look(&manager);
    }
}

/// "Every state reached from an accepted load passes it"; and one wound, and it does not.
#[test]
fn calls_lead_to_sound_states_and_wounds_do_not() {
    let mut random = Random::new(54);
    let mut dealt = [0u32; Wound::ALL.len()];
    let mut asked = 0u32;
    for _ in 0..400 {
        let plan = bench_plan(&mut random);
        let steps = steps(&mut random, &plan, 200);
        follow(&plan, &steps, |manager| {
            let areas = 0..u32::try_from(plan.areas.len()).expect("at most 8 areas");
            assert!(areas.clone().all(|area| manager.job_info(area).is_ok()));
            asked += 1;
            let (wound, device) = (random.index(dealt.len()), random.index(plan.devices.len()));
            let wounded = Wound::ALL[wound].deal(&mut random, manager, device);
            if let Some(wounded) = wounded.filter(|_| plan.device_sum() <= 1_024) {
                assert_refused(&format!("{:?} of {manager:?}", Wound::ALL[wound]), &wounded);
                dealt[wound] += 1;
            }
        });
    }
    println!("{asked} states, wounds dealt: {dealt:?} of {:?}", Wound::ALL);
    assert!(asked > 50_000 && dealt.iter().all(|count| *count > 200), "{asked} {dealt:?}");
}
