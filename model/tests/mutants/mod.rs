//! Subjects that are wrong on purpose: the model with its plan, its lines or its output changed on
//! the way, with another order of acceptance, with erases that give way wrongly, with writes that
//! leave other bytes, or with jobs that are cut otherwise; and answers to queries that are wrong
//! (`queries`), with another account of the wear among them (`wear`). The comparison must find each of them.

mod clearing;
mod cutting;
mod order;
pub mod queries;
mod suspension;
pub mod wear;
mod wear_records;

use clearing::{right_byte, stored_if};
use cutting::right_rule;
use model::jobs::Operation;
use model::manager::{DeviceState, Manager, Request};
use model::plan::{self, Chip, Plan};
use model::plans::encode;
use model::session::Session;
use model::subject::{Model, Subject};
use order::{Event, Places};
use suspension::Flaw;
use wear_records::{of_many_wear_records, of_unread_wear_records, of_wear_records};

/// From plan, input, image and store to the output.
type WrongSession = fn(&[u8], &[u8], &mut [u8], &mut [u8]) -> Vec<u8>;

pub struct Mutant {
    pub name: &'static str,
    session: WrongSession,
}

impl Subject for Mutant {
    fn session(
        &mut self,
        plan: &[u8],
        input: &[u8],
        image: &mut [u8],
        store: &mut [u8],
    ) -> Vec<u8> {
        (self.session)(plan, input, image, store)
    }
}

/// A session on the model whose lines another hand answers.
fn with_answers(
    plan: &[u8],
    input: &[u8],
    image: &mut [u8],
    store: &mut [u8],
    answer: impl Fn(&mut Session, &[u8]) -> String,
) -> Vec<u8> {
    let Ok(mut session) = Session::lent(plan, image.to_vec(), store.to_vec()) else {
        return Model.session(plan, input, image, store);
    };
    let mut output = Vec::new();
    for line in input.split_inclusive(|byte| *byte == b'\n') {
        let answer = answer(&mut session, line.strip_suffix(b"\n").unwrap_or(line));
        output.extend((answer + "\n").into_bytes());
    }
    image.copy_from_slice(&session.image);
    store.copy_from_slice(&session.store);
    output
}

/// Makes a mutant of a keeper of the order.
macro_rules! order_mutant {
    ($name:expr, $keeper:expr) => {
        Mutant {
            name: $name,
            session: |plan, input, image, store| order::session($keeper, plan, input, image, store),
        }
    };
}

pub fn all() -> Vec<Mutant> {
    let mut all = of_plans();
    all.extend(of_marks());
    all.extend(of_lines());
    all.extend(of_outputs());
    all.extend(of_memory());
    all.extend(of_order());
    all.extend(of_giving_way());
    all.extend(of_going_over());
    all.extend(of_suspended_polls());
    all.extend(of_suspended_jobs());
    all.extend(of_clearing());
    all.extend(of_cutting());
    all.extend(of_wear_records());
    all
}

/// Nothing that can be made small: wrong only after hundreds of acceptances, with more than 32 wear records,
/// or on plans that question 1 refuses.
pub fn large() -> Vec<Mutant> {
    let mut large = of_many_wear_records();
    large.extend(of_unread_wear_records());
    large.push(order_mutant!("acceptances are counted in a byte", |places, event| {
        if let Event::Accepted { area, .. } = event {
            places.numbers[area] = places.last() % 256;
        }
    }));
    large
}

/// No mutant: the order is kept by another hand, but as the rules have it.
pub fn right_order() -> Mutant {
    order_mutant!("the right order", Places::keep)
}

/// The plan with a change, where it can be loaded.
fn changed(plan: &[u8], change: fn(&mut Plan)) -> Vec<u8> {
    match plan::load(plan) {
        Ok(mut records) => {
            change(&mut records);
            encode(&records)
        }
        Err(_) => plan.to_vec(),
    }
}

/// Makes a mutant of a change to the plan.
macro_rules! plan_mutant {
    ($name:expr, $change:expr) => {
        Mutant {
            name: $name,
            session: |plan, input, image, store| {
                Model.session(&changed(plan, $change), input, image, store)
            },
        }
    };
}

fn of_plans() -> Vec<Mutant> {
    vec![
        plan_mutant!("one poll more than the patience", |p| p
            .devices
            .iter_mut()
            .for_each(|d| { d.patience = d.patience.saturating_add(1) })),
        plan_mutant!("no write retries", |p| p
            .sub_areas
            .iter_mut()
            .for_each(|s| s.write_retries = 0)),
        plan_mutant!("erases retried as often as writes", |p| p
            .sub_areas
            .iter_mut()
            .for_each(|s| s.erase_retries = s.write_retries)),
        plan_mutant!("all priorities equal", |p| p.areas.iter_mut().for_each(|a| a.priority = 0)),
        plan_mutant!("no page bursts", |p| p
            .sub_areas
            .iter_mut()
            .for_each(|s| s.page_burst = s.page)),
        plan_mutant!("no sector bursts", |p| p
            .sub_areas
            .iter_mut()
            .for_each(|s| s.sector_burst = s.sector)),
        plan_mutant!("reads of the smallest size", |p| p
            .sub_areas
            .iter_mut()
            .for_each(|s| s.largest_read = s.smallest_read)),
        plan_mutant!("windows without their last byte", |p| p
            .areas
            .iter_mut()
            .for_each(|a| a.window_length = a.window_length.saturating_sub(1))),
    ]
}

fn of_marks() -> Vec<Mutant> {
    vec![
        plan_mutant!("every chip suspends", |p| replace(p, Chip::Plain, Chip::Suspending)),
        plan_mutant!("chips that can suspend do not", |p| replace(
            p,
            Chip::Suspending,
            Chip::Plain
        )),
    ]
}

/// One chip in the place of another.
fn replace(plan: &mut Plan, one: Chip, other: Chip) {
    let devices = plan.devices.iter_mut().filter(|device| device.chip == one);
    devices.for_each(|device| device.chip = other);
}

/// The input with every line changed; ends stay.
fn with_lines(input: &[u8], change: impl Fn(&[u8]) -> Vec<u8>) -> Vec<u8> {
    let lines: Vec<_> = input.split(|byte| *byte == b'\n').map(change).collect();
    lines.join(&b'\n')
}

/// The line with every answer of a failed request changed.
fn with_failures(line: &[u8], k: &[u8]) -> Vec<u8> {
    let fields: Vec<_> = line.split(|byte| *byte == b' ').collect();
    let is_number = |field: &[u8]| !field.is_empty() && field.iter().all(u8::is_ascii_digit);
    let mut changed = fields.clone();
    if fields[0] == b"0" {
        changed.iter_mut().skip(1).filter(|field| is_number(field)).for_each(|field| *field = k);
    }
    changed.join(&b' ')
}

/// Makes a mutant of a change to every line.
macro_rules! line_mutant {
    ($name:expr, $change:expr) => {
        Mutant {
            name: $name,
            session: |plan, input, image, store| {
                Model.session(plan, &with_lines(input, $change), image, store)
            },
        }
    };
}

fn of_lines() -> Vec<Mutant> {
    vec![
        line_mutant!("failed requests have acted on nothing", |l| with_failures(l, b"0")),
        line_mutant!("failed requests have acted on all bytes", |l| with_failures(l, b"99999999")),
        line_mutant!("failed is pending", |l| with_failures(l, b"p")),
        line_mutant!("leading zeros are not read", |l| {
            let has_zero = |f: &[u8]| f.len() > 1 && f[0] == b'0';
            if l.split(|b| *b == b' ').any(has_zero) {
                b"?".to_vec()
            } else {
                l.to_vec()
            }
        }),
        line_mutant!("long lines are cut", |l| l[..l.len().min(4_096)].to_vec()),
        line_mutant!("lines of 4,096 bytes are too long", |l| {
            if l.len() == 4_096 {
                b"?".to_vec()
            } else {
                l.to_vec()
            }
        }),
        line_mutant!("carriage returns are dropped", |l| {
            l.iter().copied().filter(|b| *b != b'\r').collect()
        }),
        line_mutant!("tabs are spaces", |l| {
            l.iter().map(|b| if *b == b'\t' { b' ' } else { *b }).collect()
        }),
        line_mutant!("spaces at the end are dropped", |l| l.trim_ascii_end().to_vec()),
        line_mutant!("erases check for blank", |l| match l {
            [b'4', b' ', rest @ ..] => [b"6 ", rest].concat(),
            _ => l.to_vec(),
        }),
        Mutant {
            name: "a last line without its end is not read",
            session: |plan, input, image, store| {
                let end = input.iter().rposition(|byte| *byte == b'\n').map_or(0, |end| end + 1);
                Model.session(plan, &input[..end], image, store)
            },
        },
    ]
}

/// The output with every line changed.
macro_rules! output_mutant {
    ($name:expr, $change:expr) => {
        Mutant {
            name: $name,
            session: |plan, input, image, store| {
                with_lines(&Model.session(plan, input, image, store), $change)
            },
        }
    };
}

/// Info with two of its fields exchanged.
fn exchanged(line: &[u8], one: usize, other: usize) -> Vec<u8> {
    let mut fields: Vec<_> = line.split(|byte| *byte == b' ').collect();
    if fields.len() == 6 && fields[0] != b"R" {
        fields.swap(one, other);
    }
    fields.join(&b' ')
}

/// One number in the place of another.
fn replaced(line: &[u8], one: &[u8], other: &[u8]) -> Vec<u8> {
    if line == one { other } else { line }.to_vec()
}

fn of_outputs() -> Vec<Mutant> {
    vec![
        output_mutant!("above and below exchanged", |l| exchanged(l, 3, 4)),
        output_mutant!("own and locked exchanged", |l| exchanged(l, 2, 5)),
        output_mutant!("every job succeeds", |l| match l {
            [b'1' | b'2' | b'3', b' ', rest @ ..] => [b"0 ", rest].concat(),
            _ => l.to_vec(),
        }),
        output_mutant!("question 11 after 12", |l| replaced(l, b"11", b"12")),
        output_mutant!("cancels of idle areas accepted", |l| replaced(l, b"17", b"0")),
        output_mutant!("locks over two devices refused by 12", |l| replaced(l, b"15", b"12")),
        output_mutant!("releases by any area", |l| replaced(l, b"16", b"0")),
        output_mutant!("question 7 not asked of plans", |l| replaced(l, b"7", b"8")),
    ]
}

fn of_memory() -> Vec<Mutant> {
    vec![
        Mutant {
            name: "reads do not reach the store",
            session: |plan, input, image, store| {
                Model.session(plan, input, image, &mut store.to_vec())
            },
        },
        Mutant {
            name: "writes do not reach the image",
            session: |plan, input, image, store| {
                Model.session(plan, input, &mut image.to_vec(), store)
            },
        },
        Mutant {
            name: "rounds take any store",
            session: |plan, input, image, store| {
                let mut longer = store.to_vec();
                longer.resize(store.len().max(65_536), 0);
                let output = Model.session(plan, input, image, &mut longer);
                store.copy_from_slice(&longer[..store.len()]);
                output
            },
        },
    ]
}

/// The right order, but for one event.
macro_rules! moved_mutant {
    ($name:expr, $event:pat => $places:ident $move:block) => {
        order_mutant!($name, |$places, event| {
            $places.keep(event);
            if let $event = event $move
        })
    };
}

fn of_order() -> Vec<Mutant> {
    vec![
        moved_mutant!("the lower number is above", Event::Accepted { area, .. } => places {
            places.numbers[area] = u64::try_from(area).expect("at most 8 areas");
        }),
        moved_mutant!("the last come is above", Event::Accepted { area, .. } => places {
            places.numbers[area] = u64::MAX - places.numbers[area];
        }),
        moved_mutant!("a retry goes last", Event::Retried { area } => places {
            places.numbers[area] = places.last();
        }),
        moved_mutant!("a retry goes first", Event::Retried { area } => places {
            places.numbers[area] = 0;
        }),
        moved_mutant!("a cancelled job goes last", Event::Cancelled { area } => places {
            places.numbers[area] = places.last();
        }),
        moved_mutant!("a refused call goes last", Event::Refused { area } => places {
            places.numbers[area] = places.last();
        }),
        moved_mutant!("locks are first", Event::Accepted { area, is_lock: true } => places {
            places.numbers[area] = 0;
        }),
        moved_mutant!("locks are last", Event::Accepted { area, is_lock: true } => places {
            places.numbers[area] += u64::MAX / 2;
        }),
        moved_mutant!("with the end of a job the others go by number", Event::Ended => places {
            for area in 0..places.numbers.len() {
                places.numbers[area] = places.last();
            }
        }),
        order_mutant!("an area keeps the place of its first job", |places, event| {
            match event {
                Event::Accepted { area, .. } if places.numbers[area] > 0 => {}
                _ => places.keep(event),
            }
        }),
    ]
}

/// Makes a mutant of a flaw in how erases give way.
macro_rules! flaw_mutant {
    ($name:expr, $flaw:expr) => {
        Mutant {
            name: $name,
            session: |plan, input, image, store| {
                suspension::session($flaw, plan, input, image, store)
            },
        }
    };
}

/// No mutant: the rounds go by their halves, and nothing steps in.
pub fn no_flaw() -> Mutant {
    flaw_mutant!("no flaw", Flaw::Stays(|_| false))
}

/// Which running requests give way, and to whom.
fn of_giving_way() -> Vec<Mutant> {
    vec![
        flaw_mutant!(
            "a lock request suspends",
            Flaw::GivesWay(|scene, ready| {
                scene.may_give_way() && ready.is_highest && ready.outranks && ready.is_lock()
            })
        ),
        flaw_mutant!(
            "an erase suspends an erase",
            Flaw::GivesWay(|scene, ready| {
                scene.may_give_way() && ready.is_highest && ready.outranks && ready.is_erase()
            })
        ),
        flaw_mutant!(
            "any request gives way",
            Flaw::GivesWay(|scene, ready| {
                let gives_way = scene.chip.can_suspend() && !scene.is_suspended;
                gives_way && ready.is_highest && ready.outranks && ready.is_other()
            })
        ),
        flaw_mutant!(
            "an erase gives way to lower ranks",
            Flaw::GivesWay(|scene, ready| {
                scene.may_give_way() && ready.is_highest && ready.is_other()
            })
        ),
        flaw_mutant!(
            "locks and erases are passed over",
            Flaw::GivesWay(|scene, ready| {
                scene.may_give_way() && ready.outranks && ready.is_other()
            })
        ),
        flaw_mutant!(
            "a cancelled erase does not give way",
            Flaw::Stays(|scene| { scene.may_give_way() && scene.is_cancelled })
        ),
    ]
}

/// What goes on over a suspended erase.
fn of_going_over() -> Vec<Mutant> {
    vec![
        flaw_mutant!(
            "a lock is given while an erase is suspended",
            Flaw::GivesWay(|scene, ready| {
                scene.is_suspended && ready.is_highest && ready.outranks && ready.is_lock()
            })
        ),
        flaw_mutant!(
            "an erase goes over a suspended erase",
            Flaw::GivesWay(|scene, ready| {
                scene.is_suspended && ready.is_highest && ready.outranks && ready.is_erase()
            })
        ),
        flaw_mutant!(
            "lower ranks go over a suspended erase",
            Flaw::GivesWay(|scene, ready| {
                scene.is_suspended && ready.is_highest && ready.is_other()
            })
        ),
        flaw_mutant!(
            "the erase resumes after every piece",
            Flaw::Closed(|before, after, device| {
                if let [Some(_), Some(erase), Some(Request { polls: 0, .. })] =
                    round_of(before, after, device)
                {
                    after.set_device(device, DeviceState::Running(erase), None);
                }
            })
        ),
    ]
}

/// What is suspended on a device before a round and after it, and what runs then.
fn round_of(before: &Manager, after: &Manager, device: usize) -> [Option<Request>; 3] {
    let running = match after.device(device) {
        DeviceState::Running(request) => Some(request),
        DeviceState::Free | DeviceState::Locked(_) => None,
    };
    [before.suspended(device), after.suspended(device), running]
}

/// Gives a suspended erase other polls.
fn set_polls(manager: &mut Manager, device: usize, erase: Request, polls: u16) {
    manager.set_device(device, manager.device(device), Some(Request { polls, ..erase }));
}

fn of_suspended_polls() -> Vec<Mutant> {
    vec![
        flaw_mutant!(
            "polls are lost at the suspension",
            Flaw::Closed(|before, after, device| {
                if let [None, Some(erase), _] = round_of(before, after, device) {
                    set_polls(after, device, erase, 0);
                }
            })
        ),
        flaw_mutant!(
            "the round that suspends gives no poll",
            Flaw::Closed(|before, after, device| {
                if let [None, Some(erase), _] = round_of(before, after, device) {
                    set_polls(after, device, erase, erase.polls - 1);
                }
            })
        ),
        flaw_mutant!(
            "suspended erases are polled",
            Flaw::Closed(|before, after, device| {
                // One poll is left to it: with none the manager is not sound, and 9 alone would tell.
                let last = after.plan().devices[device].patience - 1;
                if let [Some(_), Some(erase), _] = round_of(before, after, device) {
                    set_polls(after, device, erase, last.min(erase.polls + 1));
                }
            })
        ),
        flaw_mutant!(
            "the resume gives a poll",
            Flaw::Closed(|before, after, device| {
                if let [Some(_), None, Some(erase)] = round_of(before, after, device) {
                    let polled = Request { polls: erase.polls + 1, ..erase };
                    after.set_device(device, DeviceState::Running(polled), None);
                }
            })
        ),
    ]
}

fn of_suspended_jobs() -> Vec<Mutant> {
    vec![
        flaw_mutant!(
            "a cancel ends a suspended erase",
            Flaw::Cancelled(|manager, device, area| {
                let is_of = |erase: Request| u32::try_from(erase.area) == Ok(area);
                if manager.suspended(device).is_some_and(is_of) {
                    manager.set_device(device, manager.device(device), None);
                }
            })
        ),
        flaw_mutant!("the area of a suspended erase counts own", Flaw::CountsOwn),
        moved_mutant!("a suspended erase goes last", Event::Suspended { area } => places {
            places.numbers[area] = places.last();
        }),
    ]
}

/// Makes a mutant of what answers a line by a rule.
macro_rules! answer_mutant {
    ($answer:path, $name:expr, $rule:expr) => {
        Mutant {
            name: $name,
            session: |plan, input, image, store| {
                with_answers(plan, input, image, store, |session, line| {
                    $answer(session, line, $rule)
                })
            },
        }
    };
}

/// Of what a write leaves in the place of a byte.
macro_rules! byte_mutant {
    ($name:expr, $leaves:expr) => {
        answer_mutant!(clearing::answer, $name, $leaves)
    };
}

/// No mutant: what writes leave is worked out by another hand, but as the rules have it.
pub fn right_writes() -> Mutant {
    byte_mutant!("the right writes", right_byte)
}

/// What writes leave on chips that only clear bits and on others.
fn of_clearing() -> Vec<Mutant> {
    vec![
        byte_mutant!("chips that only clear bits store", |write| write.window),
        byte_mutant!("failed writes store", |write| stored_if(write.is_failed, write)),
        byte_mutant!("failed writes store before a retry", |write| {
            stored_if(write.is_failed && write.is_pending, write)
        }),
        byte_mutant!("failed writes of cancelled jobs store", |write| {
            stored_if(write.is_failed && write.is_cancelled, write)
        }),
        byte_mutant!("every chip clears", |write| write.old & write.window),
        byte_mutant!("bits are set where they should be cleared", |write| match write.chip {
            Chip::Clearing => write.old | write.window,
            Chip::Plain | Chip::Suspending => write.window,
        }),
        flaw_mutant!(
            "chips that only clear bits do not suspend",
            Flaw::Stays(|scene| scene.may_give_way() && scene.chip.only_clears())
        ),
    ]
}

/// Of a rule by which writes and erases are cut.
macro_rules! cut_mutant {
    ($name:expr, $rule:expr) => {
        answer_mutant!(cutting::answer, $name, $rule)
    };
}

/// No mutant: the burst test is made by another hand, but as the rules have it.
pub fn right_cuts() -> Mutant {
    cut_mutant!("the right cuts", right_rule)
}

/// When a piece is a burst.
fn of_cutting() -> Vec<Mutant> {
    vec![
        cut_mutant!("page bursts of any size are masked", |due| match due.operation {
            Operation::Write => due.is_0_under(due.burst - 1),
            _ => right_rule(due),
        }),
        cut_mutant!("sector bursts of any size are masked", |due| match due.operation {
            Operation::Erase => due.is_0_under(due.burst - 1),
            _ => right_rule(due),
        }),
        cut_mutant!("powers of two are masks themselves", |due| {
            if due.burst.is_power_of_two() {
                due.is_0_under(due.burst)
            } else {
                right_rule(due)
            }
        }),
        cut_mutant!("bursts that are no powers of two are not taken", |due| {
            due.burst.is_power_of_two() && right_rule(due)
        }),
        cut_mutant!("bursts are tested on the logical address", |due| {
            due.logical.is_multiple_of(due.burst)
        }),
        cut_mutant!("bursts that are multiples of the address", |due| {
            due.burst.is_multiple_of(due.physical)
        }),
        cut_mutant!("the last burst is not taken", |due| due.left > due.burst && right_rule(due)),
    ]
}
