//! The model with the order of acceptance kept by another hand, mostly a wrong one.
//!
//! The keeper hears what happens to the jobs and gives each area a number; before a round goes on to
//! its second half, and after every line, the manager gets the order of these numbers.

use model::manager::{JobInfo, Manager};
use model::session::Session;
use model::subject::{Model, Subject};

#[derive(Clone, Copy)]
pub enum Event {
    Accepted {
        area: usize,
        is_lock: bool,
    },
    /// A job or lock call was not.
    Refused {
        area: usize,
    },
    /// A request failed and is due again.
    Retried {
        area: usize,
    },
    /// The request still runs.
    Cancelled {
        area: usize,
    },
    /// An erase gave way.
    Suspended {
        area: usize,
    },
    Ended,
}

/// The smaller number is above.
#[derive(Default)]
pub struct Places {
    pub numbers: [u64; 8],
    acceptances: u64,
}

pub type Keeper = fn(&mut Places, Event);

impl Places {
    /// The number that comes last.
    pub fn last(&mut self) -> u64 {
        self.acceptances += 1;
        self.acceptances
    }

    /// As the rules have it: an accepted job comes last, and nothing else moves any.
    pub fn keep(&mut self, event: Event) {
        if let Event::Accepted { area, .. } = event {
            self.numbers[area] = self.last();
        }
    }

    fn give(&self, manager: &mut Manager) {
        let mut order = manager.order();
        order.sort_by_key(|area| self.numbers[*area]);
        manager.reorder(&order);
    }
}

/// A session whose order is kept so.
pub fn session(
    keeper: Keeper,
    plan: &[u8],
    input: &[u8],
    image: &mut [u8],
    store: &mut [u8],
) -> Vec<u8> {
    let Ok(mut session) = Session::lent(plan, image.to_vec(), store.to_vec()) else {
        return Model.session(plan, input, image, store);
    };
    let mut places = Places::default();
    let mut output = Vec::new();
    for line in input.split_inclusive(|byte| *byte == b'\n') {
        for event in events_of_answers(&session, line) {
            keeper(&mut places, event);
        }
        places.give(&mut session.manager);
        let before = session.manager.clone();
        let answer = session.feed(line);
        for event in events_of_call(line, &answer, &before, &session.manager) {
            keeper(&mut places, event);
        }
        places.give(&mut session.manager);
        output.extend(answer);
    }
    output.extend(session.finish());
    image.copy_from_slice(&session.image);
    store.copy_from_slice(&session.store);
    output
}

/// What the first half of a round is going to do. No order changes it, so it can be seen before.
fn events_of_answers(session: &Session, line: &[u8]) -> Vec<Event> {
    let mut next = session.clone();
    if !line.starts_with(b"0") || !next.feed(line).starts_with(b"R") {
        return Vec::new();
    }
    let infos = |area: usize| (info(&session.manager, area), info(&next.manager, area));
    let is_retry = |area: &usize| {
        let (before, after) = infos(*area);
        let runs_on = after.request.length > 0 && after.request.polls == before.request.polls + 1;
        let is_suspended = suspended(&next.manager).contains(area);
        let is_done = after.processed > before.processed;
        before.request.length > 0 && !is_done && !runs_on && !is_suspended
    };
    let (pending, still_pending) = (session.manager.order(), next.manager.order());
    let retries = still_pending.iter().filter(|area| is_retry(area));
    let mut events: Vec<_> = retries.map(|area| Event::Retried { area: *area }).collect();
    let has_ended = |area: &usize| infos(*area).0.job_type != 7 && !still_pending.contains(area);
    events.extend(pending.iter().any(has_ended).then_some(Event::Ended));
    events
}

/// The areas whose erases are suspended.
fn suspended(manager: &Manager) -> Vec<usize> {
    let erases = (0..manager.plan().devices.len()).filter_map(|device| manager.suspended(device));
    erases.map(|erase| erase.area).collect()
}

/// What a line other than a round has done, and locks given and erases suspended by a round.
fn events_of_call(line: &[u8], answer: &[u8], before: &Manager, after: &Manager) -> Vec<Event> {
    let fields: Vec<_> = line.trim_ascii_end().split(|byte| *byte == b' ').map(number).collect();
    let is_pending = |manager: &Manager, area: usize| manager.order().contains(&area);
    let accepted = after.order().into_iter().find(|area| !is_pending(before, *area));
    let has_ended = before.order().into_iter().any(|area| {
        !is_pending(after, area) && (info(before, area).job_type == 7 || fields[0] == Some(9))
    });
    let event = match fields[..] {
        [Some(job_type @ 1..=7), Some(_), _, _] if accepted.is_some() => {
            accepted.map(|area| Event::Accepted { area, is_lock: job_type == 7 })
        }
        [Some(1..=7), Some(area), _, _] if answer == b"11\n" => Some(Event::Refused { area }),
        [Some(9), Some(area)] if is_pending(after, area) => Some(Event::Cancelled { area }),
        _ => has_ended.then_some(Event::Ended),
    };
    let mut suspended_now = suspended(after);
    suspended_now.retain(|area| !suspended(before).contains(area));
    let suspensions = suspended_now.into_iter().map(|area| Event::Suspended { area });
    event.into_iter().chain(suspensions).collect()
}

fn info(manager: &Manager, area: usize) -> JobInfo {
    manager.job_info(u32::try_from(area).expect("at most 8 areas")).expect("a known area")
}

fn number(field: &[u8]) -> Option<usize> {
    std::str::from_utf8(field).ok()?.parse().ok()
}
