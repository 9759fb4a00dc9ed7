//! What came up in trials: shows, and lets tests assert, that no rule went untried.

use super::clearing::Clearing;
use super::suspensions::Suspensions;
use super::wear::Wear;
use crate::calls::Call;
use crate::histogram::Histogram;
use crate::jobs::JobResult;
use crate::plan::{Plan, MOST_AREAS};
use crate::segments::index;
use crate::wait_book::{Entry, Numbers, Station, WaitBook};
use std::collections::BTreeMap;
use std::fmt;

#[derive(Default)]
pub struct Tally {
    pub calls: u64,
    /// Accepted ones.
    pub rounds: u64,
    pub numbers: Histogram,
    /// How often jobs of a type ended with a result.
    pub endings: BTreeMap<(u8, u8), u64>,
    /// Rounds closed with a job waiting so: own, above, below, locked.
    pub waits: [u128; 4],
    /// Requests answered done, and failed ones that were due again.
    pub done_pieces: u64,
    pub retries: u64,
    /// Jobs that ended with an own, a below or an above other than 0 at its bound.
    pub own_bounds_reached: u64,
    pub below_bounds_reached: u64,
    pub above_bounds_reached: u64,
    /// Jobs and locks accepted for each area.
    pub acceptances: [u64; MOST_AREAS],
    pub equals: Equals,
    pub suspensions: Suspensions,
    pub clearing: Clearing,
    pub wear: Wear,
}

/// How often the order of acceptance decided between areas of equal priority.
#[derive(Clone, Copy, Debug, Default, PartialEq, Eq)]
pub struct Equals {
    /// A device took the higher number of two areas, and the lower.
    pub higher_taken: u64,
    pub lower_taken: u64,
    /// A lock was given before another's request, and a request started before another's lock.
    pub lock_taken: u64,
    pub lock_left: u64,
    /// A round closed with the running area above the waiting one, and below it.
    pub above: u64,
    pub below: u64,
}

impl Tally {
    pub fn add_call(&mut self, call: &Call, number: u8) {
        self.calls += 1;
        self.numbers.add(number);
        self.rounds += u64::from(number == 0 && matches!(call, Call::Round(_)));
        if let (0, Call::Job(_, target) | Call::Lock(target)) = (number, call) {
            self.acceptances[index(u64::from(target.area))] += 1;
        }
    }

    /// What a step did to an area's job.
    pub fn add_entry(&mut self, before: &Entry, after: &Entry, result: &JobResult) {
        if !before.is_pending {
            return;
        }
        let counts = |n: Numbers| [n.own, n.above, n.below, n.locked];
        let gains = counts(after.numbers).into_iter().zip(counts(before.numbers));
        for (sum, (after, before)) in self.waits.iter_mut().zip(gains) {
            *sum += after - before;
        }
        let is_next_piece = after.next > before.next;
        self.done_pieces += u64::from(is_next_piece);
        self.retries += u64::from(!is_next_piece && after.retries_left < before.retries_left);
        if let (false, Some(work)) = (after.is_pending, &after.work) {
            let ending = (work.job.job_type.number(), result.number());
            *self.endings.entry(ending).or_default() += 1;
        }
    }

    /// What an accepted round did between areas of equal priority. A job that needs a device and
    /// does not have it was passed over by whatever began there in this round; an erase that has
    /// resumed has polls and did not begin.
    pub fn add_equals(&mut self, plan: &Plan, before: &WaitBook, after: &WaitBook) {
        for device in 0..plan.devices.len() {
            let (area, has_begun) = match (before.station(device), after.station(device)) {
                (_, Station::Runs { area, polls, .. }) => (area, polls == 0),
                (Station::LockedFor(_), Station::LockedFor(_)) | (_, Station::Nothing) => continue,
                (_, Station::LockedFor(area)) => (area, true),
            };
            let priority = |area: usize| plan.areas[area].priority;
            for other in (0..plan.areas.len()).filter(|other| *other != area) {
                let waits = after.entry(other).needs() == Some(device);
                if waits && priority(other) == priority(area) {
                    self.equals.add_closed(before.entry(other), after.entry(other));
                    if has_begun {
                        self.equals.add_taken(after, area, other);
                    }
                }
            }
        }
    }

    /// A job ended with these numbers, own, below and above, each with its bound.
    pub fn add_bounds(&mut self, numbers: [(u128, u128); 3]) {
        let is_reached = |(number, bound): (u128, u128)| u64::from(number > 0 && number == bound);
        let [own, below, above] = numbers.map(is_reached);
        self.own_bounds_reached += own;
        self.below_bounds_reached += below;
        self.above_bounds_reached += above;
    }

    /// How often jobs ended with a result, over all types.
    pub fn results(&self, result: u8) -> u64 {
        let endings = self.endings.iter().filter(|((_, ended), _)| *ended == result);
        endings.map(|(_, count)| count).sum()
    }
}

impl Equals {
    /// A device took an area before another.
    fn add_taken(&mut self, book: &WaitBook, taken: usize, other: usize) {
        self.higher_taken += u64::from(taken > other);
        self.lower_taken += u64::from(taken < other);
        self.lock_taken += u64::from(book.entry(taken).is_lock());
        self.lock_left += u64::from(book.entry(other).is_lock());
    }

    /// A round closed in which an area waited for another.
    fn add_closed(&mut self, before: &Entry, after: &Entry) {
        self.above += u64::from(after.numbers.above > before.numbers.above);
        self.below += u64::from(after.numbers.below > before.numbers.below);
    }

    pub fn counts(&self) -> [(&'static str, u64); 6] {
        [
            ("the higher number taken", self.higher_taken),
            ("the lower number taken", self.lower_taken),
            ("a lock taken", self.lock_taken),
            ("a lock left", self.lock_left),
            ("above", self.above),
            ("below", self.below),
        ]
    }
}

impl fmt::Display for Tally {
    fn fmt(&self, f: &mut fmt::Formatter<'_>) -> fmt::Result {
        writeln!(f, "{} calls, {} accepted rounds", self.calls, self.rounds)?;
        writeln!(f, "numbers, {}", self.numbers.of("calls"))?;
        write!(f, "type/result:")?;
        for ((job_type, result), count) in &self.endings {
            write!(f, " {job_type}/{result}: {count}")?;
        }
        let [own, above, below, locked] = self.waits;
        writeln!(f)?;
        writeln!(f, "waits: own {own}, above {above}, below {below}, locked {locked}")?;
        writeln!(f, "pieces done: {}, retries: {}", self.done_pieces, self.retries)?;
        let (own, below) = (self.own_bounds_reached, self.below_bounds_reached);
        let above = self.above_bounds_reached;
        writeln!(f, "jobs at the bound on own: {own}, on below: {below}, on above: {above}")?;
        writeln!(f, "between equals:{}", listed(&self.equals.counts()))?;
        writeln!(f, "erases:{}", listed(&self.suspensions.counts()))?;
        writeln!(f, "writes with a byte of neither version:{}", listed(&self.clearing.counts()))?;
        write!(f, "wear, erases:{}", listed(&self.wear.counts()))
    }
}

fn listed(counts: &[(&str, u64)]) -> String {
    counts.iter().map(|(name, count)| format!(" {name}: {count}")).collect()
}
