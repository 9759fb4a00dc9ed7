//! The three demands, checked after every step of a list of calls.
//!
//! A trial makes every call twice, of the manager and of the wait book, and holds the one against
//! the other. What the book says is not taken from the manager: it has a state of its own and is
//! asked before the manager is called.

mod above;
mod clearing;
mod memory;
mod suspensions;
mod tally;
mod wear;

pub use clearing::Clearing;
pub use suspensions::Suspensions;
pub use tally::Tally;
pub use wear::Wear;

use crate::admission;
use crate::calls::{Call, Query};
use crate::jobs::{Answer, JobResult};
use crate::manager::{DeviceState, JobInfo, Manager, Request, RequestInfo, Waits};
use crate::plan::Plan;
use crate::plans::encode;
use crate::segments::index;
use crate::sessions::{Memory, Step};
use crate::wait_book::{Entry, Fate, Finished, Numbers, Outcome, Station, Task, WaitBook, Work};
use above::AboveBounds;
use clearing::Round;

/// A manager and a wait book that meet the same calls.
pub struct Trial {
    plan: Plan,
    manager: Manager,
    book: WaitBook,
    image: Vec<u8>,
    store: Vec<u8>,
    /// The result that each area owes by the rules.
    results: Vec<JobResult>,
    /// Of each area: has its request, which runs again, been suspended?
    resumed: Vec<bool>,
    above_bounds: AboveBounds,
}

/// What does not hold.
pub type Failure = String;

fn ensure(holds: bool, claim: impl FnOnce() -> String) -> Result<(), Failure> {
    if holds {
        Ok(())
    } else {
        Err(claim())
    }
}

impl Trial {
    /// A trial from the load of a plan, which must be accepted.
    pub fn of(plan: &Plan, image: Vec<u8>, store: Vec<u8>) -> Trial {
        Trial {
            plan: plan.clone(),
            manager: Manager::load(&encode(plan)).expect("an accepted plan"),
            book: WaitBook::of(plan),
            image,
            store,
            results: vec![JobResult::Ok; plan.areas.len()],
            resumed: vec![false; plan.areas.len()],
            above_bounds: AboveBounds::of(plan),
        }
    }

    pub fn manager(&self) -> &Manager {
        &self.manager
    }

    pub fn book(&self) -> &WaitBook {
        &self.book
    }

    pub fn image(&self) -> &[u8] {
        &self.image
    }

    /// Takes a step and checks every demand.
    pub fn take(&mut self, step: &Step, tally: &mut Tally) -> Result<(), Failure> {
        let before = self.book.clone();
        let mut fates = Vec::new();
        match step {
            Step::Change { memory, start, length, byte } => {
                let bytes = match memory {
                    Memory::Image => &mut self.image,
                    Memory::Store => &mut self.store,
                };
                bytes[*start..*start + *length].fill(*byte);
            }
            Step::RoundLent { answers, image_length, store_length } => {
                fates = self.round(*answers, *image_length, *store_length, tally)?;
            }
            Step::Call(Call::Round(answers)) => {
                fates = self.round(*answers, self.image.len(), self.store.len(), tally)?;
            }
            Step::Call(call) => self.call(call, tally)?,
        }
        for area in 0..self.plan.areas.len() {
            self.note_result(area, before.entry(area), &fates);
            self.check_area(area)?;
            self.check_above(area).map_err(|failure| format!("area {area}: {failure}"))?;
            tally.add_entry(before.entry(area), self.book.entry(area), &self.results[area]);
            self.note_bounds(area, before.entry(area), tally);
        }
        tally.suspensions.add_step(&self.plan, &before, &self.book);
        if !fates.is_empty() {
            tally.add_equals(&self.plan, &before, &self.book);
            tally.suspensions.add_round(&self.plan, &before, &self.book);
        }
        self.note_resumed(&before, &fates);
        self.check_devices()?;
        self.check_wear()?;
        self.check_order()
    }

    /// Any call but a round. It is lent no memory, so demand 1 has only the manager to ask about.
    fn call(&mut self, call: &Call, tally: &mut Tally) -> Result<(), Failure> {
        let before = self.manager.clone();
        let (book, owed) = match *call {
            Call::Job(operation, target) => self.book.clone().job(operation, target),
            Call::Lock(target) => self.book.clone().lock(target),
            Call::Release(target) => self.book.clone().release(target),
            Call::Cancel { area } => self.book.clone().cancel(area),
            Call::Round(_) => unreachable!("rounds are lent memory"),
            Call::Query(query, area) => (self.book.clone(), self.query_number(query, area)),
        };
        let number = call.make(&mut self.manager, &mut [], &mut []);
        self.book = book;
        tally.add_call(call, number);
        ensure(number == owed, || format!("number {number}, the book has {owed}"))?;
        match (number, call) {
            (0, Call::Query(Query::WearInfo(address), area)) => {
                self.note_asked(*area, *address, &mut tally.wear);
            }
            (0, Call::Job(_, target) | Call::Lock(target)) => {
                self.above_bounds.accept(&self.plan, &self.book, index(u64::from(target.area)));
            }
            _ => {}
        }
        let may_change = number == 0 && !matches!(call, Call::Query(..));
        ensure(may_change || self.manager == before, || "demand 1: the manager changed".into())
    }

    /// Questions 10 and, for memory info and wear info, 12.
    fn query_number(&self, query: Query, area: u32) -> u8 {
        let index = usize::try_from(area).unwrap_or(usize::MAX);
        let Some(record) = self.plan.areas.get(index) else {
            return 10;
        };
        let (Query::MemoryInfo(address) | Query::WearInfo(address)) = query else {
            return 0;
        };
        let offset = address.checked_sub(record.logical_start).map(u128::from);
        if offset.is_some_and(|offset| offset < self.plan.area_size(index)) {
            0
        } else {
            12
        }
    }

    /// A round that is lent memory of these lengths. Gives what became of each device; of a refused
    /// round nothing.
    fn round(
        &mut self,
        answers: [Answer; 4],
        image_length: usize,
        store_length: usize,
        tally: &mut Tally,
    ) -> Result<Vec<Fate>, Failure> {
        let image = memory::lent(&self.image, image_length);
        let store = memory::lent(&self.store, store_length);
        let fates = match admission::round(&self.plan, image_length, store_length) {
            Ok(()) => self.book.fates(answers, &image, &store),
            Err(_) => Vec::new(),
        };
        let (owed_image, owed_store) = memory::owed(&self.plan, &fates, &image, &store);
        let (book, owed) = self.book.clone().round(answers, &image, &store);
        let before = self.manager.clone();
        let (mut image, mut store) = (image, store);
        let number = self.manager.round(answers, &mut image, &mut store);
        let book_before = std::mem::replace(&mut self.book, book);
        tally.add_call(&Call::Round(answers), number);
        ensure(number == owed, || format!("number {number}, the book has {owed}"))?;
        ensure(image == owed_image, || "demand 1: the image is not as owed".into())?;
        ensure(store == owed_store, || "demand 1: the store is not as owed".into())?;
        ensure(number == 0 || self.manager == before, || "demand 1: the manager changed".into())?;
        tally.clearing.add_round(&self.round_from(&book_before, &image), &fates);
        self.note_erases(answers, &fates, &mut tally.wear);
        self.note_stuck(&book_before.wear(), &mut tally.wear);
        memory::give_back(&mut self.image, &image);
        memory::give_back(&mut self.store, &store);
        Ok(fates)
    }

    /// The round from this book to the one of now, which left this image, before memory is given back.
    fn round_from<'a>(&'a self, before: &'a WaitBook, left: &'a [u8]) -> Round<'a> {
        let Trial { plan, book: after, image, store, .. } = self;
        Round { plan, before, after, image, store, left }
    }

    /// The result of a job that this step ended, from what became of its request.
    fn note_result(&mut self, area: usize, before: &Entry, fates: &[Fate]) {
        let entry = self.book.entry(area);
        if !before.is_pending || entry.is_pending {
            return;
        }
        let finished = fates.iter().find_map(|fate| match fate {
            Fate::Ends(finished) if finished.area == area => Some(finished),
            _ => None,
        });
        self.results[area] = match finished {
            _ if entry.is_cancelled => JobResult::Cancelled,
            Some(Finished { outcome: Outcome::Failed { .. }, .. }) => JobResult::Failed,
            Some(Finished { outcome: Outcome::Inconsistent, .. }) => JobResult::Inconsistent,
            // The last piece is done, or a lock was given.
            Some(Finished { outcome: Outcome::Done, .. }) | None => JobResult::Ok,
        };
    }

    /// Which requests run again that were suspended, until they end.
    fn note_resumed(&mut self, before: &WaitBook, fates: &[Fate]) {
        for fate in fates {
            if let Fate::Ends(finished) = fate {
                self.resumed[finished.area] = false;
            }
        }
        for (area, resumed) in self.resumed.iter_mut().enumerate() {
            let is_suspended = |book: &WaitBook| book.entry(area).suspended.is_some();
            *resumed |= is_suspended(before) && !is_suspended(&self.book);
        }
    }

    /// Counts jobs that ended at a bound.
    fn note_bounds(&self, area: usize, before: &Entry, tally: &mut Tally) {
        let entry = self.book.entry(area);
        if let (true, false, Some(work)) = (before.is_pending, entry.is_pending, &entry.work) {
            let own = (entry.numbers.own, self.book.own_bound(work));
            let below = (entry.numbers.below, self.book.below_bound(work));
            let above = (entry.numbers.above, self.above_bound(area));
            tally.add_bounds([own, below, above]);
            tally.suspensions.add_below(below.0, self.book.single_below_bound(work), below.1);
        }
    }

    fn check_area(&self, area: usize) -> Result<(), Failure> {
        let number = u32::try_from(area).expect("at most 8 areas");
        let entry = self.book.entry(area);
        let info = self.manager.job_info(number).map_err(|n| format!("job info gives {n}"))?;
        let in_area = |failure| format!("area {area}: {failure}");
        self.check_queries(number, entry, &info).map_err(in_area)?;
        self.check_demand_2(area, entry, &info).map_err(in_area)?;
        self.check_demand_3(entry, &info).map_err(in_area)
    }

    /// The manager's view of an area is the book's.
    fn check_queries(&self, area: u32, entry: &Entry, info: &JobInfo) -> Result<(), Failure> {
        let status = u8::from(entry.is_pending);
        ensure(self.manager.status(area) == Ok(status), || format!("status is not {status}"))?;
        ensure(self.manager.result(area) == Ok(info.result), || "two results".into())?;
        ensure(self.manager.processed(area) == Ok(info.processed), || "two lengths".into())?;
        let job = (info.job_type, info.address, info.length);
        let owed = entry.work.as_ref().map_or((0, 0, 0), |Work { job, .. }| {
            (job.job_type.number(), job.target.address, job.target.length)
        });
        ensure(job == owed, || format!("the job is {job:?}, in the book {owed:?}"))?;
        let request = self.running(area);
        ensure(info.request == request, || format!("{:?}, in the book {request:?}", info.request))
    }

    /// The request fields that the book gives an area.
    fn running(&self, wanted: u32) -> RequestInfo {
        let narrow = |number: u64| u32::try_from(number).expect("inside the image");
        for (index, device) in (0..self.plan.devices.len()).zip(0..) {
            let Station::Runs { area, piece, polls } = self.book.station(index) else {
                continue;
            };
            if u32::try_from(area) == Ok(wanted) {
                let (physical_address, length) = (narrow(piece.start), narrow(piece.length));
                return RequestInfo { device, physical_address, length, polls: narrow(polls) };
            }
        }
        RequestInfo::default()
    }

    /// Demand 2: the result is that of the rules; the requests answered done, joined in order, are
    /// the mapped bytes of the range up to the processed length, each once; on success that is the
    /// whole range. A lock request has none. What each of them leaves, `round` has seen to.
    fn check_demand_2(&self, area: usize, entry: &Entry, info: &JobInfo) -> Result<(), Failure> {
        let owed = self.results[area].number();
        ensure(info.result == owed, || format!("demand 2: result {}, not {owed}", info.result))?;
        let addresses = u64::from(info.address)..;
        let mapped = addresses.map(|address| memory::mapped(&self.plan, area, address));
        let mapped = mapped.take(usize::try_from(info.processed).expect("a length"));
        let done = entry.done.iter().flat_map(|piece| piece.start..piece.start + piece.length);
        ensure(done.eq(mapped), || "demand 2: not the mapped bytes".into())?;
        let is_lock = matches!(entry.work, Some(Work { task: Task::LockOf(_), .. }) | None);
        let has_succeeded = !entry.is_pending && info.result == 0 && !is_lock;
        ensure(!is_lock || info.processed == 0, || "demand 2: a lock has no bytes".into())?;
        ensure(!has_succeeded || info.processed == info.length, || "demand 2: not whole".into())
    }

    /// Demand 3: the reported counts are the book's, as far as they go; the sum; the bounds.
    fn check_demand_3(&self, entry: &Entry, info: &JobInfo) -> Result<(), Failure> {
        let Numbers { rounds, own, above, below, locked } = entry.numbers;
        let reported = |number: u128| u32::try_from(number).unwrap_or(u32::MAX);
        let owed = Waits {
            own: reported(own),
            above: reported(above),
            below: reported(below),
            locked: reported(locked),
        };
        ensure(info.waits == owed, || format!("demand 3: {:?}, not {owed:?}", info.waits))?;
        let sum = own + above + below + locked + u128::from(entry.round_ended_it);
        ensure(rounds == sum, || format!("demand 3: {rounds} rounds, the sum is {sum}"))?;
        let Some(work) = &entry.work else {
            return Ok(());
        };
        let bound = self.book.own_bound(work);
        ensure(own <= bound, || format!("demand 3: own {own}, at most {bound}"))?;
        let bound = self.book.below_bound(work);
        ensure(below <= bound, || format!("demand 3: below {below}, at most {bound}"))
    }

    /// The manager's order of acceptance is the book's.
    fn check_order(&self) -> Result<(), Failure> {
        let (order, owed) = (self.manager.order(), self.book.order());
        ensure(order == owed, || format!("the order is {order:?}, in the book {owed:?}"))
    }

    /// The manager's view of every device is the book's, with the erase that is suspended there.
    fn check_devices(&self) -> Result<(), Failure> {
        for device in 0..self.plan.devices.len() {
            self.check_suspended(device)?;
            let (state, station) = (self.manager.device(device), self.book.station(device));
            let is_same = match (state, station) {
                (DeviceState::Free, Station::Nothing) => true,
                (DeviceState::Locked(one), Station::LockedFor(other)) => one == other,
                (DeviceState::Running(request), Station::Runs { area, piece, polls }) => {
                    let request = (request.area, request.piece, u64::from(request.polls));
                    request == (area, piece, polls)
                }
                _ => false,
            };
            ensure(is_same, || format!("device {device}: {state:?}, in the book {station:?}"))?;
        }
        Ok(())
    }

    fn check_suspended(&self, device: usize) -> Result<(), Failure> {
        let erase = self.manager.suspended(device);
        let fields = |erase: Request| (erase.area, Some(erase.piece), u64::from(erase.polls));
        let owed = self.book.suspended_on(device);
        let owed = owed.map(|(area, polls)| (area, self.book.entry(area).next_piece(), polls));
        let is_same = erase.map(fields) == owed;
        ensure(is_same, || format!("device {device} suspends {erase:?}, in the book {owed:?}"))
    }
}
