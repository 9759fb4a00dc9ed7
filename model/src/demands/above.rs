//! The bound on above, which the papers do not ask for, and that nothing is locked without a lock request.
//!
//! A round above is an own round of a job that ranks above, so that above is at most the sum of the own
//! bounds of all such jobs: those pending when the job is accepted, and those accepted while it is pending.
//! Both are kept from the calls alone.

use super::{ensure, Failure, Trial};
use crate::plan::Plan;
use crate::wait_book::{Task, WaitBook};

pub(super) struct AboveBounds {
    /// Of each area: what the jobs that ranked above its latest one since its acceptance can take.
    above: Vec<u128>,
    /// Of each area: what all its jobs so far can take.
    accepted: Vec<u128>,
    /// Of each device: has an accepted lock request named it?
    named: Vec<bool>,
}

impl AboveBounds {
    pub(super) fn of(plan: &Plan) -> AboveBounds {
        AboveBounds {
            above: vec![0; plan.areas.len()],
            accepted: vec![0; plan.areas.len()],
            named: vec![false; plan.devices.len()],
        }
    }

    /// The area's job or lock has just been accepted: it comes last among equals, so that it ranks above
    /// those of smaller priority alone, and all others above it.
    pub(super) fn accept(&mut self, plan: &Plan, book: &WaitBook, area: usize) {
        let own = own_bound(book, area);
        let is_smaller = |other: &usize| plan.areas[*other].priority < plan.areas[area].priority;
        let others = book.order().iter().copied().filter(|other| *other != area);
        let (under, over): (Vec<_>, Vec<_>) = others.partition(is_smaller);
        self.above[area] = over.into_iter().map(|other| own_bound(book, other)).sum();
        under.into_iter().for_each(|other| self.above[other] += own);
        self.accepted[area] += own;
        if let Some(Task::LockOf(device)) = book.entry(area).work.as_ref().map(|work| &work.task) {
            self.named[*device] = true;
        }
    }

    /// What all jobs so far of other areas with no smaller priority can take.
    fn of_all(&self, plan: &Plan, area: usize) -> u128 {
        let others = (0..plan.areas.len()).filter(|other| *other != area);
        let ranked = others.filter(|o| plan.areas[*o].priority >= plan.areas[area].priority);
        ranked.map(|other| self.accepted[other]).sum()
    }
}

fn own_bound(book: &WaitBook, area: usize) -> u128 {
    book.entry(area).work.as_ref().map_or(0, |work| book.own_bound(work))
}

impl Trial {
    /// The bound on above of the area's latest job, as it is by now.
    pub fn above_bound(&self, area: usize) -> u128 {
        self.above_bounds.above[area]
    }

    pub(super) fn check_above(&self, area: usize) -> Result<(), Failure> {
        let numbers = self.book.entry(area).numbers;
        let (above, bound) = (numbers.above, self.above_bound(area));
        ensure(above <= bound, || format!("above {above}, at most {bound}"))?;
        let all = self.above_bounds.of_all(&self.plan, area);
        ensure(bound <= all, || format!("the bound on above {bound}, of all jobs {all}"))?;
        let sub_areas = self.plan.sub_areas.iter().filter(|s| usize::from(s.area) == area);
        let mut devices = sub_areas.map(|s| usize::from(s.device));
        let may_be_locked = devices.any(|device| self.above_bounds.named[device]);
        ensure(numbers.locked == 0 || may_be_locked, || "locked without a lock request".into())
    }
}
