//! How often erases gave way in trials, told from the book before and after each step.

use crate::plan::Plan;
use crate::wait_book::{Entry, Station, WaitBook};

#[derive(Clone, Copy, Debug, Default, PartialEq, Eq)]
pub struct Suspensions {
    pub suspended: u64,
    pub resumed: u64,
    /// A second piece started over a suspended erase.
    pub followed: u64,
    /// A cancel of a suspended erase, and a suspension of a cancelled one.
    pub cancelled_while: u64,
    pub cancelled_before: u64,
    /// A round closed with an erase suspended and a lock request waiting for its device.
    pub lock_waits: u64,
    /// A suspended erase resumed in front of a lock request, or of an erase, that outranks it.
    pub resumed_before_lock: u64,
    pub resumed_before_erase: u64,
    /// An erase ran on in front of a lock request, an erase, or another job behind one of these.
    pub stays_before_lock: u64,
    pub stays_before_erase: u64,
    pub stays_before_other: u64,
    /// Jobs that ended with below beyond what it could be without suspensions, and at the doubled
    /// bound.
    pub below_beyond_single: u64,
    pub doubled_bound_reached: u64,
}

impl Suspensions {
    /// What a step did, a round or another.
    pub(super) fn add_step(&mut self, plan: &Plan, before: &WaitBook, after: &WaitBook) {
        for area in 0..plan.areas.len() {
            let (old, new) = (before.entry(area), after.entry(area));
            let is_cancelled_now = new.is_cancelled && !old.is_cancelled;
            self.cancelled_while += u64::from(is_cancelled_now && old.suspended.is_some());
            let is_suspended_now = new.suspended.is_some() && old.suspended.is_none();
            self.suspended += u64::from(is_suspended_now);
            self.cancelled_before += u64::from(is_suspended_now && new.is_cancelled);
            self.resumed += u64::from(old.suspended.is_some() && new.suspended.is_none());
        }
    }

    /// What an accepted round did on the devices that can suspend.
    pub(super) fn add_round(&mut self, plan: &Plan, before: &WaitBook, after: &WaitBook) {
        let can_suspend = |device: &usize| plan.devices[*device].chip.can_suspend();
        for device in (0..plan.devices.len()).filter(can_suspend) {
            let was_suspended = before.suspended_on(device).is_some();
            let is_suspended = after.suspended_on(device).is_some();
            let Station::Runs { area, polls, .. } = after.station(device) else {
                continue;
            };
            self.followed += u64::from(was_suspended && is_suspended && polls == 0);
            let runs_on = after.entry(area).is_erase() && polls > 0 && !is_suspended;
            for other in (0..plan.areas.len()).filter(|other| *other != area) {
                let entries = (before.entry(other), after.entry(other));
                if entries.1.needs() == Some(device) {
                    self.lock_waits += u64::from(is_suspended && entries.1.is_lock());
                    self.add_waiting(entries, runs_on, was_suspended);
                }
            }
        }
    }

    /// Below grows for a job that outranks what runs. Here this is an erase that has been polled: one
    /// that was not displaced, or that has resumed.
    fn add_waiting(&mut self, (old, new): (&Entry, &Entry), runs_on: bool, has_resumed: bool) {
        if !runs_on || new.numbers.below == old.numbers.below {
            return;
        }
        let count = match (has_resumed, new.is_lock(), new.is_erase()) {
            (true, true, _) => &mut self.resumed_before_lock,
            (true, _, true) => &mut self.resumed_before_erase,
            (false, true, _) => &mut self.stays_before_lock,
            (false, _, true) => &mut self.stays_before_erase,
            _ => &mut self.stays_before_other,
        };
        *count += 1;
    }

    /// A job ended with this below; these are the bounds, without suspensions and with them.
    pub(super) fn add_below(&mut self, below: u128, single: u128, doubled: u128) {
        self.below_beyond_single += u64::from(below > single);
        self.doubled_bound_reached += u64::from(below > single && below == doubled);
    }

    pub fn counts(&self) -> [(&'static str, u64); 13] {
        [
            ("suspended", self.suspended),
            ("resumed", self.resumed),
            ("followed by another piece", self.followed),
            ("cancelled while suspended", self.cancelled_while),
            ("cancelled before", self.cancelled_before),
            ("a lock waits", self.lock_waits),
            ("resumed before a lock", self.resumed_before_lock),
            ("resumed before an erase", self.resumed_before_erase),
            ("stays before a lock", self.stays_before_lock),
            ("stays before an erase", self.stays_before_erase),
            ("stays before others", self.stays_before_other),
            ("below beyond the single bound", self.below_beyond_single),
            ("below at the doubled bound", self.doubled_bound_reached),
        ]
    }
}
