//! The wear account of Req 05: that the sums are those of the history and the charges theirs, and how often
//! erases ended in each manner.

use super::{ensure, memory, Failure, Trial};
use crate::jobs::{Answer, Operation};
use crate::plan::{Plan, SubArea};
use crate::wait_book::{Erased, Fate, Finished, Outcome};

/// "which sticks at 4,294,967,295"
const STUCK: u128 = 4_294_967_295;

#[derive(Clone, Copy, Debug, Default, PartialEq, Eq)]
pub struct Wear {
    /// Erases that were done; of these those of several sectors, those that had been suspended, and those
    /// of cancelled jobs.
    pub done: u64,
    pub done_of_several: u64,
    pub done_resumed: u64,
    pub done_cancelled: u64,
    /// Erases that failed, those that were dropped not among them; of both those that had been suspended.
    pub failed: u64,
    pub dropped: u64,
    pub failed_resumed: u64,
    /// Sums that came to the limit, and erases done behind it.
    pub stuck: u64,
    pub done_stuck: u64,
    /// Accepted queries of a sub-area with a record, and without one.
    pub asked_with_record: u64,
    pub asked_without_record: u64,
}

impl Trial {
    /// As if erases of so many sectors had been done before: only for tests that come near the limit of a
    /// sum.
    pub fn wear_out(&mut self, sub_area: usize, sectors: u32) {
        self.manager.set_wear(sub_area, sectors);
        let erased = Erased { sub_area, sectors: u64::from(sectors) };
        self.book = self.book.clone().with_erased(erased);
    }

    /// "For every list of calls the unstuck sum equals the sectors of done erases in the history": what is
    /// reported at both ends of a sub-area is the book's sum as far as it goes, and its charge.
    pub(super) fn check_wear(&self) -> Result<(), Failure> {
        for (number, unstuck) in self.book.wear().into_iter().enumerate() {
            let sub_area = &self.plan.sub_areas[number];
            for address in ends(&self.plan, number) {
                let info = self.manager.wear_info(u32::from(sub_area.area), address);
                let info = info.map_err(|n| format!("wear info gives {n}"))?;
                let sum = u128::from(info.sum);
                let claim = || format!("sub-area {number}: {info:?}, in the book {unstuck}");
                ensure(sum == unstuck.min(STUCK), claim)?;
                ensure(self.is_charge(number, sum, info.charge.into()), claim)?;
            }
        }
        Ok(())
    }

    /// Is it "rounded up to a whole millionth"? The charge is enough for the sum, and one less is not.
    /// "A sub-area without record has charge 0."
    fn is_charge(&self, sub_area: usize, sum: u128, charge: u128) -> bool {
        let mut records = self.plan.wear_records.iter();
        let Some(record) = records.find(|record| usize::from(record.sub_area) == sub_area) else {
            return charge == 0;
        };
        let sectors = u128::from(self.plan.sub_areas[sub_area].sector_count);
        let is_enough =
            |charge: u128| charge * u128::from(record.endurance) * sectors >= sum * 1_000_000;
        is_enough(charge) && (charge == 0 || !is_enough(charge - 1))
    }

    /// Counts the erases that a round has ended.
    pub(super) fn note_erases(&self, answers: [Answer; 4], fates: &[Fate], wear: &mut Wear) {
        for (fate, answer) in fates.iter().zip(answers) {
            match fate {
                Fate::Ends(erase) if erase.operation == Operation::Erase => {
                    wear.add_erase(&self.plan, erase, answer, self.resumed[erase.area]);
                    let is_cancelled = self.book.entry(erase.area).is_cancelled;
                    let is_done = erase.outcome == Outcome::Done;
                    wear.done_cancelled += u64::from(is_done && is_cancelled);
                }
                _ => {}
            }
        }
    }

    /// Counts the sums that a round has brought to the limit, or has not moved any more.
    pub(super) fn note_stuck(&self, before: &[u128], wear: &mut Wear) {
        for (before, after) in before.iter().zip(self.book.wear()) {
            wear.stuck += u64::from(*before < STUCK && after >= STUCK);
            wear.done_stuck += u64::from(*before >= STUCK && after > *before);
        }
    }

    /// Counts an accepted query.
    pub(super) fn note_asked(&self, area: u32, address: u32, wear: &mut Wear) {
        let area = usize::try_from(area).expect("a known area");
        let byte = memory::mapped(&self.plan, area, u64::from(address));
        let mut records = self.plan.wear_records.iter();
        let has_record = records.any(|record| {
            self.plan.sub_areas[usize::from(record.sub_area)].bytes().contains(&byte)
        });
        wear.asked_with_record += u64::from(has_record);
        wear.asked_without_record += u64::from(!has_record);
    }
}

/// The first and the last logical address of a sub-area: behind those before it in its area.
fn ends(plan: &Plan, number: usize) -> [u32; 2] {
    let sub_area = &plan.sub_areas[number];
    let earlier = plan.sub_areas[..number].iter().filter(|s| s.area == sub_area.area);
    let start = u64::from(plan.areas[usize::from(sub_area.area)].logical_start)
        + earlier.map(SubArea::size).sum::<u64>();
    let ends = [start, start + sub_area.size() - 1];
    ends.map(|address| u32::try_from(address).expect("inside an area"))
}

impl Wear {
    fn add_erase(&mut self, plan: &Plan, erase: &Finished, answer: Answer, is_resumed: bool) {
        if erase.outcome != Outcome::Done {
            self.failed += u64::from(answer != Answer::Pending);
            self.dropped += u64::from(answer == Answer::Pending);
            self.failed_resumed += u64::from(is_resumed);
            return;
        }
        let holds = |s: &&SubArea| s.bytes().contains(&erase.piece.start);
        let sub_area = plan.sub_areas.iter().find(holds).expect("a piece lies in a sub-area");
        self.done += 1;
        self.done_of_several += u64::from(erase.piece.length > u64::from(sub_area.sector));
        self.done_resumed += u64::from(is_resumed);
    }

    pub fn counts(&self) -> [(&'static str, u64); 11] {
        [
            ("done", self.done),
            ("done, of several sectors", self.done_of_several),
            ("done after a suspension", self.done_resumed),
            ("done of cancelled jobs", self.done_cancelled),
            ("failed", self.failed),
            ("dropped", self.dropped),
            ("failed or dropped after a suspension", self.failed_resumed),
            ("sums that came to the limit", self.stuck),
            ("done behind the limit", self.done_stuck),
            ("asked with a record", self.asked_with_record),
            ("asked without one", self.asked_without_record),
        ]
    }
}
