//! "A round": first every device with a running request takes its answer, then every unlocked device
//! with nothing running starts something, or an erase gives way or resumes, then the waiting jobs
//! count.

use super::{AreaState, DeviceState, Manager, Need, Request, Wait};
use crate::admission;
use crate::jobs::{Answer, JobResult, JobType, Operation};
use crate::plan::MOST_AREAS;
use crate::segments::{self, index};
use std::ops::Range;

/// How a request ends.
enum Ending {
    Done,
    /// After so many bytes.
    Failed(u32),
}

impl Manager {
    pub fn round(&mut self, answers: [Answer; 4], image: &mut [u8], store: &mut [u8]) -> u8 {
        let plan = self.sound_plan();
        if let Err(number) = plan.and_then(|p| admission::round(p, image.len(), store.len())) {
            return number;
        }
        self.take_answers(answers, image, store);
        self.second_half();
        0
    }

    /// The first half. Open, as the second is, for tests that step in between.
    pub fn take_answers(&mut self, answers: [Answer; 4], image: &mut [u8], store: &mut [u8]) {
        for (device, answer) in (0..self.devices.len()).zip(answers) {
            self.take_answer(device, answer, image, store);
        }
    }

    /// The second half and the close. Not before all answers are in: any of them may bring a job to a
    /// device. What starts changes no job's need, so the needs are worked out once.
    pub fn second_half(&mut self) {
        let needed: [Option<usize>; MOST_AREAS] =
            std::array::from_fn(|area| self.needed_device(area));
        for device in 0..self.devices.len() {
            self.start(device, &needed);
        }
        self.count_waits(&needed);
    }

    /// "The answer for a device with nothing running is ignored."
    fn take_answer(&mut self, device: usize, answer: Answer, image: &mut [u8], store: &mut [u8]) {
        let DeviceState::Running(mut request) = self.devices[device] else {
            return;
        };
        let ending = match answer {
            Answer::Done => Ending::Done,
            Answer::Failed(k) => Ending::Failed(k),
            Answer::Pending => {
                request.polls += 1;
                if request.polls < self.plan.devices[device].patience {
                    self.devices[device] = DeviceState::Running(request);
                    return;
                }
                // "when polls reach the patience it counts as failed after 0 bytes"
                Ending::Failed(0)
            }
        };
        self.devices[device] = DeviceState::Free;
        match ending {
            Ending::Done => self.request_done(&request, image, store),
            Ending::Failed(k) => self.request_failed(&request, k, image, store),
        }
    }

    fn request_done(&mut self, request: &Request, image: &mut [u8], store: &mut [u8]) {
        let is_consistent = self.perform(request, image, store);
        if request.operation == Operation::Erase {
            self.add_wear(request);
        }
        let state = &mut self.areas[request.area];
        if !is_consistent {
            return state.end(JobResult::Inconsistent);
        }
        state.processed += request.piece.length;
        let is_cancelled = state.is_cancelled;
        match self.need(request.area) {
            Some(need) if !is_cancelled => self.areas[request.area].retries_left = need.retries(),
            _ => self.areas[request.area].end(JobResult::Ok),
        }
    }

    /// "Each done erase adds the number of sectors in its piece to the sub-area's wear sum, which sticks at
    /// 4,294,967,295": one of a cancelled job too, and one that was suspended, once.
    fn add_wear(&mut self, erase: &Request) {
        let AreaState { job: Some(job), processed, .. } = self.areas[erase.area] else {
            unreachable!("a request is of a job");
        };
        let start = job.target.addresses().start + processed;
        let placed = segments::holder(&self.plan, erase.area, start).expect("a piece has bytes");
        let sectors = erase.piece.length / u64::from(placed.sub_area.sector);
        let sum = &mut self.wear[placed.number];
        *sum = sum.saturating_add(u32::try_from(sectors).expect("inside the image"));
    }

    /// What a done request does to image and store, and whether it found what it should.
    fn perform(&self, request: &Request, image: &mut [u8], store: &mut [u8]) -> bool {
        let bytes = request.piece.bytes();
        let window = || self.window_part(request, request.piece.length);
        match request.operation {
            Operation::Write => self.write(request, request.piece.length, image, store),
            Operation::Erase => image[bytes].fill(255),
            Operation::Read => store[window()].copy_from_slice(&image[bytes]),
            Operation::Compare => return image[bytes] == store[window()],
            Operation::BlankCheck => return image[bytes].iter().all(|byte| *byte == 255),
        }
        true
    }

    /// "Failed: a write or erase has acted on its first k bytes (all if k is larger), nothing else
    /// has changed; with a retry left the same piece is due again, otherwise the job ends with 1."
    fn request_failed(&mut self, request: &Request, k: u32, image: &mut [u8], store: &[u8]) {
        let acted = u64::from(k).min(request.piece.length);
        match request.operation {
            Operation::Write => self.write(request, acted, image, store),
            Operation::Erase => image[request.piece.first_bytes(acted)].fill(255),
            Operation::Read | Operation::Compare | Operation::BlankCheck => {}
        }
        let state = &mut self.areas[request.area];
        if state.is_cancelled || state.retries_left == 0 {
            return state.end(JobResult::Failed);
        }
        state.retries_left -= 1;
    }

    /// What a write leaves where it has acted, on its first `length` bytes: "the image part becomes the
    /// window bytes". On chips that only clear bits "a done write leaves the old byte and-ed with the
    /// window byte, and so do the first k bytes of a failed one".
    // Inlined: as a call of its own it would make every round dearer, also without a write.
    #[inline(always)]
    fn write(&self, request: &Request, length: u64, image: &mut [u8], store: &[u8]) {
        let bytes = &mut image[request.piece.first_bytes(length)];
        let window = &store[self.window_part(request, length)];
        if self.plan.devices[request.piece.device].chip.only_clears() {
            bytes.iter_mut().zip(window).for_each(|(byte, written)| *byte &= written);
        } else {
            bytes.copy_from_slice(window);
        }
    }

    /// The store bytes of the first `length` bytes of a request: "at the processed length from the
    /// window's start".
    fn window_part(&self, request: &Request, length: u64) -> Range<usize> {
        let window_start = u64::from(self.plan.areas[request.area].window_start);
        let start = window_start + self.areas[request.area].processed;
        index(start)..index(start + length)
    }

    /// "every unlocked device with nothing running picks the highest ranked area whose next piece
    /// lies on it, or whose lock request names it"; with an erase running or suspended there, that
    /// area takes the device only from the erase.
    fn start(&mut self, device: usize, needed: &[Option<usize>]) {
        match (self.devices[device], self.suspended[device]) {
            (DeviceState::Locked(_), _) => {}
            (DeviceState::Running(request), None) => self.give_way(device, request, needed),
            // "One erase is parked per chip": what runs over it does not give way.
            (DeviceState::Running(_), Some(_)) => {}
            (DeviceState::Free, Some(erase)) => self.go_on_or_resume(device, erase, needed),
            (DeviceState::Free, None) => self.take(device, self.highest_ready(device, needed)),
        }
    }

    /// "the highest ranked ready job there (next piece or lock request on it, none of its own running
    /// or parked)"
    fn highest_ready(&self, device: usize, needed: &[Option<usize>]) -> Option<usize> {
        let mut highest: Option<usize> = None;
        for (area, need) in needed.iter().enumerate() {
            let is_ready = *need == Some(device) && !self.has_request_on(device, area);
            if is_ready && highest.is_none_or(|other| self.ranks_above(area, other)) {
                highest = Some(area);
            }
        }
        highest
    }

    fn has_request_on(&self, device: usize, area: usize) -> bool {
        let runs = matches!(self.devices[device], DeviceState::Running(r) if r.area == area);
        runs || self.suspended[device].is_some_and(|erase| erase.area == area)
    }

    /// "When, in a round's second half, the highest ranked ready job there (...) outranks the running
    /// erase's area and its next piece is no erase, the erase is parked with its polls kept and that
    /// piece starts." On other chips, and of other operations, nothing is suspended.
    fn give_way(&mut self, device: usize, request: Request, needed: &[Option<usize>]) {
        let can_suspend = self.plan.devices[device].chip.can_suspend();
        if !can_suspend || request.operation != Operation::Erase {
            return;
        }
        let ready = self.highest_ready(device, needed);
        if self.qualifies(ready, &request) {
            self.suspended[device] = Some(request);
            self.take(device, ready);
        }
    }

    /// "After each piece the parked erase resumes, unless the highest ranked ready job again
    /// qualifies."
    fn go_on_or_resume(&mut self, device: usize, erase: Request, needed: &[Option<usize>]) {
        let ready = self.highest_ready(device, needed);
        if self.qualifies(ready, &erase) {
            self.take(device, ready);
        } else {
            self.devices[device] = DeviceState::Running(erase);
            self.suspended[device] = None;
        }
    }

    /// Does the highest ranked ready job outrank the erase's area, and is its next piece no erase? "A
    /// lock request has no piece and parks nothing."
    fn qualifies(&self, ready: Option<usize>, erase: &Request) -> bool {
        ready.is_some_and(|area| {
            let job = self.areas[area].job;
            let is_other = job.is_some_and(|job| match job.job_type {
                JobType::Operation(operation) => operation != Operation::Erase,
                JobType::LockRequest => false,
            });
            is_other && self.ranks_above(area, erase.area)
        })
    }

    /// "A piece becomes the running request with 0 polls. A lock request locks the device for that
    /// area and ends with 0."
    fn take(&mut self, device: usize, chosen: Option<usize>) {
        let Some(area) = chosen else {
            return;
        };
        match self.need(area) {
            Some(Need::Piece(operation, piece)) => {
                let request = Request { area, operation, piece, polls: 0 };
                self.devices[device] = DeviceState::Running(request);
            }
            Some(Need::Lock(_)) => {
                self.devices[device] = DeviceState::Locked(area);
                self.areas[area].end(JobResult::Ok);
            }
            None => unreachable!("the area needs this device"),
        }
    }

    /// The device that a pending job needs.
    fn needed_device(&self, area: usize) -> Option<usize> {
        if !self.areas.get(area)?.is_pending {
            return None;
        }
        match self.need(area)? {
            Need::Piece(_, piece) => Some(piece.device),
            Need::Lock(device) => Some(device),
        }
    }

    /// "the larger priority is above"; "Areas of equal priority shall be ranked by acceptance: the
    /// earlier accepted job is above."
    fn ranks_above(&self, area: usize, other: usize) -> bool {
        let priority = self.plan.areas[area].priority;
        let other_priority = self.plan.areas[other].priority;
        let is_earlier = self.areas[area].acceptance < self.areas[other].acceptance;
        priority > other_priority || (priority == other_priority && is_earlier)
    }

    fn count_waits(&mut self, needed: &[Option<usize>]) {
        for (area, device) in needed.iter().enumerate() {
            if let Some(device) = device {
                self.count_wait(area, *device);
            }
        }
    }

    /// "When the round closes, each job pending since before it adds 1 to one count." Calls and
    /// rounds do not overlap, so every pending job is pending since before. "The wait counts, in the
    /// wait book too, and job info take a parked erase as not running": its area waits for what runs
    /// over it.
    fn count_wait(&mut self, area: usize, device: usize) {
        // A lock request may have ended.
        if !self.areas[area].is_pending {
            return;
        }
        let wait = match self.devices[device] {
            DeviceState::Running(request) if request.area == area => Wait::Own,
            DeviceState::Running(request) if self.ranks_above(request.area, area) => Wait::Above,
            DeviceState::Running(_) => Wait::Below,
            DeviceState::Locked(_) => Wait::Locked,
            DeviceState::Free => unreachable!("the device would have started this job"),
        };
        self.areas[area].waits.add(wait);
    }
}
