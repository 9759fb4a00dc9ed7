//! Question 9: "Does the state pass the team's soundness test? Every state reached from an accepted
//! load passes it; the manager of all zeros does not."
//!
//! The test asks for what a round relies on when it takes the answers: that every request, running or
//! suspended, is the next piece of its area's job, has polls left, and has its bytes in image and window.
//! Of an area without a request nothing is asked: what a round starts there, the next call tests.

use super::{AreaState, DeviceState, Manager, Need, Request};
use crate::admission::Refusal;
use crate::jobs::{Job, Operation};
use crate::plan::Plan;

impl Manager {
    /// The plan, which the other questions are asked of: every call asks this one first.
    pub(super) fn sound_plan(&self) -> Result<&Plan, Refusal> {
        if self.is_sound() {
            Ok(&self.plan)
        } else {
            Err(9)
        }
    }

    /// The manager of all zeros has no device.
    fn is_sound(&self) -> bool {
        !self.devices.is_empty()
            && (0..self.devices.len()).all(|device| self.is_device_sound(device))
    }

    fn is_device_sound(&self, device: usize) -> bool {
        let erase = self.suspended[device].as_ref();
        let is_state_sound = match &self.devices[device] {
            DeviceState::Free => true,
            DeviceState::Locked(area) => *area < self.areas.len(),
            DeviceState::Running(request) => {
                let is_other = erase.is_none_or(|erase| erase.area != request.area);
                is_other && self.is_request_sound(device, request)
            }
        };
        is_state_sound && erase.is_none_or(|erase| self.is_suspension_sound(device, erase))
    }

    /// "the erase is parked", and only where "the chip can pause".
    fn is_suspension_sound(&self, device: usize, erase: &Request) -> bool {
        self.plan.devices[device].chip.can_suspend()
            && erase.operation == Operation::Erase
            && self.is_request_sound(device, erase)
    }

    /// A request is the next piece of a pending job of a known area, on this device. A job has one next
    /// piece, so that no area has requests on two devices. "when polls reach the patience" a request
    /// has ended.
    fn is_request_sound(&self, device: usize, request: &Request) -> bool {
        let Some(AreaState { job: Some(job), is_pending: true, .. }) = self.areas.get(request.area)
        else {
            return false;
        };
        let Some(Need::Piece(operation, piece)) = self.need(request.area) else {
            return false;
        };
        (operation, piece) == (request.operation, request.piece)
            && piece.device == device
            && request.polls < self.plan.devices[device].patience
            && self.has_bytes(request, job)
    }

    /// Do the bytes of a request lie in its device, its job and, if it uses that, its area's window? A
    /// piece begins where its sub-area has it, so that only its end is asked for.
    fn has_bytes(&self, request: &Request, job: &Job) -> bool {
        let image_end = request.piece.start + request.piece.length;
        let job_end = self.areas[request.area].processed + request.piece.length;
        let window = u64::from(self.plan.areas[request.area].window_length);
        image_end <= self.plan.devices[request.piece.device].bytes().end
            && job_end <= u64::from(job.target.length)
            && (!request.operation.uses_window() || job_end <= window)
    }
}
