//! The model with writes that leave other bytes: after a round, the image bytes that its writes have
//! acted on are set anew.

use model::calls::Call;
use model::jobs::{Answer, JobResult, Operation};
use model::manager::{DeviceState, Manager, Request};
use model::plan::Chip;
use model::segments::index;
use model::session::{call_of, Session};

/// A byte that a write has acted on.
#[derive(Clone, Copy)]
pub struct Write {
    pub chip: Chip,
    pub is_failed: bool,
    /// After the round.
    pub is_pending: bool,
    pub is_cancelled: bool,
    pub old: u8,
    pub window: u8,
}

/// What is left in the place of a byte.
pub type Leaves = fn(&Write) -> u8;

/// As the rules have it.
pub fn right_byte(write: &Write) -> u8 {
    match write.chip {
        Chip::Clearing => write.old & write.window,
        Chip::Plain | Chip::Suspending => write.window,
    }
}

/// The window's byte where this holds, else as the rules have it.
pub fn stored_if(holds: bool, write: &Write) -> u8 {
    if holds {
        write.window
    } else {
        right_byte(write)
    }
}

/// The answer to a line of a session whose writes leave this.
pub fn answer(session: &mut Session, line: &[u8], leaves: Leaves) -> String {
    let before = Before { manager: session.manager.clone(), image: session.image.clone() };
    let answer = session.answer(line);
    match call_of(line, before.manager.plan().devices.len()) {
        Some(Call::Round(answers)) if answer.starts_with('R') => {
            before.set_bytes(leaves, answers, session);
        }
        _ => {}
    }
    answer
}

/// What a round met.
struct Before {
    manager: Manager,
    image: Vec<u8>,
}

impl Before {
    fn set_bytes(&self, leaves: Leaves, answers: [Answer; 4], session: &mut Session) {
        for (device, answer) in (0..self.manager.plan().devices.len()).zip(answers) {
            match self.manager.device(device) {
                DeviceState::Running(request) if request.operation == Operation::Write => {
                    self.set_bytes_of(&request, leaves, answer, session);
                }
                _ => {}
            }
        }
    }

    /// A write changes no window, so that the store after the round will do.
    fn set_bytes_of(
        &self,
        request: &Request,
        leaves: Leaves,
        answer: Answer,
        session: &mut Session,
    ) {
        let acted = match answer {
            Answer::Pending => 0,
            Answer::Done => request.piece.length,
            Answer::Failed(k) => request.piece.length.min(u64::from(k)),
        };
        let bytes = request.piece.first_bytes(acted);
        let area = u32::try_from(request.area).expect("at most 8 areas");
        let processed = self.manager.processed(area).expect("a known area");
        let window_start = self.manager.plan().areas[request.area].window_start + processed;
        let is_pending = session.manager.status(area) == Ok(1);
        let is_cancelled = session.manager.result(area) == Ok(JobResult::Cancelled.number());
        for (byte, window) in bytes.zip(index(u64::from(window_start))..) {
            session.image[byte] = leaves(&Write {
                chip: self.manager.plan().devices[request.piece.device].chip,
                is_failed: answer != Answer::Done,
                is_pending,
                is_cancelled: is_cancelled && !is_pending,
                old: self.image[byte],
                window: session.store[window],
            });
        }
    }
}
