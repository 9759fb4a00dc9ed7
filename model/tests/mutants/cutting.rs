//! The model with writes and erases that are cut by another rule: in a round the requests are pieces of
//! that rule; between rounds they are put back, so that question 9 does not tell.

use model::admission;
use model::calls::Call;
use model::jobs::{Answer, Operation};
use model::manager::{DeviceState, Manager, Request};
use model::segments::{self, Piece};
use model::session::{call_of, Session};

/// Where a piece is due.
pub struct Due {
    pub operation: Operation,
    pub burst: u64,
    pub logical: u64,
    pub physical: u64,
    /// Job bytes left in the sub-area.
    pub left: u64,
}

/// Is the piece a burst? It is one only where enough bytes are left.
pub type Rule = fn(&Due) -> bool;

/// Is the physical address a multiple? As Req 04 has it decided: "Where the size is a power of two, a
/// mask of the size less one shall decide it."
pub fn right_rule(due: &Due) -> bool {
    let is_power = due.burst & (due.burst - 1) == 0;
    if is_power {
        due.is_0_under(due.burst - 1)
    } else {
        due.physical / due.burst * due.burst == due.physical
    }
}

impl Due {
    /// Does a mask leave 0 of the physical address?
    pub fn is_0_under(&self, mask: u64) -> bool {
        self.physical & mask == 0
    }
}

/// The answer to a line of a session whose jobs are cut so.
pub fn answer(session: &mut Session, line: &[u8], rule: Rule) -> String {
    let Session { manager, image, store, .. } = &*session;
    let takes_rounds = admission::round(manager.plan(), image.len(), store.len()).is_ok();
    match call_of(line, manager.plan().devices.len()) {
        Some(Call::Round(answers)) if takes_rounds => round(session, rule, answers),
        _ => session.answer(line),
    }
}

/// The requests are cut by the rule before the answers are taken and again when others have started.
fn round(session: &mut Session, rule: Rule, answers: [Answer; 4]) -> String {
    let Session { manager, image, store, .. } = &mut *session;
    cut(manager, rule);
    manager.take_answers(answers, image, store);
    manager.second_half();
    cut(manager, rule);
    let line = session.devices_line();
    cut(&mut session.manager, |due| due.physical.is_multiple_of(due.burst));
    line
}

/// Cuts every request anew, running or suspended.
fn cut(manager: &mut Manager, rule: Rule) {
    for device in 0..manager.plan().devices.len() {
        let again = |request| Request { piece: piece(manager, &request, rule), ..request };
        let state = match manager.device(device) {
            DeviceState::Running(request) => DeviceState::Running(again(request)),
            state @ (DeviceState::Free | DeviceState::Locked(_)) => state,
        };
        let suspended = manager.suspended(device).map(again);
        manager.set_device(device, state, suspended);
    }
}

fn piece(manager: &Manager, request: &Request, rule: Rule) -> Piece {
    let info = manager.info_unasked(request.area);
    let job_end = u64::from(info.address) + u64::from(info.length);
    let logical = u64::from(info.address) + u64::from(info.processed);
    let placed = segments::holder(manager.plan(), request.area, logical).expect("a byte is left");
    let burst = match request.operation {
        Operation::Write => placed.sub_area.page_burst,
        Operation::Erase => placed.sub_area.sector_burst,
        Operation::Read | Operation::Compare | Operation::BlankCheck => return request.piece,
    };
    let due = Due {
        operation: request.operation,
        burst: u64::from(burst),
        logical,
        physical: placed.physical(logical),
        left: job_end.min(placed.logical.end) - logical,
    };
    let unit = u64::from(request.operation.unit(placed.sub_area));
    let is_burst = due.left >= due.burst && rule(&due);
    Piece { length: if is_burst { due.burst } else { unit }, ..request.piece }
}
