//! The bench program of "A printed session": lines in, one line out for each.

use crate::calls::{Call, Query};
use crate::jobs::{Answer, Operation, Target};
use crate::manager::{DeviceState, Manager};
use crate::segments::index;

/// "a plan above that sum, over 4,096 bytes or unreadable prints only "?""
pub const PLAN_LIMIT: usize = 4_096;
/// Bytes of a line, without its end.
pub const LINE_LIMIT: usize = 4_096;
/// "device sum at most 65,536"
pub const BENCH_SUM_LIMIT: u64 = 65_536;
/// "store 65,536 zeros"
pub const STORE_LENGTH: usize = 65_536;
/// The answer to whatever the bench cannot read.
pub const UNREADABLE: &str = "?";

/// A bench with its plan loaded. Image and store are open, as they are lent to each round.
#[derive(Clone)]
pub struct Session {
    pub manager: Manager,
    pub image: Vec<u8>,
    pub store: Vec<u8>,
    /// The bytes of a line whose end has not come yet, as far as they matter.
    begun: Vec<u8>,
}

/// The whole output of the bench for the bytes of plan.bin, if it can be read, and the input.
pub fn run_session(plan: Option<&[u8]>, input: &[u8]) -> Vec<u8> {
    match Session::open(plan) {
        Ok(mut session) => {
            let mut output = session.feed(input);
            output.extend(session.finish());
            output
        }
        Err(answer) => with_line_end(answer),
    }
}

impl Session {
    /// A session over a plan with the bench's own memory, or what the bench prints instead of one.
    pub fn open(plan: Option<&[u8]>) -> Result<Session, String> {
        let manager = load(plan)?;
        let image = vec![255; index(manager.plan().device_sum())];
        Ok(Session { manager, image, store: vec![0; STORE_LENGTH], begun: Vec::new() })
    }

    /// The same with memory of any length and bytes.
    pub fn lent(plan: &[u8], image: Vec<u8>, store: Vec<u8>) -> Result<Session, String> {
        Ok(Session { manager: load(Some(plan))?, image, store, begun: Vec::new() })
    }

    /// Takes more input and gives the answers to the lines that it completes.
    pub fn feed(&mut self, input: &[u8]) -> Vec<u8> {
        let mut output = Vec::new();
        for &byte in input {
            if byte == b'\n' {
                let line = std::mem::take(&mut self.begun);
                output.extend(with_line_end(self.answer(&line)));
            } else if self.begun.len() <= LINE_LIMIT {
                // One byte over the limit is enough to know that the line is too long.
                self.begun.push(byte);
            }
        }
        output
    }

    /// The input has ended: "a last line without it counts if it has a byte".
    pub fn finish(&mut self) -> Vec<u8> {
        if self.begun.is_empty() {
            return Vec::new();
        }
        let line = std::mem::take(&mut self.begun);
        with_line_end(self.answer(&line))
    }

    /// The answer to one line, both without line end.
    pub fn answer(&mut self, line: &[u8]) -> String {
        let Some(call) = call_of(line, self.manager.plan().devices.len()) else {
            return UNREADABLE.to_string();
        };
        let number = call.make(&mut self.manager, &mut self.image, &mut self.store);
        match call {
            Call::Round(_) if number == 0 => self.devices_line(),
            Call::Query(Query::JobInfo, area) => self.info_line(area),
            _ => number.to_string(),
        }
    }

    /// "it prints R and per device "-", "L", or area:type:physical:length of what runs"
    pub fn devices_line(&self) -> String {
        let mut line = "R".to_string();
        for device in 0..self.manager.plan().devices.len() {
            line += &match self.manager.device(device) {
                DeviceState::Free => " -".to_string(),
                DeviceState::Locked(_) => " L".to_string(),
                DeviceState::Running(request) => {
                    let (area, job_type) = (request.area, request.operation.number());
                    format!(" {area}:{job_type}:{}:{}", request.piece.start, request.piece.length)
                }
            };
        }
        line
    }

    /// "accepted info prints result, processed, own, above, below, locked"
    fn info_line(&self, area: u32) -> String {
        match self.manager.job_info(area) {
            Ok(info) => {
                let (result, processed, waits) = (info.result, info.processed, info.waits);
                let (own, above, below) = (waits.own, waits.above, waits.below);
                format!("{result} {processed} {own} {above} {below} {}", waits.locked)
            }
            Err(number) => number.to_string(),
        }
    }
}

/// "A refused plan prints only its number; a plan above that sum, over 4,096 bytes or unreadable
/// prints only "?"."
pub fn load(plan: Option<&[u8]>) -> Result<Manager, String> {
    let bytes = plan.filter(|bytes| bytes.len() <= PLAN_LIMIT).ok_or(UNREADABLE)?;
    let manager = Manager::load(bytes).map_err(|number| number.to_string())?;
    if manager.plan().device_sum() > BENCH_SUM_LIMIT {
        return Err(UNREADABLE.to_string());
    }
    Ok(manager)
}

fn with_line_end(answer: String) -> Vec<u8> {
    (answer + "\n").into_bytes()
}

/// The call that a line without its end asks for. "A line of another type, word or field count, with a number above
/// 4,294,967,295, or over 4,096 bytes prints "?"": none.
pub fn call_of(line: &[u8], device_count: usize) -> Option<Call> {
    if line.len() > LINE_LIMIT {
        return None;
    }
    let fields: Vec<_> = line.split(|byte| *byte == b' ').collect();
    let (first, rest) = fields.split_first()?;
    match (number(first)?, rest) {
        (0, answers) => round(answers, device_count),
        (9, [area]) => Some(Call::Cancel { area: number(area)? }),
        (10, [area]) => Some(Call::Query(Query::JobInfo, number(area)?)),
        (job_type, [area, address, length]) => {
            let (area, address, length) = (number(area)?, number(address)?, number(length)?);
            ranged(job_type, Target { area, address, length })
        }
        _ => None,
    }
}

/// "type area address length" is a job or lock, 8 with these a release.
fn ranged(job_type: u32, target: Target) -> Option<Call> {
    match job_type {
        7 => Some(Call::Lock(target)),
        8 => Some(Call::Release(target)),
        _ => Operation::ALL
            .into_iter()
            .find(|operation| u32::from(operation.number()) == job_type)
            .map(|operation| Call::Job(operation, target)),
    }
}

/// "0" and one answer per device (p, d, or k). Devices beyond the plan's take any answer.
fn round(words: &[&[u8]], device_count: usize) -> Option<Call> {
    if words.len() != device_count {
        return None;
    }
    let mut answers = [Answer::Pending; 4];
    for (slot, word) in answers.iter_mut().zip(words) {
        *slot = match *word {
            b"p" => Answer::Pending,
            b"d" => Answer::Done,
            k => Answer::Failed(number(k)?),
        };
    }
    Some(Call::Round(answers))
}

/// "Numbers are in decimal digits." Leading zeros are allowed, signs are not; the limit is on the
/// value.
fn number(field: &[u8]) -> Option<u32> {
    if field.is_empty() {
        return None;
    }
    field.iter().try_fold(0u32, |value, byte| {
        let digit = char::from(*byte).to_digit(10)?;
        value.checked_mul(10)?.checked_add(digit)
    })
}
