//! What the audit says of a line of the jobs.

use super::reach::{self, ImageByte};
use super::{below_of_a_stretch, Admitted, Audit, JobLine, SUM_LIMIT};
use crate::jobs::{Job, JobType, Operation};
use crate::plan::Plan;
use crate::segments::{index, Piece};
use crate::session::UNREADABLE;
use crate::wait_book::Task;

const IF_NO_OTHER: &str = "if no other job is accepted";

pub fn of(audit: &Audit, line: &JobLine) -> Vec<String> {
    match line {
        JobLine::NoJob => vec![UNREADABLE.to_string()],
        JobLine::Refused(job, number) => vec![job_line(job), format!("refused {number}")],
        JobLine::Admitted(job) => admitted_lines(audit, job),
    }
}

/// The job with its numbers as they are read, but without leading zeros.
fn job_line(Job { job_type, target }: &Job) -> String {
    let name = match job_type {
        JobType::Operation(Operation::Write) => "write",
        JobType::Operation(Operation::Read) => "read",
        JobType::Operation(Operation::Compare) => "compare",
        JobType::Operation(Operation::Erase) => "erase",
        JobType::Operation(Operation::BlankCheck) => "blank check",
        JobType::LockRequest => "lock",
    };
    let (area, address, length) = (target.area, target.address, target.length);
    format!("job {} {area} {address} {length} {name}", job_type.number())
}

fn admitted_lines(audit: &Audit, job: &Admitted) -> Vec<String> {
    let bytes = reach::image_bytes(&audit.plan, job.area, &job.work.job.target.addresses());
    let mut lines = vec![job_line(&job.work.job)];
    lines.extend(image_lines(job.work.job.job_type, &bytes));
    lines.push(window_line(&audit.plan, job));
    lines.extend(match &job.work.task {
        Task::Pieces(_, pieces) => piece_lines(&audit.plan, pieces, &bytes),
        Task::LockOf(device) => {
            let stretch = stretch_line(&audit.plan, 1, *device);
            vec![stretch, "segments 0 stretches 1".to_string()]
        }
    });
    lines.extend(wait_lines(audit, job));
    lines
}

/// The image bytes that the job can reach, run by run.
fn image_lines(job_type: JobType, bytes: &[ImageByte]) -> Vec<String> {
    let reached = match job_type {
        JobType::LockRequest => return vec!["image none".to_string()],
        JobType::Operation(Operation::Write | Operation::Erase) => {
            "changed by RoundChanges.image-reach"
        }
        JobType::Operation(Operation::Read | Operation::Compare | Operation::BlankCheck) => {
            "looked at by Demand2.cut"
        }
    };
    let line = |run: &[ImageByte]| {
        format!("image device {} bytes {} {reached}", run[0].device, reach::ends(run))
    };
    reach::runs(bytes).map(line).collect()
}

/// The bytes of the store that the job can reach: as many as its length, from the window's start on.
fn window_line(plan: &Plan, job: &Admitted) -> String {
    let reached = match job.work.job.job_type {
        JobType::Operation(Operation::Read) => "changed by RoundChanges.store-reach",
        JobType::Operation(Operation::Write | Operation::Compare) => "looked at",
        JobType::Operation(Operation::Erase | Operation::BlankCheck) | JobType::LockRequest => {
            return "window none".to_string();
        }
    };
    let first = u64::from(plan.areas[job.area].window_start);
    let last = first + u64::from(job.work.job.target.length) - 1;
    format!("window bytes {first}..{last} {reached}")
}

/// Segments and stretches, each stretch before its first segment, and how many there are.
fn piece_lines(plan: &Plan, pieces: &[Piece], bytes: &[ImageByte]) -> Vec<String> {
    let starts = reach::stretch_starts(bytes);
    let mut lines = Vec::new();
    let mut place = 0;
    for (number, piece) in (1..).zip(pieces) {
        let part = &bytes[place..place + index(piece.length)];
        if let Some(stretches_before) = starts.iter().position(|start| *start == place) {
            lines.push(stretch_line(plan, stretches_before + 1, part[0].device));
        }
        lines.push(segment_line(plan, number, piece.retries, part));
        place += part.len();
    }
    lines.push(format!("segments {} stretches {}", pieces.len(), starts.len()));
    lines
}

fn stretch_line(plan: &Plan, number: usize, device: usize) -> String {
    let below = below_of_a_stretch(&plan.devices[device]);
    format!("stretch {number} device {device} below at most {below}")
}

fn segment_line(plan: &Plan, number: usize, retries: u8, part: &[ImageByte]) -> String {
    let device = part[0].device;
    let patience = u128::from(plan.devices[device].patience);
    let tries = u128::from(retries) + 1;
    let rounds = format!("rounds {patience} x {tries} = {}", patience * tries);
    format!("segment {number} device {device} bytes {} tries {tries} {rounds}", reach::ends(part))
}

/// The four counts and their sum.
fn wait_lines(audit: &Audit, job: &Admitted) -> Vec<String> {
    let held = "no bound: as long as an area holds the device";
    let (own, below, above) = (job.own, job.below, audit.above(job));
    vec![
        format!("own at most {own} by Demand3.own"),
        format!("below at most {below} by Demand3.below"),
        above_line(above),
        if audit.may_be_locked(job) {
            format!("locked {held}, as a lock request here may")
        } else {
            format!("locked 0 by OnlyThese.locked {IF_NO_OTHER}; else {held}")
        },
        match audit.rounds(job) {
            Some(sum) => {
                let sum = format!("{own} + {above} + {below} + 1 = {sum}");
                format!("rounds at most {sum} by OnlyThese.rounds {IF_NO_OTHER}")
            }
            None => "rounds no bound".to_string(),
        },
    ]
}

fn above_line(above: u128) -> String {
    if above >= SUM_LIMIT {
        return "above no figure: it is over 64 bits".to_string();
    }
    let otherwise = "else each job above it adds at most its own by Demands.above-bounded";
    format!("above at most {above} by OnlyThese.above {IF_NO_OTHER}; {otherwise}")
}
