//! The terms that calls are made of: job types and results with the numbers of 000, the range that a
//! call names, and the answers of the devices.

use crate::plan::SubArea;
use std::ops::Range;

/// A job that is cut into pieces: "the five jobs" of the questions.
#[derive(Clone, Copy, Debug, PartialEq, Eq)]
pub enum Operation {
    Write,
    Read,
    Compare,
    Erase,
    BlankCheck,
}

#[derive(Clone, Copy, Debug, PartialEq, Eq)]
pub enum JobType {
    Operation(Operation),
    LockRequest,
}

/// "Results (000): 0 OK, 1 failed, 2 inconsistent, 3 cancelled."
#[derive(Clone, Copy, Debug, PartialEq, Eq)]
pub enum JobResult {
    Ok,
    Failed,
    Inconsistent,
    Cancelled,
}

/// "A round takes the four answers of its devices, one each: pending, done, or failed after k
/// bytes."
#[derive(Clone, Copy, Debug, PartialEq, Eq)]
pub enum Answer {
    Pending,
    Done,
    Failed(u32),
}

/// What a call names: `length` bytes of an area's logical space from `address` on. Neither the area
/// nor the range need be there.
#[derive(Clone, Copy, Debug, PartialEq, Eq)]
pub struct Target {
    pub area: u32,
    pub address: u32,
    pub length: u32,
}

/// An accepted job.
#[derive(Clone, Copy, Debug, PartialEq, Eq)]
pub struct Job {
    pub job_type: JobType,
    pub target: Target,
}

impl Operation {
    pub const ALL: [Operation; 5] = [
        Operation::Write,
        Operation::Read,
        Operation::Compare,
        Operation::Erase,
        Operation::BlankCheck,
    ];

    pub fn number(self) -> u8 {
        match self {
            Operation::Write => 1,
            Operation::Read => 2,
            Operation::Compare => 3,
            Operation::Erase => 4,
            Operation::BlankCheck => 6,
        }
    }

    /// "The unit of an operation is sector, page or smallest read."
    pub fn unit(self, sub_area: &SubArea) -> u32 {
        match self {
            Operation::Erase => sub_area.sector,
            Operation::Write => sub_area.page,
            Operation::Read | Operation::Compare | Operation::BlankCheck => sub_area.smallest_read,
        }
    }

    /// "Retries per piece, a constant table: write and erase use the sub-area's two numbers, the
    /// others 0."
    pub fn retries(self, sub_area: &SubArea) -> u8 {
        match self {
            Operation::Write => sub_area.write_retries,
            Operation::Erase => sub_area.erase_retries,
            Operation::Read | Operation::Compare | Operation::BlankCheck => 0,
        }
    }

    /// Has the operation bytes in the area's window?
    pub fn uses_window(self) -> bool {
        matches!(self, Operation::Write | Operation::Read | Operation::Compare)
    }
}

impl JobType {
    pub fn number(self) -> u8 {
        match self {
            JobType::Operation(operation) => operation.number(),
            JobType::LockRequest => 7,
        }
    }
}

impl JobResult {
    pub fn number(self) -> u8 {
        match self {
            JobResult::Ok => 0,
            JobResult::Failed => 1,
            JobResult::Inconsistent => 2,
            JobResult::Cancelled => 3,
        }
    }
}

impl Target {
    /// The logical addresses of the range. The end is exact, also beyond 4,294,967,295.
    pub fn addresses(&self) -> Range<u64> {
        let start = u64::from(self.address);
        start..start + u64::from(self.length)
    }
}
