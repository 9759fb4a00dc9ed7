//! The calls of the manager as values, so that lists of them can be made, printed and run.

use crate::jobs::{Answer, Operation, Target};
use crate::manager::Manager;

#[derive(Clone, Copy, Debug, PartialEq, Eq)]
pub enum Call {
    Job(Operation, Target),
    Lock(Target),
    Release(Target),
    Cancel { area: u32 },
    Round([Answer; 4]),
    Query(Query, u32),
}

/// What is asked about an area.
#[derive(Clone, Copy, Debug, PartialEq, Eq)]
pub enum Query {
    Status,
    Result,
    Processed,
    JobInfo,
    /// Of the sub-area that holds this address.
    MemoryInfo(u32),
    WearInfo(u32),
}

impl Call {
    /// Makes the call, a round with this memory, and gives its number: 0 if it is accepted.
    pub fn make(&self, manager: &mut Manager, image: &mut [u8], store: &mut [u8]) -> u8 {
        match *self {
            Call::Job(operation, t) => manager.job(operation, t.area, t.address, t.length),
            Call::Lock(t) => manager.lock(t.area, t.address, t.length),
            Call::Release(t) => manager.release(t.area, t.address, t.length),
            Call::Cancel { area } => manager.cancel(area),
            Call::Round(answers) => manager.round(answers, image, store),
            Call::Query(query, area) => query.make(manager, area),
        }
    }
}

impl Query {
    fn make(&self, manager: &Manager, area: u32) -> u8 {
        match *self {
            Query::Status => manager.status(area).err(),
            Query::Result => manager.result(area).err(),
            Query::Processed => manager.processed(area).err(),
            Query::JobInfo => manager.job_info(area).err(),
            Query::MemoryInfo(address) => manager.memory_info(area, address).err(),
            Query::WearInfo(address) => manager.wear_info(area, address).err(),
        }
        .unwrap_or(0)
    }
}
