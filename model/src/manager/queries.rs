//! "Queries (status, result, processed length, job info, memory info of 000)", and wear info of Req 05: they
//! answer with their values, or with the number of the first question answered "no".

use super::{Manager, Request, Waits};
use crate::admission;
use crate::plan::SubArea;
use crate::segments::{self, Placed};

/// "job info (type, address, length, result, processed length, counts, request's device, physical
/// address, length, polls)".
#[derive(Clone, Copy, Debug, Default, PartialEq, Eq)]
pub struct JobInfo {
    /// 0, the "no job" of 000, before the first one.
    pub job_type: u8,
    pub address: u32,
    pub length: u32,
    pub result: u8,
    pub processed: u32,
    pub waits: Waits,
    pub request: RequestInfo,
}

/// "Request fields are 0 unless the area's request runs; the hardware id is the device number." "The
/// wait counts, in the wait book too, and job info take a parked erase as not running".
#[derive(Clone, Copy, Debug, Default, PartialEq, Eq)]
pub struct RequestInfo {
    pub device: u32,
    pub physical_address: u32,
    pub length: u32,
    pub polls: u32,
}

/// The sub-area that holds an address: the fields of 000, 8.2.9, in its order, each with its source
/// in the plan.
#[derive(Clone, Copy, Debug, Default, PartialEq, Eq)]
pub struct MemoryInfo {
    /// The area's logical start and the sizes of its earlier sub-areas.
    pub logical_start_address: u32,
    /// Physical start.
    pub physical_start_address: u32,
    /// "Size of sub address area in bytes -1": sector times sector count, less 1.
    pub max_offset: u32,
    /// Sector.
    pub erase_sector_size: u32,
    /// Sector burst.
    pub erase_sector_burst_size: u32,
    /// Smallest read.
    pub min_read_size: u32,
    /// Page.
    pub write_page_size: u32,
    /// Largest read.
    pub max_read_size: u32,
    /// Page burst.
    pub write_page_burst_size: u32,
    /// Device: "the hardware id is the device number".
    pub hw_id: u32,
}

/// "the sum of the sub-area there and its charge in millionths of the total endurance (endurance times
/// sector count), rounded up to a whole millionth"
#[derive(Clone, Copy, Debug, Default, PartialEq, Eq)]
pub struct WearInfo {
    pub sum: u32,
    /// More than a million behind the endurance.
    pub charge: u64,
}

impl From<&Request> for RequestInfo {
    fn from(request: &Request) -> Self {
        RequestInfo {
            device: u32::try_from(request.piece.device).expect("at most 4 devices"),
            physical_address: narrow(request.piece.start),
            length: narrow(request.piece.length),
            polls: u32::from(request.polls),
        }
    }
}

impl Manager {
    /// 0 idle, 1 pending (000, 8.2.6).
    pub fn status(&self, area: u32) -> Result<u8, u8> {
        let area = admission::known_area(self.sound_plan()?, area)?;
        Ok(u8::from(self.areas[area].is_pending))
    }

    /// Of a pending job, the result of the one before.
    pub fn result(&self, area: u32) -> Result<u8, u8> {
        let area = admission::known_area(self.sound_plan()?, area)?;
        Ok(self.areas[area].result.number())
    }

    pub fn processed(&self, area: u32) -> Result<u32, u8> {
        let area = admission::known_area(self.sound_plan()?, area)?;
        Ok(narrow(self.areas[area].processed))
    }

    pub fn job_info(&self, area: u32) -> Result<JobInfo, u8> {
        let area = admission::known_area(self.sound_plan()?, area)?;
        Ok(self.info_unasked(area))
    }

    /// Job info without its questions. Open for tests that make a manager wrong and look at it.
    pub fn info_unasked(&self, area: usize) -> JobInfo {
        let state = &self.areas[area];
        let request = self.running_request(area);
        JobInfo {
            job_type: state.job.map_or(0, |job| job.job_type.number()),
            address: state.job.map_or(0, |job| job.target.address),
            length: state.job.map_or(0, |job| job.target.length),
            result: state.result.number(),
            processed: narrow(state.processed),
            waits: state.waits,
            request: request.as_ref().map_or(RequestInfo::default(), RequestInfo::from),
        }
    }

    pub fn memory_info(&self, area: u32, address: u32) -> Result<MemoryInfo, u8> {
        let placed = self.sub_area_at(area, address)?;
        let sub_area = placed.sub_area;
        Ok(MemoryInfo {
            logical_start_address: narrow(placed.logical.start),
            physical_start_address: sub_area.start,
            max_offset: narrow(sub_area.size() - 1),
            erase_sector_size: sub_area.sector,
            erase_sector_burst_size: sub_area.sector_burst,
            min_read_size: sub_area.smallest_read,
            write_page_size: sub_area.page,
            max_read_size: sub_area.largest_read,
            write_page_burst_size: sub_area.page_burst,
            hw_id: u32::from(sub_area.device),
        })
    }

    /// "A sub-area without record has charge 0": it has a sum all the same.
    pub fn wear_info(&self, area: u32, address: u32) -> Result<WearInfo, u8> {
        let placed = self.sub_area_at(area, address)?;
        let sum = self.wear[placed.number];
        let endurance = self.plan.endurance(placed.number);
        let charge = endurance.map_or(0, |endurance| charge(sum, endurance, placed.sub_area));
        Ok(WearInfo { sum, charge })
    }

    /// What memory info and wear info are asked of.
    fn sub_area_at(&self, area: u32, address: u32) -> Result<Placed<'_>, u8> {
        let area = admission::memory_info(self.sound_plan()?, area, address)?;
        let placed = segments::holder(&self.plan, area, u64::from(address));
        Ok(placed.expect("the address is inside the area"))
    }
}

/// The least whole number of millionths of the total that is not below the sum.
fn charge(sum: u32, endurance: u32, sub_area: &SubArea) -> u64 {
    let total = u128::from(endurance) * u128::from(sub_area.sector_count);
    let worn = u128::from(sum) * 1_000_000;
    let whole = worn / total;
    let charge = if whole * total < worn { whole + 1 } else { whole };
    u64::try_from(charge).expect("at most a million times a sum of 32 bits")
}

/// Addresses and lengths inside an area fit: question 7 keeps its end within 32 bits.
fn narrow(number: u64) -> u32 {
    u32::try_from(number).expect("inside an area of an accepted plan")
}
