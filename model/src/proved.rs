//! The proved library, called through its C interface. The only module with `unsafe` code.
//!
//! The types mirror the layout of the interface. Its names differ from document 01 in places: a
//! poll limit is the patience of a device, an erase unit and burst are sector and sector burst, a
//! write unit and burst page and page burst, a read unit and burst smallest and largest read.
#![allow(unsafe_code)]

#[cfg(feature = "session")]
pub mod queries;
#[cfg(feature = "session")]
pub mod session;
#[cfg(feature = "timing")]
pub mod timing;

#[repr(C)]
#[derive(Clone, Copy, Debug, Default, PartialEq, Eq)]
pub struct DeviceRecord {
    pub start: u32,
    pub length: u32,
    pub poll_limit: u16,
    /// Whether the chip can suspend an erase.
    pub suspends: bool,
    /// Whether writes only clear bits.
    pub clears: bool,
}

#[repr(C)]
#[derive(Clone, Copy, Debug, Default, PartialEq, Eq)]
pub struct Window {
    pub start: u32,
    pub length: u32,
}

#[repr(C)]
#[derive(Clone, Copy, Debug, Default, PartialEq, Eq)]
pub struct AreaRecord {
    pub priority: u16,
    /// The logical start.
    pub start: u32,
    pub window: Window,
}

#[repr(C)]
#[derive(Clone, Copy, Debug, Default, PartialEq, Eq)]
pub struct Granularity {
    pub unit: u32,
    pub burst: u32,
}

#[repr(C)]
#[derive(Clone, Copy, Debug, Default, PartialEq, Eq)]
pub struct SubAreaRecord {
    pub start: u32,
    pub erase: Granularity,
    pub write: Granularity,
    pub read: Granularity,
    pub sector_count: u32,
    pub area: u8,
    pub device: u8,
    pub write_retries: u8,
    pub erase_retries: u8,
}

#[repr(C)]
#[derive(Clone, Copy, Debug, Default, PartialEq, Eq)]
pub struct Plan {
    pub devices: [DeviceRecord; 4],
    pub areas: [AreaRecord; 8],
    pub sub_areas: [SubAreaRecord; 32],
    pub device_count: usize,
    pub area_count: usize,
    pub sub_area_count: usize,
    /// Of each sub-area; 0 where it has no wear record.
    pub endurance: [u32; 32],
}

#[repr(C)]
#[derive(Clone, Copy, Debug, Default, PartialEq, Eq)]
pub struct JobView {
    pub kind: u8,
    pub status: u8,
    pub result: u8,
    pub retries_left: u8,
    pub address: u32,
    pub length: u32,
    pub processed: u32,
}

#[repr(C)]
#[derive(Clone, Copy, Debug, Default, PartialEq, Eq)]
pub struct Waits {
    pub own: u32,
    pub above: u32,
    pub below: u32,
    pub locked: u32,
}

/// All zeros is a fresh area: idle, result 0, no job, all counts 0.
#[repr(C)]
#[derive(Clone, Copy, Debug, Default, PartialEq, Eq)]
pub struct AreaView {
    pub job: JobView,
    pub waits: Waits,
}

/// State 0 is nothing that runs, is locked or suspended.
#[repr(C)]
#[derive(Clone, Copy, Debug, Default, PartialEq, Eq)]
pub struct StateView {
    pub state: u8,
    pub area: u8,
    pub polls: u16,
}

#[repr(C)]
#[derive(Clone, Copy, Debug, Default, PartialEq, Eq)]
pub struct DeviceView {
    pub does: StateView,
    pub suspended: StateView,
}

#[repr(C)]
#[derive(Clone, Copy, Debug, Default, PartialEq, Eq)]
pub struct LoadView {
    pub number: u8,
    pub plan: Plan,
    pub areas: [AreaView; 8],
    pub devices: [DeviceView; 4],
    /// How many other areas had a job accepted since each area's latest one.
    pub ages: [u8; 8],
    /// The wear sum of each sub-area.
    pub wear: [u32; 32],
}

extern "C" {
    fn luvdrog_load(bytes: *const u8, len: usize) -> LoadView;
}

/// Loads a plan with the proved library.
pub fn load(bytes: &[u8]) -> LoadView {
    // SAFETY: pointer and length are those of one live slice, which the call only reads, and the
    // types above mirror the layout of the library's own.
    unsafe { luvdrog_load(bytes.as_ptr(), bytes.len()) }
}
