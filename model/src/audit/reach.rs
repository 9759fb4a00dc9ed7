//! The bytes of a job one by one, in job order, and what is told from neighbours among them.

use crate::plan::{Plan, SubArea};
use crate::segments::index;
use std::ops::Range;

/// A byte of the image.
#[derive(Clone, Copy, Debug, PartialEq, Eq)]
pub struct ImageByte {
    pub device: usize,
    pub address: u64,
}

/// Where the bytes of a range of logical addresses inside an area lie: "An area's logical space begins at
/// its logical start and is its sub-areas joined in plan order". The device is the one whose bytes these
/// are.
pub fn image_bytes(plan: &Plan, area: usize, range: &Range<u64>) -> Vec<ImageByte> {
    let sub_areas = plan.sub_areas.iter().filter(|s| usize::from(s.area) == area);
    let logical_start = u64::from(plan.areas[area].logical_start);
    let addresses = sub_areas.flat_map(SubArea::bytes).skip(index(range.start - logical_start));
    addresses.take(index(range.end - range.start)).map(|address| on_device(plan, address)).collect()
}

fn on_device(plan: &Plan, address: u64) -> ImageByte {
    let mut devices = plan.devices.iter();
    let device = devices.position(|device| device.bytes().contains(&address));
    ImageByte { device: device.expect("inside the image"), address }
}

/// The longest runs, in job order, of bytes that lie one behind the other on one device. Inside a segment
/// each byte does, so that a run never ends but at a border of two.
pub fn runs(bytes: &[ImageByte]) -> impl Iterator<Item = &[ImageByte]> {
    let follows = |one: &ImageByte, next: &ImageByte| {
        next.device == one.device && next.address == one.address + 1
    };
    bytes.chunk_by(follows)
}

/// The places in the job where stretches begin: there is no byte before, or one on another device.
pub fn stretch_starts(bytes: &[ImageByte]) -> Vec<usize> {
    let device = |place: usize| bytes[place].device;
    let begins = |place: &usize| *place == 0 || device(place - 1) != device(*place);
    (0..bytes.len()).filter(begins).collect()
}

/// First and last address of bytes that lie one behind the other.
pub fn ends(run: &[ImageByte]) -> String {
    format!("{}..{}", run[0].address, run[run.len() - 1].address)
}
