//! Plans for long runs of rounds: pieces of one byte, so that jobs take many rounds, much patience,
//! and areas that begin on the devices in turn, so that all devices are busy.

use super::low_byte;
use crate::plan::{Area, Chip, Device, Plan, SubArea, WINDOW_LIMIT};

/// Bytes of each sub-area.
const SIZE: u32 = 8_192;

/// An enduring plan of these counts, spread evenly.
pub fn enduring(devices: u32, areas: u32, sub_areas: u32) -> Plan {
    // Where the next sub-area of each device begins: each has room for all of them.
    let room = SIZE * sub_areas;
    let mut next: Vec<_> = (0..devices).map(|device| device * room).collect();
    let mut sub_area = |number: u32| {
        let area = number * areas / sub_areas;
        let device = (number + area) % devices;
        let start = next[usize::try_from(device).expect("at most 4 devices")];
        next[usize::try_from(device).expect("at most 4 devices")] += SIZE;
        SubArea { area: low_byte(area), device: low_byte(device), start, ..one_byte_pieces() }
    };
    let sub_areas = (0..sub_areas).map(&mut sub_area).collect();
    let window_length = WINDOW_LIMIT / areas;
    let area = |number| Area {
        priority: 1,
        logical_start: 0,
        window_start: number * window_length,
        window_length,
    };
    let device = |number| Device {
        start: number * room,
        length: room,
        patience: u16::MAX,
        chip: Chip::Plain,
    };
    Plan {
        devices: (0..devices).map(device).collect(),
        areas: (0..areas).map(area).collect(),
        sub_areas,
        wear_records: Vec::new(),
    }
}

fn one_byte_pieces() -> SubArea {
    SubArea {
        area: 0,
        device: 0,
        start: 0,
        sector: 1,
        sector_burst: 1,
        page: 1,
        page_burst: 1,
        smallest_read: 1,
        largest_read: 1,
        sector_count: SIZE,
        write_retries: 255,
        erase_retries: 255,
    }
}
