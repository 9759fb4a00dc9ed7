//! Demand 1 and the mapping, worked out a third time: without the manager and without the cutting of
//! jobs into pieces.

use crate::jobs::Operation;
use crate::plan::{Chip, Plan};
use crate::segments::index;
use crate::wait_book::{Fate, Finished, Outcome};

/// What is lent behind the end of the memory that there is.
const FILLER: u8 = 0x5A;

/// Memory of this length: a part of the bytes, or all of them and more.
pub fn lent(bytes: &[u8], length: usize) -> Vec<u8> {
    let mut lent = bytes.to_vec();
    lent.resize(length, FILLER);
    lent
}

/// Takes back what was lent, as far as it goes.
pub fn give_back(bytes: &mut [u8], lent: &[u8]) {
    let length = bytes.len().min(lent.len());
    bytes[..length].copy_from_slice(&lent[..length]);
}

/// Image and store as the rules have them after requests ended so. Where nothing ended, nothing
/// changes; a changed byte lies in a request that ended, with the value that the rules give it.
pub fn owed(plan: &Plan, fates: &[Fate], image: &[u8], store: &[u8]) -> (Vec<u8>, Vec<u8>) {
    let (mut owed_image, mut owed_store) = (image.to_vec(), store.to_vec());
    for fate in fates {
        let Fate::Ends(finished) = fate else {
            continue;
        };
        let window_start = u64::from(plan.areas[finished.area].window_start) + finished.offset;
        for byte in 0..acted(finished) {
            let address = finished.piece.start + byte;
            let (image_byte, window_byte) = (index(address), index(window_start + byte));
            match finished.operation {
                Operation::Write => {
                    let (old, window) = (image[image_byte], store[window_byte]);
                    owed_image[image_byte] = written(chip_at(plan, address), old, window);
                }
                Operation::Erase => owed_image[image_byte] = 255,
                Operation::Read => owed_store[window_byte] = image[image_byte],
                Operation::Compare | Operation::BlankCheck => {}
            }
        }
    }
    (owed_image, owed_store)
}

/// The chip that an image byte lies on.
fn chip_at(plan: &Plan, address: u64) -> Chip {
    let device = plan.devices.iter().find(|device| device.bytes().contains(&address));
    device.expect("inside the image").chip
}

/// What a write leaves in the place of a byte. "In demand 2, success of a write there means that
/// content; other chips store as before."
fn written(chip: Chip, old: u8, window: u8) -> u8 {
    match chip {
        Chip::Plain | Chip::Suspending => window,
        Chip::Clearing => cleared(old, window),
    }
}

/// "On NOR flash a write can turn a bit from 1 to 0 and never back": the bits that were 1 and that the
/// window has as 0 go, all others stay.
fn cleared(old: u8, window: u8) -> u8 {
    let value = |bit: u32| 2u8.pow(bit);
    let is_1 = |byte: u8, bit: u32| byte / value(bit) % 2 == 1;
    let turned = (0..8).filter(|bit| is_1(old, *bit) && !is_1(window, *bit));
    old - turned.map(value).sum::<u8>()
}

/// On how many of its bytes a request has acted.
pub fn acted(finished: &Finished) -> u64 {
    match (finished.outcome, finished.operation) {
        (Outcome::Done, _) => finished.piece.length,
        (Outcome::Failed { acted }, Operation::Write | Operation::Erase) => acted,
        (Outcome::Failed { .. } | Outcome::Inconsistent, _) => 0,
    }
}

/// The image byte of a logical address inside an area: "its sub-areas joined in plan order".
pub fn mapped(plan: &Plan, area: usize, address: u64) -> u64 {
    let mut offset = address - u64::from(plan.areas[area].logical_start);
    for sub_area in &plan.sub_areas {
        if usize::from(sub_area.area) != area {
            continue;
        }
        if offset < sub_area.size() {
            return u64::from(sub_area.start) + offset;
        }
        offset -= sub_area.size();
    }
    panic!("logical address {address} is not in area {area}")
}
