//! "The mapping and the pieces": from logical addresses to the image, and the cutting of jobs. Pure
//! functions of the plan and the job, used by the manager and by the wait book.

use crate::jobs::Operation;
use crate::plan::{Plan, SubArea};
use std::ops::Range;

/// A sub-area at its place in the logical space of its area.
#[derive(Clone, Debug)]
pub struct Placed<'a> {
    /// Of the sub-area in the plan.
    pub number: usize,
    pub sub_area: &'a SubArea,
    pub logical: Range<u64>,
}

/// A part of a job in one sub-area: what a request to a device is made of.
#[derive(Clone, Copy, Debug, PartialEq, Eq)]
pub struct Piece {
    pub device: usize,
    /// Physical address: byte `start` of the image.
    pub start: u64,
    pub length: u64,
    /// The retries that the piece has when it becomes due.
    pub retries: u8,
}

impl Placed<'_> {
    /// The physical address of a logical address in this sub-area.
    pub fn physical(&self, address: u64) -> u64 {
        u64::from(self.sub_area.start) + (address - self.logical.start)
    }
}

impl Piece {
    /// The image bytes of the first `length` bytes of the piece.
    pub fn first_bytes(&self, length: u64) -> Range<usize> {
        index(self.start)..index(self.start + length)
    }

    /// The image bytes of the piece.
    pub fn bytes(&self) -> Range<usize> {
        self.first_bytes(self.length)
    }
}

/// An offset in image or store as an index.
pub fn index(offset: u64) -> usize {
    usize::try_from(offset).expect("image and store are in memory")
}

/// "An area's logical space begins at its logical start and is its sub-areas joined in plan order."
pub fn placed(plan: &Plan, area: usize) -> impl Iterator<Item = Placed<'_>> {
    let mut end = u64::from(plan.areas[area].logical_start);
    let numbered = plan.sub_areas.iter().enumerate();
    numbered.filter(move |(_, s)| usize::from(s.area) == area).map(move |(number, sub_area)| {
        let start = end;
        end = start + sub_area.size();
        Placed { number, sub_area, logical: start..end }
    })
}

/// The sub-area that holds the byte at a logical address: "the lookup walks the sub-area records in
/// plan order".
pub fn holder(plan: &Plan, area: usize, address: u64) -> Option<Placed<'_>> {
    placed(plan, area).find(|p| p.logical.contains(&address))
}

/// The device of the byte at a logical address.
pub fn device(plan: &Plan, area: usize, address: u64) -> Option<usize> {
    holder(plan, area, address).map(|p| usize::from(p.sub_area.device))
}

/// The next piece of a job of which the logical addresses `rest` are left; none if none are.
pub fn next_piece(
    plan: &Plan,
    operation: Operation,
    area: usize,
    rest: Range<u64>,
) -> Option<Piece> {
    if rest.is_empty() {
        return None;
    }
    let placed = holder(plan, area, rest.start)?;
    let start = placed.physical(rest.start);
    let left_here = rest.end.min(placed.logical.end) - rest.start;
    Some(Piece {
        device: usize::from(placed.sub_area.device),
        start,
        length: piece_length(operation, placed.sub_area, start, left_here),
        retries: operation.retries(placed.sub_area),
    })
}

/// All pieces of a job, in order.
pub fn pieces(
    plan: &Plan,
    operation: Operation,
    area: usize,
    range: Range<u64>,
) -> impl Iterator<Item = Piece> + '_ {
    let mut rest = range;
    std::iter::from_fn(move || {
        let piece = next_piece(plan, operation, area, rest.clone())?;
        rest.start += piece.length;
        Some(piece)
    })
}

/// "At physical address p with n job bytes left in this sub-area, the next piece is: erase: a sector
/// burst if p is a multiple of it and n is at least it, else one sector; write: the same with page
/// burst and page; read, compare, blank check: n or the largest read, the smaller."
///
/// Req 04 of document 02 wants no division where the burst is a power of two, and "Pieces and contracts
/// keep their present meaning". The model divides for every burst: it is what the mask is held against.
pub fn piece_length(operation: Operation, sub_area: &SubArea, p: u64, n: u64) -> u64 {
    let burst_or_unit = |burst: u32, unit: u32| {
        let fits = p.is_multiple_of(u64::from(burst)) && n >= u64::from(burst);
        u64::from(if fits { burst } else { unit })
    };
    match operation {
        Operation::Erase => burst_or_unit(sub_area.sector_burst, sub_area.sector),
        Operation::Write => burst_or_unit(sub_area.page_burst, sub_area.page),
        Operation::Read | Operation::Compare | Operation::BlankCheck => {
            n.min(u64::from(sub_area.largest_read))
        }
    }
}
