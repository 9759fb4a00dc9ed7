//! The loops of the timing library on the model: for the benchmarks, and for the test that compares
//! what they answer. Calls take the areas 0 to 7 in turn; a job covers so many bytes from logical
//! address 0 on. Of the cutting alone there are three loops more: the burst test, and the pieces of a job,
//! looked up and not.
//!
//! Every call is really made in every turn. The compiler sees through a call that it can inline: a
//! refused one leaves the manager as it was, so that questions may be answered once before the loop, and
//! of job info only the field that is summed may be left. So a call is a function that is not inlined,
//! the manager and the arguments pass through `black_box` in each turn, and so does a whole answer. A
//! piece is looked up and cut in the same way. Of the burst tests only the lists pass through it, of
//! pieces that are not looked up only the sub-area: the sum takes each.

use crate::jobs::{Answer, JobType};
use crate::manager::Manager;
use crate::plan::{Plan, SubArea};
use crate::segments::{self, index};
use std::hint::black_box;

/// A job that every area is asked for.
#[derive(Clone, Copy, Debug)]
pub struct Request {
    pub job_type: JobType,
    pub length: u32,
}

const AREAS: u32 = 8;

#[inline(never)]
fn submit(manager: &mut Manager, request: Request, area: u32) -> u64 {
    let number = match request.job_type {
        JobType::Operation(operation) => manager.job(operation, area, 0, request.length),
        JobType::LockRequest => manager.lock(area, 0, request.length),
    };
    u64::from(number)
}

#[inline(never)]
fn cancel(manager: &mut Manager, area: u32) -> u64 {
    manager.cancel(area).into()
}

#[inline(never)]
fn info(manager: &mut Manager, area: u32) -> u64 {
    black_box(manager.job_info(area)).map_or(0, |info| info.length.into())
}

#[inline(never)]
fn round(manager: &mut Manager, answer: Answer, image: &mut [u8], store: &mut [u8]) -> u64 {
    manager.round([answer; 4], image, store).into()
}

/// The sum of what the calls answer, made on the areas in turn.
fn sum(manager: &mut Manager, times: u32, mut call: impl FnMut(&mut Manager, u32) -> u64) -> u64 {
    (0..times).map(|number| call(black_box(&mut *manager), black_box(number % AREAS))).sum()
}

/// Cancels; the sum of the numbers.
pub fn cancels(manager: &mut Manager, times: u32) -> u64 {
    sum(manager, times, cancel)
}

/// Jobs; the sum of the numbers.
pub fn jobs(manager: &mut Manager, request: Request, times: u32) -> u64 {
    sum(manager, times, |manager, area| submit(manager, black_box(request), area))
}

/// Jobs, each cancelled at once; the sum of all numbers.
pub fn jobs_and_cancels(manager: &mut Manager, request: Request, times: u32) -> u64 {
    sum(manager, times, |manager, area| {
        let number = submit(manager, black_box(request), area);
        number + cancel(black_box(manager), area)
    })
}

/// Asks each area for a job: what infos and rounds start from.
pub fn begin(manager: &mut Manager, request: Request) {
    jobs(manager, request, AREAS);
}

/// Job info; the sum of the lengths that it gives.
pub fn infos(manager: &mut Manager, times: u32) -> u64 {
    sum(manager, times, info)
}

/// Rounds in which every device gives the same answer; the sum of the numbers and of what the jobs have
/// processed and the first eight sub-areas have worn by then.
pub fn rounds(
    manager: &mut Manager,
    answer: Answer,
    times: u32,
    image: &mut [u8],
    store: &mut [u8],
) -> u64 {
    let numbers = sum(manager, times, |manager, _| {
        round(manager, black_box(answer), black_box(&mut *image), black_box(&mut *store))
    });
    let processed = (0..AREAS).map(|area| u64::from(manager.processed(area).unwrap_or(0)));
    let worn = manager.worn().iter().take(8).map(|sum| u64::from(*sum));
    numbers + processed.sum::<u64>() + worn.sum::<u64>()
}

/// Of the pairs of a size and an address, as many as the shorter list has: in how many the address is a
/// multiple of the size. 0 alone is a multiple of 0.
pub fn burst_tests(sizes: &[u64], addresses: &[u64]) -> u64 {
    let pairs = black_box(sizes).iter().zip(black_box(addresses));
    pairs.map(|(size, address)| u64::from(address.is_multiple_of(*size))).sum()
}

/// The length of the piece that is due in area 0 once so many bytes of the job are done; 0 if there is
/// none: a lock request has none, nor has a plan without areas.
#[inline(never)]
fn cut(plan: &Plan, request: Request, processed: u64) -> u64 {
    let JobType::Operation(operation) = request.job_type else {
        return 0;
    };
    if plan.areas.is_empty() {
        return 0;
    }
    let rest = processed..u64::from(request.length);
    black_box(segments::next_piece(plan, operation, 0, rest)).map_or(0, |piece| piece.length)
}

/// The same of a job that begins with the sub-area, which need not be looked for; 0 behind its end.
fn placed_cut(sub_area: &SubArea, request: Request, processed: u64) -> u64 {
    let JobType::Operation(operation) = request.job_type else {
        return 0;
    };
    let end = sub_area.size().min(request.length.into());
    if processed >= sub_area.size() {
        return 0;
    }
    let start = u64::from(sub_area.start) + processed;
    segments::piece_length(operation, sub_area, start, end - processed)
}

/// Pieces of a job one after the other. Behind the last one the job begins anew; where there is none it
/// stays where it is. The sum of the bytes that are done after each turn, 0 after one in which the job
/// ends.
fn sum_of_cuts(length: u32, times: u32, mut cut: impl FnMut(u32, u64) -> u64) -> u64 {
    let (mut processed, mut sum) = (0, 0);
    for number in 0..times {
        processed += cut(number, processed);
        if processed >= u64::from(length) {
            processed = 0;
        }
        sum += processed;
    }
    sum
}

/// Pieces of a job of area 0, whether or not the area would accept it.
pub fn cuts(plan: &Plan, request: Request, times: u32) -> u64 {
    sum_of_cuts(request.length, times, |_, processed| {
        cut(black_box(plan), black_box(request), black_box(processed))
    })
}

/// The most sub-areas that a plan has.
const SUB_AREAS: u32 = 32;

/// The same without the lookup: each next piece is cut in the next of 32 sub-areas, and in those that the
/// plan does not have there is none. The rest does not pass through `black_box`, which would
/// be dearer than the cut.
pub fn placed_cuts(plan: &Plan, request: Request, times: u32) -> u64 {
    sum_of_cuts(request.length, times, |number, processed| {
        let sub_area = plan.sub_areas.get(index(u64::from(number % SUB_AREAS)));
        sub_area.map_or(0, |s| placed_cut(black_box(s), request, processed))
    })
}
