//! Whole sessions on the proved library with the queries when they are over.

use super::session::{room, Counts, Library};
use super::{Granularity, Waits};
use crate::answers::{Answered, Answers, Place, Queried};
use crate::manager::{self, JobInfo, MemoryInfo, RequestInfo, WearInfo};
use crate::script::Script;
use crate::subject::Outcome;

#[repr(C)]
struct StatusView {
    number: u8,
    status: u8,
}

#[repr(C)]
struct ResultView {
    number: u8,
    result: u8,
}

#[repr(C)]
struct ProcessedView {
    number: u8,
    processed: u32,
}

#[repr(C)]
struct JobInfoView {
    number: u8,
    kind: u8,
    address: u32,
    length: u32,
    result: u8,
    processed: u32,
    waits: Waits,
    request_device: u8,
    request_start: u64,
    request_length: u64,
    request_polls: u16,
}

#[repr(C)]
struct MemoryInfoView {
    number: u8,
    logical_start: u32,
    physical_start: u64,
    max_offset: u64,
    erase: Granularity,
    write: Granularity,
    read: Granularity,
    device: u8,
}

#[repr(C)]
struct WearInfoView {
    number: u8,
    sum: u32,
    charge: u64,
}

#[repr(C)]
struct QueryView {
    status: StatusView,
    result: ResultView,
    processed: ProcessedView,
    job_info: JobInfoView,
    memory_info: MemoryInfoView,
    wear_info: WearInfoView,
}

#[repr(C)]
struct SessionQueryView {
    session: Counts,
    queries: QueryView,
}

extern "C" {
    fn luvdrog_session_query(
        plan: *const u8,
        plan_length: usize,
        input: *const u8,
        input_length: usize,
        image: *mut u8,
        image_length: usize,
        store: *mut u8,
        store_length: usize,
        output: *mut u8,
        output_length: usize,
        area: usize,
        address: u32,
    ) -> SessionQueryView;
}

impl From<&JobInfoView> for JobInfo {
    fn from(view: &JobInfoView) -> Self {
        let Waits { own, above, below, locked } = view.waits;
        JobInfo {
            job_type: view.kind,
            address: view.address,
            length: view.length,
            result: view.result,
            processed: view.processed,
            waits: manager::Waits { own, above, below, locked },
            request: RequestInfo {
                device: u32::from(view.request_device),
                physical_address: narrow(view.request_start),
                length: narrow(view.request_length),
                polls: u32::from(view.request_polls),
            },
        }
    }
}

impl From<&MemoryInfoView> for MemoryInfo {
    fn from(view: &MemoryInfoView) -> Self {
        MemoryInfo {
            logical_start_address: view.logical_start,
            physical_start_address: narrow(view.physical_start),
            max_offset: narrow(view.max_offset),
            erase_sector_size: view.erase.unit,
            erase_sector_burst_size: view.erase.burst,
            min_read_size: view.read.unit,
            write_page_size: view.write.unit,
            max_read_size: view.read.burst,
            write_page_burst_size: view.write.burst,
            hw_id: u32::from(view.device),
        }
    }
}

impl From<&WearInfoView> for WearInfo {
    fn from(view: &WearInfoView) -> Self {
        WearInfo { sum: view.sum, charge: view.charge }
    }
}

impl From<&QueryView> for Answers {
    fn from(view: &QueryView) -> Self {
        let QueryView { status, result, processed, job_info, memory_info, wear_info } = view;
        Answers {
            status: Answered { number: status.number, value: status.status },
            result: Answered { number: result.number, value: result.result },
            processed: Answered { number: processed.number, value: processed.processed },
            job_info: Answered { number: job_info.number, value: job_info.into() },
            memory_info: Answered { number: memory_info.number, value: memory_info.into() },
            wear_info: Answered { number: wear_info.number, value: wear_info.into() },
        }
    }
}

fn narrow(number: u64) -> u32 {
    u32::try_from(number).expect("inside an image of 2^24 bytes")
}

/// Plays a session on this image and store, then asks about an area, which may have any number.
pub fn ask(
    script: &Script,
    (mut image, mut store): (Vec<u8>, Vec<u8>),
    area: usize,
    address: u32,
) -> (Outcome, Answers) {
    let input = script.input();
    let mut output = vec![0; room(&input)];
    // SAFETY: each pointer and length are those of one live slice, of which the call only reads the
    // first two; the slices that it writes share no byte with any other, and the types above mirror
    // the layout of the library's own.
    let view = unsafe {
        luvdrog_session_query(
            script.plan.as_ptr(),
            script.plan.len(),
            input.as_ptr(),
            input.len(),
            image.as_mut_ptr(),
            image.len(),
            store.as_mut_ptr(),
            store.len(),
            output.as_mut_ptr(),
            output.len(),
            area,
            address,
        )
    };
    assert!(view.session.used <= input.len(), "no more is used than there is");
    output.truncate(view.session.written);
    (Outcome { output, image, store }, Answers::from(&view.queries))
}

impl Queried for Library {
    fn after<'a>(&'a self, script: &'a Script) -> Box<dyn Fn(Place) -> Answers + 'a> {
        let memory = script.lending.memory();
        Box::new(move |Place { area, address }| {
            let area = usize::try_from(area).expect("an area's number fits usize");
            ask(script, memory.clone(), area, address).1
        })
    }
}
