//! The library of loops over calls: its calls are made many times over behind one call from here.
//! Every loop but that of the burst tests starts from a load; `loops` says what each of them does. Most
//! have two forms: calls that take a manager by value and hand the next one back, and an owner that holds
//! one manager and writes back what a call changes. Those that are grown do the same work on a manager
//! with 6 KB more.

use crate::jobs::Answer;
use crate::loops::Request;

/// Declares loops over jobs, which all have the same parameters.
macro_rules! job_loops {
    ($($name:ident)*) => {
        extern "C" {
            $(fn $name(
                plan: *const u8,
                plan_length: usize,
                kind: u8,
                length: u32,
                times: u32,
            ) -> u64;)*
        }
    };
}

/// Declares loops over rounds.
macro_rules! round_loops {
    ($($name:ident)*) => {
        extern "C" {
            $(fn $name(
                plan: *const u8,
                plan_length: usize,
                kind: u8,
                length: u32,
                answer: u32,
                times: u32,
                image: *mut u8,
                image_length: usize,
                store: *mut u8,
                store_length: usize,
            ) -> u64;)*
        }
    };
}

extern "C" {
    fn luvdrog_time_cancels(plan: *const u8, plan_length: usize, times: u32) -> u64;
    fn luvdrog_time_cancels_in_place(plan: *const u8, plan_length: usize, times: u32) -> u64;
    fn luvdrog_time_burst_tests(
        sizes: *const u64,
        sizes_length: usize,
        addresses: *const u64,
        addresses_length: usize,
    ) -> u64;
}

job_loops! {
    luvdrog_time_infos
    luvdrog_time_jobs
    luvdrog_time_jobs_in_place
    luvdrog_time_job_and_cancel
    luvdrog_time_job_and_cancel_in_place
    luvdrog_time_grown_job_and_cancel
    luvdrog_time_grown_job_and_cancel_in_place
    luvdrog_time_cuts
    luvdrog_time_placed_cuts
}

round_loops! {
    luvdrog_time_rounds
    luvdrog_time_rounds_in_place
    luvdrog_time_grown_rounds
    luvdrog_time_grown_rounds_in_place
}

/// A loop in both forms.
#[derive(Clone, Copy)]
pub struct Forms<Loop> {
    pub by_value: Loop,
    pub in_place: Loop,
}

#[derive(Clone, Copy)]
pub struct CancelLoop(unsafe extern "C" fn(*const u8, usize, u32) -> u64);

#[derive(Clone, Copy)]
pub struct JobLoop(unsafe extern "C" fn(*const u8, usize, u8, u32, u32) -> u64);

#[derive(Clone, Copy)]
pub struct RoundLoop(RoundFunction);

type RoundFunction = unsafe extern "C" fn(
    *const u8,
    usize,
    u8,
    u32,
    u32,
    u32,
    *mut u8,
    usize,
    *mut u8,
    usize,
) -> u64;

/// `loops::cancels` on a load.
pub const CANCELS: Forms<CancelLoop> = Forms {
    by_value: CancelLoop(luvdrog_time_cancels),
    in_place: CancelLoop(luvdrog_time_cancels_in_place),
};

/// `loops::jobs` on a load.
pub const JOBS: Forms<JobLoop> =
    Forms { by_value: JobLoop(luvdrog_time_jobs), in_place: JobLoop(luvdrog_time_jobs_in_place) };

/// `loops::jobs_and_cancels` on a load.
pub const JOBS_AND_CANCELS: Forms<JobLoop> = Forms {
    by_value: JobLoop(luvdrog_time_job_and_cancel),
    in_place: JobLoop(luvdrog_time_job_and_cancel_in_place),
};

pub const GROWN_JOBS_AND_CANCELS: Forms<JobLoop> = Forms {
    by_value: JobLoop(luvdrog_time_grown_job_and_cancel),
    in_place: JobLoop(luvdrog_time_grown_job_and_cancel_in_place),
};

/// `loops::begin`, then `loops::infos`. A query changes nothing: it has one form.
pub const INFOS: JobLoop = JobLoop(luvdrog_time_infos);

/// `loops::cuts` on the plan of a load. It calls nothing that changes a manager: it has one form.
pub const CUTS: JobLoop = JobLoop(luvdrog_time_cuts);

/// `loops::placed_cuts` on the plan of a load.
pub const PLACED_CUTS: JobLoop = JobLoop(luvdrog_time_placed_cuts);

/// `loops::begin`, then `loops::rounds`.
pub const ROUNDS: Forms<RoundLoop> = Forms {
    by_value: RoundLoop(luvdrog_time_rounds),
    in_place: RoundLoop(luvdrog_time_rounds_in_place),
};

pub const GROWN_ROUNDS: Forms<RoundLoop> = Forms {
    by_value: RoundLoop(luvdrog_time_grown_rounds),
    in_place: RoundLoop(luvdrog_time_grown_rounds_in_place),
};

impl<Loop> Forms<Loop> {
    pub fn both(self) -> [Loop; 2] {
        [self.by_value, self.in_place]
    }
}

impl CancelLoop {
    pub fn run(self, plan: &[u8], times: u32) -> u64 {
        // SAFETY: pointer and length are those of one live slice, which the call only reads.
        unsafe { (self.0)(plan.as_ptr(), plan.len(), times) }
    }
}

impl JobLoop {
    pub fn run(self, plan: &[u8], request: Request, times: u32) -> u64 {
        let kind = request.job_type.number();
        // SAFETY: pointer and length are those of one live slice, which the call only reads.
        unsafe { (self.0)(plan.as_ptr(), plan.len(), kind, request.length, times) }
    }
}

/// `loops::burst_tests`.
pub fn burst_tests(sizes: &[u64], addresses: &[u64]) -> u64 {
    // SAFETY: each pointer and length are those of one live slice, which the call only reads.
    unsafe {
        luvdrog_time_burst_tests(sizes.as_ptr(), sizes.len(), addresses.as_ptr(), addresses.len())
    }
}

/// The number of an answer: the library takes off 2 from that of a failed request.
fn answer_number(answer: Answer) -> u32 {
    match answer {
        Answer::Pending => 0,
        Answer::Done => 1,
        Answer::Failed(k) => k.saturating_add(2),
    }
}

impl RoundLoop {
    pub fn run(
        self,
        plan: &[u8],
        request: Request,
        answer: Answer,
        times: u32,
        image: &mut [u8],
        store: &mut [u8],
    ) -> u64 {
        let kind = request.job_type.number();
        // SAFETY: each pointer and length are those of one live slice, of which the call only reads
        // the first; the slices that it writes share no byte with any other.
        unsafe {
            (self.0)(
                plan.as_ptr(),
                plan.len(),
                kind,
                request.length,
                answer_number(answer),
                times,
                image.as_mut_ptr(),
                image.len(),
                store.as_mut_ptr(),
                store.len(),
            )
        }
    }
}
