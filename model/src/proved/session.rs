//! Whole sessions on the proved library.

use crate::subject::Subject;

/// Bytes of the input that were used, and bytes of the output that were written.
#[repr(C)]
pub(super) struct Counts {
    pub(super) used: usize,
    pub(super) written: usize,
}

extern "C" {
    fn luvdrog_session(
        plan: *const u8,
        plan_length: usize,
        input: *const u8,
        input_length: usize,
        image: *mut u8,
        image_length: usize,
        store: *mut u8,
        store_length: usize,
        output: *mut u8,
        output_length: usize,
    ) -> Counts;
}

/// More than any line of the output takes.
const ROOM_OF_A_LINE: usize = 512;

/// The proved library as a subject.
pub struct Library;

/// Room for all that a session prints.
pub(super) fn room(input: &[u8]) -> usize {
    let lines = input.iter().filter(|byte| **byte == b'\n').count() + 2;
    lines * ROOM_OF_A_LINE
}

impl Subject for Library {
    fn session(
        &mut self,
        plan: &[u8],
        input: &[u8],
        image: &mut [u8],
        store: &mut [u8],
    ) -> Vec<u8> {
        let mut output = vec![0; room(input)];
        // SAFETY: each pointer and length are those of one live slice, of which the call only
        // reads the first two; the slices that it writes share no byte with any other.
        let counts = unsafe {
            luvdrog_session(
                plan.as_ptr(),
                plan.len(),
                input.as_ptr(),
                input.len(),
                image.as_mut_ptr(),
                image.len(),
                store.as_mut_ptr(),
                store.len(),
                output.as_mut_ptr(),
                output.len(),
            )
        };
        assert!(counts.used <= input.len(), "no more is used than there is");
        output.truncate(counts.written);
        output
    }
}
