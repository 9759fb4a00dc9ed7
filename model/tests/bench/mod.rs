//! A session whose lines are checked one by one, and plan E to the byte.

use model::plan::Plan;
use model::plans::encode;
use model::session::Session;

/// A session whose lines are checked one by one.
pub struct Bench(pub Session);

impl Bench {
    pub fn on(plan: &Plan) -> Bench {
        Bench(Session::open(Some(&encode(plan))).expect("an accepted plan"))
    }

    /// Each line prints its answer.
    pub fn run(&mut self, session: &[(&str, &str)]) {
        for (line, answer) in session {
            assert_eq!(self.0.answer(line.as_bytes()), *answer, "{line}");
        }
    }
}

/// Plan E byte for byte, written by hand from the fields and widths of document 01.
#[rustfmt::skip]
pub const PLAN_E: [u8; 174] = [
    0x44, 0x53,  0, 0, 0, 0,  64, 0, 0, 0,  3, 0,
    0x41, 0x52,  1, 0,  0, 0, 0, 0,  0, 0, 0, 0,  8, 0, 0, 0,
    0x41, 0x52,  5, 0,  0, 1, 0, 0,  8, 0, 0, 0,  8, 0, 0, 0,
    0x41, 0x52,  9, 0,  0, 2, 0, 0,  16, 0, 0, 0,  8, 0, 0, 0,
    0x53, 0x42,  0, 0,  0, 0, 0, 0,
    16, 0, 0, 0,  16, 0, 0, 0,  4, 0, 0, 0,  4, 0, 0, 0,  1, 0, 0, 0,  8, 0, 0, 0,
    1, 0, 0, 0,  0, 0,
    0x53, 0x42,  1, 0,  16, 0, 0, 0,
    16, 0, 0, 0,  16, 0, 0, 0,  4, 0, 0, 0,  4, 0, 0, 0,  1, 0, 0, 0,  4, 0, 0, 0,
    1, 0, 0, 0,  1, 0,
    0x53, 0x42,  2, 0,  32, 0, 0, 0,
    16, 0, 0, 0,  16, 0, 0, 0,  4, 0, 0, 0,  4, 0, 0, 0,  1, 0, 0, 0,  8, 0, 0, 0,
    2, 0, 0, 0,  0, 0,
];
