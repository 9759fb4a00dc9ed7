//! A whole session as a value: plan, lines and the memory that it is lent, to be run on more than
//! one subject.

use crate::plan;
use crate::plans::{any, encode, full, largest, plan_s, plan_t, small, valid, wounded_wear};
use crate::random::Random;
use crate::segments::index;
use crate::session::{BENCH_SUM_LIMIT, PLAN_LIMIT, STORE_LENGTH};
use crate::sessions::{bench_plan, busy_calls, busy_plan, lines, lines_of};

/// Sessions on average from one busy session to the next: they are long.
const BETWEEN_BUSY_ONES: u32 = 100;

#[derive(Clone, Debug, PartialEq, Eq)]
pub struct Script {
    pub plan: Vec<u8>,
    /// Without their ends.
    pub lines: Vec<Vec<u8>>,
    pub is_last_ended: bool,
    pub lending: Lending,
}

/// The memory that a session is lent. The bench lends what fits; a round that is lent other lengths
/// is refused.
#[derive(Clone, Copy, Debug, PartialEq, Eq)]
pub struct Lending {
    pub image_length: usize,
    pub store_length: usize,
    pub bytes: Bytes,
}

#[derive(Clone, Copy, Debug, PartialEq, Eq)]
pub enum Bytes {
    /// "image all 255, store 65,536 zeros"
    Bench,
    /// Drawn with this seed.
    Drawn(u64),
}

impl Lending {
    /// What the bench lends to this plan; nothing of use if it does not take the plan.
    pub fn bench(plan: &[u8]) -> Lending {
        let sum = plan::load(plan).map_or(0, |plan| plan.device_sum().min(BENCH_SUM_LIMIT));
        Lending { image_length: index(sum), store_length: STORE_LENGTH, bytes: Bytes::Bench }
    }

    /// The same bytes in the lengths that the bench lends to this plan.
    pub fn fitted(&self, plan: &[u8]) -> Lending {
        Lending { bytes: self.bytes, ..Lending::bench(plan) }
    }

    /// What fits, in two of three cases with bytes of any value: on an image all 255 it takes two
    /// writes to see that a chip only clears bits.
    fn fitting(random: &mut Random, plan: &[u8]) -> Lending {
        let mut lending = Lending::bench(plan);
        if !random.one_in(3) {
            lending.bytes = Bytes::Drawn(random.bits());
        }
        lending
    }

    fn drawn(random: &mut Random, plan: &[u8]) -> Lending {
        let mut lending = Lending::fitting(random, plan);
        if random.one_in(16) {
            let length = lending.image_length;
            lending.image_length = random.pick(&[0, length.saturating_sub(1), length + 1]);
        }
        if random.one_in(8) {
            let few = random.index(300);
            lending.store_length = random.pick(&[0, few, STORE_LENGTH - 1, STORE_LENGTH + 1]);
        }
        lending
    }

    /// Image and store. What is drawn for the one does not hang on the length of the other.
    pub fn memory(&self) -> (Vec<u8>, Vec<u8>) {
        match self.bytes {
            Bytes::Bench => (vec![255; self.image_length], vec![0; self.store_length]),
            Bytes::Drawn(seed) => {
                let drawn = |seed: u64, length: usize| Random::new(seed).bytes(length);
                (drawn(seed, self.image_length), drawn(!seed, self.store_length))
            }
        }
    }
}

impl Script {
    /// A session of up to so many lines; few of them on a plan that may be refused. One in many is
    /// a busy one instead, of as many lines as it takes.
    pub fn drawn(random: &mut Random, most_lines: usize) -> Script {
        if random.one_in(BETWEEN_BUSY_ONES) {
            return Script::busy(random);
        }
        let plan = drawn_plan(random);
        let is_taken = plan::load(&plan).is_ok_and(|plan| plan.device_sum() <= BENCH_SUM_LIMIT);
        let line_count = if is_taken { random.index(most_lines) + 1 } else { random.index(4) };
        Script {
            lines: drawn_lines(random, &plan, line_count),
            is_last_ended: !random.one_in(4),
            lending: Lending::drawn(random, &plan),
            plan,
        }
    }

    /// A session in which every area has hundreds of jobs accepted.
    fn busy(random: &mut Random) -> Script {
        let records = busy_plan(random);
        let plan = encode(&records);
        Script {
            lines: lines_of(&busy_calls(random, &records), &records),
            is_last_ended: true,
            lending: Lending::fitting(random, &plan),
            plan,
        }
    }

    /// A session of so many erases of a sub-area with as many sectors as the bench takes, 65,536 of one byte,
    /// each in one burst: 65,536 of them bring its wear to 2^32, beyond what its sum can say.
    pub fn wearing_out(erases: usize) -> Script {
        let plan = encode(&plan_s());
        let lines = ["4 0 0 65536", "0 d", "0 d"].map(|line| line.as_bytes().to_vec());
        Script {
            lines: lines.iter().cloned().cycle().take(3 * erases).collect(),
            is_last_ended: true,
            lending: Lending::bench(&plan),
            plan,
        }
    }

    /// What the bench reads.
    pub fn input(&self) -> Vec<u8> {
        let mut input = self.lines.join(&b'\n');
        if self.is_last_ended && !self.lines.is_empty() {
            input.push(b'\n');
        }
        input
    }
}

/// A plan that the bench takes in most cases.
pub fn drawn_plan(random: &mut Random) -> Vec<u8> {
    match random.below(8) {
        0 => doubtful_plan(random),
        _ => encode(&bench_plan(random)),
    }
}

/// A plan of which the bench may take any view: damaged, with too large a sum, too long.
fn doubtful_plan(random: &mut Random) -> Vec<u8> {
    match random.below(8) {
        0 => encode(&valid(random)),
        1 => {
            // The longest plan that is looked at, and one byte more, which prints "?".
            let mut bytes = encode(&largest()).repeat(4);
            bytes.truncate(PLAN_LIMIT + random.index(2));
            bytes
        }
        2 => {
            let plan = if random.one_in(2) { small(random) } else { full(random) };
            wounded_wear(random, &plan)
        }
        _ => any(random),
    }
}

/// Lines over the plan, or over plan T where there is none, a few of them with a byte changed.
fn drawn_lines(random: &mut Random, plan: &[u8], count: usize) -> Vec<Vec<u8>> {
    let plan = plan::load(plan).unwrap_or_else(|_| plan_t());
    let mut texts: Vec<_> = lines(random, &plan, count).into_iter().map(|line| line.text).collect();
    for text in &mut texts {
        if random.one_in(64) {
            change_byte(random, text);
        }
    }
    texts
}

/// Any byte but the end of a line in the place of another.
fn change_byte(random: &mut Random, text: &mut [u8]) {
    if text.is_empty() {
        return;
    }
    let place = random.index(text.len());
    let near = text[place] ^ (1 << random.below(8));
    let byte = if random.one_in(2) { near } else { random.byte() };
    text[place] = if byte == b'\n' { b' ' } else { byte };
}
