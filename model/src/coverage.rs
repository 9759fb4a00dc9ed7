//! What sessions tried, told from their lines and what they printed: shows, and lets tests assert,
//! that no kind of line, refusal, answer or result went untried, nor the order of acceptance, nor the
//! erases that give way, nor the writes on chips that only clear bits, nor the burst test, nor the wear
//! account, nor the bound on above.

mod above;
mod bursts;
mod clearing;
mod equals;
mod follower;
mod suspensions;
mod wear;

pub use bursts::{BurstSize, BurstTest};
pub use clearing::Clearing;
pub use equals::Equals;
pub use suspensions::Suspension;
pub use wear::{Wear, WearRecords};

use crate::plan::{self, Chip, Plan};
use crate::plans::{equals_meet, priority_count};
use crate::plans::{some_burst_is_1, some_burst_is_no_power_of_two, some_unit_is_no_power_of_two};
use crate::script::{Bytes, Script};
use crate::session::{BENCH_SUM_LIMIT, LINE_LIMIT, PLAN_LIMIT};
use follower::Follower;
use std::collections::BTreeMap;
use std::fmt;

#[derive(Clone, Copy, Debug, PartialEq, Eq, PartialOrd, Ord)]
pub enum Kind {
    Plan(PlanAnswer),
    /// The plan's areas have so many priorities, and equal ones meet on a device.
    Priorities(Priorities),
    /// Every area had more than 300 jobs and locks accepted.
    Busy,
    Equals(Equals),
    /// Which marks the plan's devices have.
    Marks(Marks),
    /// All three.
    AllMarks,
    Suspension(Suspension),
    Clearing(Clearing),
    /// What the plan's sub-areas have.
    Sizes(Sizes),
    /// A request with such a burst was cut so.
    Burst(BurstSize, BurstTest),
    /// Which wear records the plan has.
    WearRecords(WearRecords),
    Wear(Wear),
    /// What the image held at the start of a session on a plan that is taken.
    Image(Image),
    /// A line of this type answered with this number; 0 is accepted.
    Line(u8, u8),
    /// Info of a job with this result.
    Result(u8),
    /// Info in which this count is not 0.
    Wait(Count),
    /// Info in which above is not 0 and all that the jobs above can take.
    AboveAtBound,
    /// A request of this type took this answer.
    Answer(u8, Answer),
    /// An answer for a device on which nothing runs.
    Ignored(Device),
    Unreadable(Reason),
}

#[derive(Clone, Copy, Debug, PartialEq, Eq, PartialOrd, Ord)]
pub enum PlanAnswer {
    Taken,
    Refused(u8),
    TooLong,
    SumTooLarge,
}

#[derive(Clone, Copy, Debug, PartialEq, Eq, PartialOrd, Ord)]
pub enum Priorities {
    One,
    Two,
    More,
}

/// Of the devices none can suspend, some or all.
#[derive(Clone, Copy, Debug, PartialEq, Eq, PartialOrd, Ord)]
pub enum Marks {
    NoneSuspends,
    SomeSuspend,
    AllSuspend,
}

#[derive(Clone, Copy, Debug, PartialEq, Eq, PartialOrd, Ord)]
pub enum Sizes {
    /// Every burst is a power of two, or some is none.
    PowerBursts,
    OtherBurst,
    /// Some unit is no power of two.
    OtherUnit,
    BurstOf1,
}

#[derive(Clone, Copy, Debug, PartialEq, Eq, PartialOrd, Ord)]
pub enum Image {
    /// All 255.
    Blank,
    /// Bytes of any value.
    Drawn,
}

#[derive(Clone, Copy, Debug, PartialEq, Eq, PartialOrd, Ord)]
pub enum Count {
    Own,
    Above,
    Below,
    Locked,
}

#[derive(Clone, Copy, Debug, PartialEq, Eq, PartialOrd, Ord)]
pub enum Answer {
    Pending,
    Done,
    FailedAtOnce,
    FailedInside,
    /// k is the length or more.
    FailedBehind,
}

#[derive(Clone, Copy, Debug, PartialEq, Eq, PartialOrd, Ord)]
pub enum Device {
    Free,
    Locked,
}

/// Why a line prints "?".
#[derive(Clone, Copy, Debug, PartialEq, Eq, PartialOrd, Ord)]
pub enum Reason {
    TooLong,
    Empty,
    /// A space too many.
    Space,
    Word,
    LargeNumber,
    Type,
    FieldCount,
}

#[derive(Clone, Debug, Default)]
pub struct Coverage {
    counts: BTreeMap<Kind, u64>,
    pub sessions: u64,
    pub lines: u64,
    pub rounds: u64,
}

const JOB_TYPES: [u8; 5] = [1, 2, 3, 4, 6];

/// Every kind that can come up. 14 asks only jobs with bytes in a window; 18 and 19 only rounds.
pub fn all_kinds() -> Vec<Kind> {
    let mut kinds = vec![
        Kind::Plan(PlanAnswer::Taken),
        Kind::Plan(PlanAnswer::TooLong),
        Kind::Plan(PlanAnswer::SumTooLarge),
        Kind::Ignored(Device::Free),
        Kind::Ignored(Device::Locked),
        Kind::Busy,
        Kind::AllMarks,
        Kind::AboveAtBound,
        Kind::Image(Image::Blank),
        Kind::Image(Image::Drawn),
    ];
    kinds.extend([Priorities::One, Priorities::Two, Priorities::More].map(Kind::Priorities));
    kinds.extend(Equals::ALL.map(Kind::Equals));
    kinds.extend([Marks::NoneSuspends, Marks::SomeSuspend, Marks::AllSuspend].map(Kind::Marks));
    kinds.extend(Suspension::ALL.map(Kind::Suspension));
    kinds.extend(Clearing::ALL.map(Kind::Clearing));
    kinds.extend(Sizes::ALL.map(Kind::Sizes));
    kinds.extend(all_bursts());
    kinds.extend(WearRecords::ALL.map(Kind::WearRecords));
    kinds.extend(Wear::ALL.map(Kind::Wear));
    kinds.extend((1..=8).chain([20]).map(|number| Kind::Plan(PlanAnswer::Refused(number))));
    kinds.extend((0..=3).map(Kind::Result));
    kinds.extend([Count::Own, Count::Above, Count::Below, Count::Locked].map(Kind::Wait));
    kinds.extend(all_numbers());
    kinds.extend(all_answers());
    kinds.extend(all_reasons());
    kinds
}

fn all_numbers() -> Vec<Kind> {
    let jobs = JOB_TYPES.iter().flat_map(|job_type| {
        let numbers = [0, 10, 11, 12, 13, 14].into_iter();
        numbers.filter(|number| *number != 14 || *job_type <= 3).map(|number| (*job_type, number))
    });
    let others = [
        (0, vec![0, 18, 19]),
        (7, vec![0, 10, 11, 12, 15]),
        (8, vec![0, 10, 12, 15, 16]),
        (9, vec![0, 10, 17]),
        (10, vec![0, 10]),
    ];
    let others = others.into_iter().flat_map(|(line_type, numbers)| {
        numbers.into_iter().map(move |number| (line_type, number))
    });
    jobs.chain(others).map(|(line_type, number)| Kind::Line(line_type, number)).collect()
}

fn all_answers() -> Vec<Kind> {
    let answers = [
        Answer::Pending,
        Answer::Done,
        Answer::FailedAtOnce,
        Answer::FailedInside,
        Answer::FailedBehind,
    ];
    JOB_TYPES.iter().flat_map(|job_type| answers.map(|a| Kind::Answer(*job_type, a))).collect()
}

fn all_bursts() -> Vec<Kind> {
    let kinds = |size: BurstSize| BurstTest::ALL.map(|test| Kind::Burst(size, test));
    BurstSize::ALL.into_iter().flat_map(kinds).collect()
}

fn all_reasons() -> Vec<Kind> {
    let reasons = [
        Reason::TooLong,
        Reason::Empty,
        Reason::Space,
        Reason::Word,
        Reason::LargeNumber,
        Reason::Type,
        Reason::FieldCount,
    ];
    reasons.map(Kind::Unreadable).to_vec()
}

impl Sizes {
    pub const ALL: [Sizes; 4] =
        [Sizes::PowerBursts, Sizes::OtherBurst, Sizes::OtherUnit, Sizes::BurstOf1];

    fn holds(self, plan: &Plan) -> bool {
        match self {
            Sizes::PowerBursts => !some_burst_is_no_power_of_two(plan),
            Sizes::OtherBurst => some_burst_is_no_power_of_two(plan),
            Sizes::OtherUnit => some_unit_is_no_power_of_two(plan),
            Sizes::BurstOf1 => some_burst_is_1(plan),
        }
    }
}

impl Coverage {
    pub fn count(&self, kind: Kind) -> u64 {
        self.counts.get(&kind).copied().unwrap_or(0)
    }

    /// The kinds that came up less often than so.
    pub fn rarer_than(&self, often: u64) -> Vec<(Kind, u64)> {
        let counts = all_kinds().into_iter().map(|kind| (kind, self.count(kind)));
        counts.filter(|(_, count)| *count < often).collect()
    }

    /// Adds a session and what it printed.
    pub fn add(&mut self, script: &Script, output: &[u8]) {
        self.sessions += 1;
        let answer = plan_answer(&script.plan);
        self.add_kind(Kind::Plan(answer));
        if answer != PlanAnswer::Taken {
            return;
        }
        self.add_jobs(script, output);
        // What each device showed in the last round.
        let mut shown: Vec<Vec<u8>> = Vec::new();
        for (line, answer) in script.lines.iter().zip(output.split(|byte| *byte == b'\n')) {
            self.lines += 1;
            match answer {
                b"?" => self.add_kind(Kind::Unreadable(reason(line))),
                [b'R', devices @ ..] => {
                    self.add_round(line, &shown);
                    shown = devices.split(|b| *b == b' ').skip(1).map(<[u8]>::to_vec).collect();
                }
                _ => self.add_answer(line, answer),
            }
        }
    }

    /// What a session on a plan that is taken tried of the order of acceptance, of erases that give
    /// way, of writes on chips that only clear bits, of the burst test and of the wear account.
    fn add_jobs(&mut self, script: &Script, output: &[u8]) {
        let plan = plan::load(&script.plan).expect("the plan is taken");
        self.add_plan(&plan);
        self.add_kind(Kind::Image(match script.lending.bytes {
            Bytes::Bench => Image::Blank,
            Bytes::Drawn(_) => Image::Drawn,
        }));
        let mut follower = Follower::of(&plan);
        for (line, answer) in script.lines.iter().zip(output.split(|byte| *byte == b'\n')) {
            if answer != b"?" {
                let came_up = follower.line(line, answer);
                came_up.into_iter().for_each(|kind| self.add_kind(kind));
            }
        }
        if follower.fewest_acceptances() > 300 {
            self.add_kind(Kind::Busy);
        }
    }

    fn add_plan(&mut self, plan: &Plan) {
        self.add_kind(Kind::Marks(marks(plan)));
        let has = |chip: Chip| plan.devices.iter().any(|device| device.chip == chip);
        if Chip::ALL.into_iter().all(has) {
            self.add_kind(Kind::AllMarks);
        }
        if equals_meet(plan) {
            self.add_kind(Kind::Priorities(priorities(plan)));
        }
        for sizes in Sizes::ALL.into_iter().filter(|sizes| sizes.holds(plan)) {
            self.add_kind(Kind::Sizes(sizes));
        }
        for records in WearRecords::ALL.into_iter().filter(|records| records.holds(plan)) {
            self.add_kind(Kind::WearRecords(records));
        }
    }

    fn add_kind(&mut self, kind: Kind) {
        *self.counts.entry(kind).or_default() += 1;
    }

    /// An accepted round. Before the first one every device is free.
    fn add_round(&mut self, line: &[u8], shown: &[Vec<u8>]) {
        self.rounds += 1;
        self.add_kind(Kind::Line(0, 0));
        for (device, word) in fields(line).skip(1).enumerate() {
            let kind = match shown.get(device).map_or(&b"-"[..], Vec::as_slice) {
                b"-" => Kind::Ignored(Device::Free),
                b"L" => Kind::Ignored(Device::Locked),
                request => answer_kind(request, word),
            };
            self.add_kind(kind);
        }
    }

    /// The answer to a line that is read and no accepted round.
    fn add_answer(&mut self, line: &[u8], answer: &[u8]) {
        let line_type = narrow(fields(line).next().map_or(0, number));
        let values: Vec<_> = fields(answer).map(number).collect();
        let [result, _, own, above, below, locked] = values[..] else {
            return self.add_kind(Kind::Line(line_type, narrow(values[0])));
        };
        self.add_kind(Kind::Line(line_type, 0));
        self.add_kind(Kind::Result(narrow(result)));
        let counts = [
            (Count::Own, own),
            (Count::Above, above),
            (Count::Below, below),
            (Count::Locked, locked),
        ];
        for (count, _) in counts.into_iter().filter(|(_, value)| *value > 0) {
            self.add_kind(Kind::Wait(count));
        }
    }

    /// How often each refusal of a line came up, whatever its type.
    fn refusals(&self) -> BTreeMap<u8, u64> {
        let mut refusals = BTreeMap::new();
        for (kind, count) in &self.counts {
            if let Kind::Line(_, number @ 1..) = kind {
                *refusals.entry(*number).or_default() += count;
            }
        }
        refusals
    }
}

impl fmt::Display for Coverage {
    fn fmt(&self, f: &mut fmt::Formatter<'_>) -> fmt::Result {
        let (sessions, lines, rounds) = (self.sessions, self.lines, self.rounds);
        write!(f, "{sessions} sessions, {lines} lines, {rounds} rounds\nrefused lines:")?;
        for (number, count) in self.refusals() {
            write!(f, " {number}: {count}")?;
        }
        for (kind, count) in self.counts.iter().filter(|(kind, _)| !matches!(kind, Kind::Line(..)))
        {
            write!(f, "\n{kind:?}: {count}")?;
        }
        Ok(())
    }
}

fn priorities(plan: &Plan) -> Priorities {
    match priority_count(plan) {
        1 => Priorities::One,
        2 => Priorities::Two,
        _ => Priorities::More,
    }
}

fn marks(plan: &Plan) -> Marks {
    let can_suspend = |device: &plan::Device| device.chip.can_suspend();
    match (plan.devices.iter().any(can_suspend), plan.devices.iter().all(can_suspend)) {
        (false, _) => Marks::NoneSuspends,
        (true, false) => Marks::SomeSuspend,
        (true, true) => Marks::AllSuspend,
    }
}

fn plan_answer(bytes: &[u8]) -> PlanAnswer {
    if bytes.len() > PLAN_LIMIT {
        return PlanAnswer::TooLong;
    }
    match plan::load(bytes) {
        Ok(plan) if plan.device_sum() > BENCH_SUM_LIMIT => PlanAnswer::SumTooLarge,
        Ok(_) => PlanAnswer::Taken,
        Err(number) => PlanAnswer::Refused(number),
    }
}

/// What runs, as "area:type:physical:length", and the word that answers it.
fn answer_kind(request: &[u8], word: &[u8]) -> Kind {
    let numbers: Vec<_> = request.split(|byte| *byte == b':').map(number).collect();
    let (job_type, length) = (narrow(numbers[1]), numbers[3]);
    let answer = match word {
        b"p" => Answer::Pending,
        b"d" => Answer::Done,
        k => match number(k) {
            0 => Answer::FailedAtOnce,
            k if k < length => Answer::FailedInside,
            _ => Answer::FailedBehind,
        },
    };
    Kind::Answer(job_type, answer)
}

/// The first of these reasons that holds; others may hold as well.
fn reason(line: &[u8]) -> Reason {
    let line_type = fields(line).next().map_or(0, number);
    let is_known = [0, 1, 2, 3, 4, 6, 7, 8, 9, 10].contains(&line_type);
    if line.len() > LINE_LIMIT {
        Reason::TooLong
    } else if line.is_empty() {
        Reason::Empty
    } else if fields(line).any(<[u8]>::is_empty) {
        Reason::Space
    } else if fields(line).any(|field| is_word(field, line_type == 0)) {
        Reason::Word
    } else if fields(line).any(|field| number(field) > u64::from(u32::MAX)) {
        Reason::LargeNumber
    } else if !is_known {
        Reason::Type
    } else {
        Reason::FieldCount
    }
}

/// Neither a number nor an answer of a round.
fn is_word(field: &[u8], is_round: bool) -> bool {
    let is_number = field.iter().all(u8::is_ascii_digit);
    let is_answer = is_round && matches!(field, b"p" | b"d");
    !is_number && !is_answer
}

fn fields(line: &[u8]) -> impl Iterator<Item = &[u8]> {
    line.split(|byte| *byte == b' ')
}

/// The number of a field of digits, as far as it can be told from others.
fn number(field: &[u8]) -> u64 {
    field.iter().fold(0u64, |value, byte| {
        value.saturating_mul(10).saturating_add(u64::from(byte.wrapping_sub(b'0')))
    })
}

fn narrow(number: u64) -> u8 {
    u8::try_from(number).expect("types, numbers and results are small")
}
