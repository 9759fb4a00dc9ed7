//! What the tests of the audit share: drawn audits, and the forms that their lines have.

use model::plan;
use model::plans::plan_t;
use model::random::Random;
use model::script::drawn_plan;
use model::sessions::{job_lines, text};
use std::collections::BTreeMap;

/// Lines of a drawn audit at most: few on large plans, whose jobs have many segments.
const MOST_LINES: usize = 60;
const MOST_LINES_OF_LARGE: usize = 12;

/// What an audit reads.
#[derive(Debug)]
pub struct Input {
    pub plan: Vec<u8>,
    pub jobs: Vec<u8>,
}

impl Input {
    /// Jobs over a plan, or over plan T where it is refused; they are not read there.
    pub fn drawn(random: &mut Random) -> Input {
        let plan = drawn_plan(random);
        let records = plan::load(&plan).unwrap_or_else(|_| plan_t());
        let is_large = records.device_sum() > 4_096;
        let most = if is_large { MOST_LINES_OF_LARGE } else { MOST_LINES };
        let count = random.index(most) + 2;
        let lines = job_lines(random, &records, count);
        Input { jobs: text(&lines, !random.one_in(4)), plan }
    }
}

/// Every form of a line, with # for a number, and how often it is to come up at least in a thousand drawn
/// audits. Not here: "above no figure: it is over 64 bits". No input that is read comes to such a sum:
/// 262,143 bytes have fewer than 2^15 jobs of at most 65,536 segments, each of at most 65,535 x 256 rounds.
const FORMS: [(&str, u64); 37] = [
    ("?", 500),
    ("refused 10", 100),
    ("refused 12", 100),
    ("refused 13", 100),
    ("refused 14", 100),
    ("refused 15", 20),
    ("device # bytes #..# patience #", 200),
    ("device # bytes #..# patience # suspends", 200),
    ("device # bytes #..# patience # suspends clears", 200),
    ("area # rank # priority # logical #..# window #..#", 500),
    ("area # rank # priority # logical #..# window none", 100),
    ("area # on device #", 500),
    ("pair # behind # device # above: each job of area # adds at most its own by Demands.above-bounded", 500),
    ("pair # behind # device # below: each stretch adds at most # x (# - 1) = # by Demand3.below", 500),
    ("pair # behind # device # above if accepted later by FirstCome, else below: each stretch adds at most # x (# - 1) = # by Demand3.below", 500),
    ("job 1 # # # write", 500),
    ("job 2 # # # read", 500),
    ("job 3 # # # compare", 500),
    ("job 4 # # # erase", 500),
    ("job 6 # # # blank check", 500),
    ("job 7 # # # lock", 200),
    ("image device # bytes #..# changed by RoundChanges.image-reach", 500),
    ("image device # bytes #..# looked at by Demand2.cut", 500),
    ("image none", 100),
    ("window bytes #..# changed by RoundChanges.store-reach", 500),
    ("window bytes #..# looked at", 500),
    ("window none", 500),
    ("stretch # device # below at most # x (# - 1) = #", 500),
    ("segment # device # bytes #..# tries # rounds # x # = #", 500),
    ("segments # stretches #", 500),
    ("own at most # by Demand3.own", 500),
    ("below at most # by Demand3.below", 500),
    ("above at most # by OnlyThese.above if no other job is accepted; else each job above it adds at most its own by Demands.above-bounded", 500),
    ("locked 0 by OnlyThese.locked if no other job is accepted; else no bound: as long as an area holds the device", 500),
    ("locked no bound: as long as an area holds the device, as a lock request here may", 500),
    ("rounds at most # + # + # + 1 = # by OnlyThese.rounds if no other job is accepted", 500),
    ("rounds no bound", 500),
];

/// The whole output where the plan is refused.
const PLAN_NUMBERS: [&str; 9] = ["1", "2", "3", "4", "5", "6", "7", "8", "20"];

/// Counts the lines of audits by their form.
#[derive(Default)]
pub struct Forms(BTreeMap<String, u64>);

impl Forms {
    pub fn add(&mut self, text: &[u8]) {
        let text = std::str::from_utf8(text).expect("digits and words");
        for line in text.lines() {
            *self.0.entry(form(line)).or_default() += 1;
        }
    }

    /// Each form came up often enough for so many audits, and no other.
    pub fn assert_all(&self, audits: u64) {
        self.0.iter().for_each(|(form, count)| println!("{count} of {form}"));
        let count = |form: &str| self.0.get(form).copied().unwrap_or(0);
        for (form, least) in FORMS {
            assert!(1_000 * count(form) >= audits * least, "{form}: only {}", count(form));
        }
        let refused = PLAN_NUMBERS.map(count);
        assert!(50 * refused.iter().sum::<u64>() >= audits, "{refused:?}");
        let forms = FORMS.map(|(form, _)| form);
        let is_known = |form: &str| forms.contains(&form) || PLAN_NUMBERS.contains(&form);
        let unknown: Vec<_> = self.0.keys().filter(|form| !is_known(form)).collect();
        assert!(unknown.is_empty(), "{unknown:?}");
    }
}

/// The line with # for each number, but for the type of a job, what refuses it, a number that stands alone,
/// and those that are always the same.
fn form(line: &str) -> String {
    let words: Vec<_> = line.split(' ').collect();
    let is_kept = |place: usize| match (words[0], words[place]) {
        ("job", _) => place == 1,
        ("refused" | "locked", _) | (_, "1)") => true,
        ("rounds", "1") => words[place - 1] == "+" && words[place + 1] == "=",
        _ => words.len() == 1,
    };
    let shown = |place: usize| match is_kept(place) {
        true => words[place].to_string(),
        false => without_numbers(words[place]),
    };
    (0..words.len()).map(shown).collect::<Vec<_>>().join(" ")
}

/// The word with # for digits that stand behind no letter.
fn without_numbers(word: &str) -> String {
    let mut shown = String::new();
    for next in word.chars() {
        match (next.is_ascii_digit(), shown.chars().last()) {
            (true, Some('#')) => {}
            (true, Some(last)) if last.is_ascii_alphanumeric() => shown.push(next),
            (true, _) => shown.push('#'),
            (false, _) => shown.push(next),
        }
    }
    shown
}
