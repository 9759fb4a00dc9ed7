//! The audit: the recorded ones to the byte, cases worked out by hand from the papers, what is not read, the
//! form of every line, and the figures held against lists of calls in which only the audited jobs are
//! accepted.

mod audits;

use audits::{Forms, Input};
use model::audit::{audit_text, Admitted, Audit, JOBS_LIMIT};
use model::jobs::{Answer, JobType, Target};
use model::plan::{self, Chip, Plan};
use model::plans::{encode, plan_t, plan_v, with_chips};
use model::random::Random;
use model::sessions::{bench_plan, job_lines, text};
use model::wait_book::{Numbers, WaitBook};
use std::fs;
use std::path::{Path, PathBuf};
use std::process::Command;

/// The output for these lines, each ended.
fn output(plan: &Plan, lines: &[&str]) -> String {
    let jobs: String = lines.iter().map(|line| format!("{line}\n")).collect();
    String::from_utf8(audit_text(Some(&encode(plan)), jobs.as_bytes())).expect("digits and words")
}

/// The lines of the output that begin so, without that.
fn said<'a>(output: &'a str, begin: &str) -> Vec<&'a str> {
    output.lines().filter_map(|line| line.strip_prefix(begin)).collect()
}

/// Each folder of recorded audits, by name.
fn recorded() -> Vec<PathBuf> {
    let folder = Path::new(env!("CARGO_MANIFEST_DIR")).join("../examples/audits");
    let entries = fs::read_dir(folder).expect("the recorded audits");
    let mut folders: Vec<_> = entries.map(|entry| entry.expect("a folder").path()).collect();
    folders.sort();
    folders
}

fn read(folder: &Path, name: &str) -> Vec<u8> {
    fs::read(folder.join(name)).unwrap_or_else(|error| panic!("{folder:?}, {name}: {error}"))
}

#[test]
fn recorded_audits() {
    let folders = recorded();
    assert_eq!(folders.len(), 6, "{folders:?}");
    for folder in folders {
        let plan = fs::read(folder.join("plan.bin")).ok();
        let text = audit_text(plan.as_deref(), &read(&folder, "jobs.txt"));
        let figures = read(&folder, "figures.txt");
        let lines = text.split(|b| *b == b'\n').zip(figures.split(|b| *b == b'\n'));
        let differs = lines.map(|(one, other)| [one, other].map(String::from_utf8_lossy));
        let differs = differs.into_iter().find(|[one, other]| one != other);
        assert!(text == figures, "{folder:?}: {differs:?}");
    }
}

#[test]
fn the_program_prints_the_audit() {
    for folder in recorded() {
        let mut program = Command::new(env!("CARGO_BIN_EXE_audit"));
        program.arg(folder.join("plan.bin")).arg(folder.join("jobs.txt"));
        let output = program.output().expect("the program starts");
        assert!(output.status.success() && output.stdout == read(&folder, "figures.txt"));
    }
}

/// The example of the format, word for word.
#[test]
fn example_on_plan_t() {
    let example = "\
device 0 bytes 0..63 patience 2
area 0 rank 2 priority 1 logical 0..31 window 0..15
area 0 on device 0
area 1 rank 1 priority 5 logical 256..287 window 16..31
area 1 on device 0
pair 0 behind 1 device 0 above: each job of area 1 adds at most its own by Demands.above-bounded
pair 1 behind 0 device 0 below: each stretch adds at most 1 x (2 - 1) = 1 by Demand3.below
job 1 0 4 12 write
image device 0 bytes 4..15 changed by RoundChanges.image-reach
window bytes 0..11 looked at
stretch 1 device 0 below at most 1 x (2 - 1) = 1
segment 1 device 0 bytes 4..7 tries 2 rounds 2 x 2 = 4
segment 2 device 0 bytes 8..15 tries 2 rounds 2 x 2 = 4
segments 2 stretches 1
own at most 8 by Demand3.own
below at most 1 by Demand3.below
above at most 2 by OnlyThese.above if no other job is accepted; else each job above it adds at most its own by Demands.above-bounded
locked 0 by OnlyThese.locked if no other job is accepted; else no bound: as long as an area holds the device
rounds at most 8 + 2 + 1 + 1 = 12 by OnlyThese.rounds if no other job is accepted
";
    assert!(output(&plan_t(), &["1 0 4 12", "1 1 256 4"]).starts_with(example));
}

/// "On fresh T": the pieces, and the two bounds on each job.
#[test]
fn cases_on_fresh_t() {
    // With the bytes of each segment, tries, and the bound on own. Patience is 2; area 0's writes have a
    // retry.
    let cases: [(&str, &[&str], u32, &str); 10] = [
        ("1 0 4 12", &["4..7", "8..15"], 2, "8"),
        ("1 0 8 12", &["8..15", "16..19"], 2, "8"),
        ("4 0 0 32", &["0..31"], 1, "2"),
        ("4 0 16 16", &["16..31"], 1, "2"),
        ("2 0 3 13", &["3..10", "11..15"], 1, "4"),
        ("2 0 31 1", &["31..31"], 1, "2"),
        ("2 0 0 16", &["0..7", "8..15"], 1, "4"),
        ("3 0 3 13", &["3..10", "11..15"], 1, "4"),
        ("6 0 0 32", &["0..7", "8..15", "16..23", "24..31"], 1, "8"),
        ("1 1 256 8", &["32..35", "36..39"], 1, "4"),
    ];
    for (job, bytes, tries, own) in cases {
        let output = output(&plan_t(), &[job]);
        let segment = |(number, bytes): (usize, &&str)| {
            format!(
                "{} device 0 bytes {bytes} tries {tries} rounds 2 x {tries} = {}",
                number + 1,
                2 * tries
            )
        };
        let segments: Vec<_> = bytes.iter().enumerate().map(segment).collect();
        assert_eq!(said(&output, "segment "), segments, "{job}");
        assert_eq!(said(&output, "own at most "), [format!("{own} by Demand3.own")], "{job}");
        assert_eq!(said(&output, "below at most "), ["1 by Demand3.below"], "{job}");
    }
}

/// "On fresh T": what is refused, each with nothing said of it but its number; and every job is asked of a
/// fresh manager, so that no 11 comes up.
#[test]
fn refusals_on_fresh_t() {
    let cases = [
        ("2 0 31 2", "read", "12"),
        ("1 0 4 0", "write", "12"),
        ("1 0 2 4", "write", "13"),
        ("2 0 0 17", "read", "14"),
        ("1 2 0 4", "write", "10"),
        ("7 0 0 33", "lock", "12"),
    ];
    let plan_alone = output(&plan_t(), &[]);
    for (line, name, number) in cases {
        let said = format!("{plan_alone}job {line} {name}\nrefused {number}\n");
        assert_eq!(output(&plan_t(), &[line]), said);
    }
    let twice = output(&plan_t(), &["2 0 0 16", "2 0 0 16"]);
    assert_eq!(said(&twice, "refused "), [""; 0]);
    assert_eq!(said(&twice, "above at most "), [&above_said("0"); 2]);
}

fn above_said(number: &str) -> String {
    let otherwise = "else each job above it adds at most its own by Demands.above-bounded";
    format!("{number} by OnlyThese.above if no other job is accepted; {otherwise}")
}

/// Between areas of equal priority each counts for the other, and a job as often as it stands there.
#[test]
fn equal_priorities() {
    let output = output(&plan_v(), &["1 0 4 12", "1 1 256 4", "1 1 256 4"]);
    let said_of_pairs = ["0 behind 1", "1 behind 0"].map(|pair| {
        let below = "below: each stretch adds at most 1 x (2 - 1) = 1 by Demand3.below";
        format!("{pair} device 0 above if accepted later by FirstCome, else {below}")
    });
    assert_eq!(said(&output, "pair "), said_of_pairs);
    assert_eq!(said(&output, "above at most "), ["4", "8", "8"].map(above_said));
    assert_eq!(said(&output, "area 0 rank "), ["1 priority 3 logical 0..31 window 0..15"]);
    assert_eq!(said(&output, "area 1 rank "), ["1 priority 3 logical 256..287 window 16..31"]);
}

/// The recorded audit `marks` in its essentials, by hand from its plan (examples/recorded-plans.sh).
#[test]
fn marks_by_hand() {
    let folder = recorded().into_iter().find(|folder| folder.ends_with("marks")).expect("marks");
    let figures = String::from_utf8(read(&folder, "figures.txt")).expect("digits and words");
    let numbers = |begin: &str, end: &str| -> Vec<u32> {
        let said = said(&figures, begin).into_iter();
        said.filter_map(|rest| rest.split(end).next()?.parse().ok()).collect()
    };
    // 2 + 6 + 8 + 2, 4 + 4 x 9 + 2, 3 x 5, 5 + 5 + 1, 2 x 5, 5 x 256 + 5 x 16, 3 x 3, 1 + 1, 4 x 3, none,
    // 4 x 3
    let own = [18, 42, 15, 11, 10, 1_360, 9, 2, 12, 0, 12];
    assert_eq!(numbers("own at most ", " by"), own);
    // 1 + 4 + 1 twice, 8, 8 + 0, 8, 8, 0, 0, 4, 4, 4
    assert_eq!(numbers("below at most ", " by"), [6, 6, 8, 8, 8, 8, 0, 0, 4, 4, 4]);
    // Areas 0 to 4 have 60, 24, 26, 1,370 and 11; priorities 3, 3, 7, 1 and 9.
    let above = [24 + 26 + 11, 60 + 26 + 11, 11, 60 + 24 + 26 + 11, 0];
    let areas = [0, 0, 2, 2, 3, 3, 4, 4, 1, 1, 1];
    assert_eq!(numbers("above at most ", " by"), areas.map(|area: usize| above[area]));
    // Device 1 is locked, and areas 0 and 1 lie on it.
    let locked = areas.map(|area| area < 2);
    let said_locked: Vec<_> =
        said(&figures, "locked ").iter().map(|rest| rest.starts_with("no bound")).collect();
    assert_eq!(said_locked, locked);
    assert_eq!(said(&figures, "rounds at most ").len(), 6);
    assert_eq!(said(&figures, "rounds no bound").len(), 5);
    assert_eq!(numbers("refused ", "\n"), [10, 12, 13, 14, 15, 12]);
}

/// A change of a plan, by the name of what an audit would have wrong that took the plan to be so.
type Wrong = (&'static str, fn(&mut Plan));

const WRONG: [Wrong; 9] = [
    ("one poll more", |plan| plan.devices.iter_mut().for_each(|device| device.patience += 1)),
    ("no device suspends", |plan| *plan = with_chips(plan.clone(), Chip::Plain)),
    ("only chips that clear suspend", |plan| plan.devices[1].chip = Chip::Plain),
    ("only others suspend", |plan| plan.devices[2].chip = Chip::Plain),
    ("all priorities equal", |plan| plan.areas.iter_mut().for_each(|area| area.priority = 3)),
    ("the lower number ranks above", |plan| plan.areas[0].priority += 1),
    ("no page bursts", |plan| plan.sub_areas.iter_mut().for_each(|s| s.page_burst = s.page)),
    ("no sector bursts", |plan| plan.sub_areas.iter_mut().for_each(|s| s.sector_burst = s.sector)),
    ("retries exchanged", |plan| {
        plan.sub_areas.iter_mut().for_each(|s| {
            (s.write_retries, s.erase_retries) = (s.erase_retries, s.write_retries);
        });
    }),
];

/// What the recorded audit `marks` says of its jobs is not what it says on plans that are wrong in one thing.
#[test]
fn what_is_wrong_is_found() {
    let folder = recorded().into_iter().find(|folder| folder.ends_with("marks")).expect("marks");
    let (plan, jobs) = (read(&folder, "plan.bin"), read(&folder, "jobs.txt"));
    let said_of_jobs = |plan: &[u8]| {
        let text = String::from_utf8(audit_text(Some(plan), &jobs)).expect("digits and words");
        text.lines().skip_while(|line| !line.starts_with("job ")).collect::<Vec<_>>().join("\n")
    };
    let right = said_of_jobs(&plan);
    for (name, change) in WRONG {
        let mut records = plan::load(&plan).expect("an accepted plan");
        change(&mut records);
        let wrong = said_of_jobs(&encode(&records));
        assert!(!wrong.is_empty() && wrong != right, "{name}");
    }
}

/// The plan is read as the bench reads it, and before the jobs; jobs of too many bytes print nothing of it.
#[test]
fn what_is_not_read() {
    let plan = encode(&plan_t());
    let most = vec![b'\n'; JOBS_LIMIT];
    let over = vec![b'\n'; JOBS_LIMIT + 1];
    assert_eq!(audit_text(None, b"1 0 4 12\n"), b"?\n");
    assert_eq!(audit_text(None, &over), b"?\n");
    assert_eq!(audit_text(Some(&vec![0; 4_097]), b""), b"?\n");
    assert_eq!(audit_text(Some(&vec![0; 4_096]), b""), b"1\n");
    assert_eq!(audit_text(Some(b""), &over), b"2\n");
    assert_eq!(audit_text(Some(&plan), &over), b"?\n");
    let plan_alone = audit_text(Some(&plan), b"");
    assert_eq!(plan_alone, output(&plan_t(), &[]).as_bytes());
    let with_marks = [&plan_alone[..], &b"?\n".repeat(JOBS_LIMIT)].concat();
    assert!(audit_text(Some(&plan), &most) == with_marks);
}

/// Every line of the session but a job or a lock is no job.
#[test]
fn other_lines_are_no_jobs() {
    let plan_alone = output(&plan_t(), &[]);
    let lines =
        ["8 0 4 12", "9 0", "10 0", "0 p", "", "5 0 4 12", "11 0 4 12", "1 0 4", "x", "1 0 4 12\r"];
    let said = format!("{plan_alone}{}", "?\n".repeat(lines.len()));
    assert_eq!(output(&plan_t(), &lines), said);
    let text = |jobs: &[u8]| audit_text(Some(&encode(&plan_t())), jobs);
    assert_eq!(text(b"1 0 4 12"), text(b"01 0 0004 12\n"));
    assert_eq!(text(b"9 0\n\n"), text(b"9 0\nx"));
}

#[test]
fn every_line_has_a_known_form() {
    const AUDITS: u32 = 1_000;
    let mut random = Random::new(101);
    let mut forms = Forms::default();
    for _ in 0..AUDITS {
        let input = Input::drawn(&mut random);
        forms.add(&audit_text(Some(&input.plan), &input.jobs));
    }
    forms.assert_all(u64::from(AUDITS));
}

/// A list of calls in which only jobs of an audit are accepted, each at most once.
struct Run<'a> {
    audit: &'a Audit,
    book: WaitBook,
    /// Of each area the job accepted last.
    latest: Vec<Option<&'a Admitted>>,
}

/// How often a job ended at its figure: own, above, below, rounds.
type Reached = [u64; 4];

impl<'a> Run<'a> {
    fn of(plan: &Plan, audit: &'a Audit) -> Self {
        Run { audit, book: WaitBook::of(plan), latest: vec![None; plan.areas.len()] }
    }

    /// Is the job accepted now?
    fn accepts(&mut self, job: &'a Admitted) -> bool {
        let target = job.work.job.target;
        let (book, number) = match job.work.job.job_type {
            JobType::Operation(operation) => self.book.clone().job(operation, target),
            JobType::LockRequest => self.book.clone().lock(target),
        };
        self.book = book;
        if number == 0 {
            self.latest[job.area] = Some(job);
        }
        number == 0
    }

    /// A round, at times with a cancel or the release of what the audit's locks name before it. Counts the
    /// jobs that it ends.
    fn round(&mut self, random: &mut Random, setting: &Setting, reached: &mut Reached) {
        if random.one_in(100) {
            let area = u32::try_from(random.index(self.latest.len())).expect("at most 8 areas");
            self.book = self.book.clone().cancel(area).0;
        }
        if !setting.locks.is_empty() && random.one_in(4) {
            self.book = self.book.clone().release(random.pick(&setting.locks)).0;
        }
        let answers = [(); 4].map(|()| match random.below(10) {
            ended if ended >= setting.pending => random.pick(&[Answer::Done, Answer::Failed(1)]),
            _ => Answer::Pending,
        });
        let (book, number) = self.book.clone().round(answers, &setting.image, &setting.store);
        assert_eq!(number, 0, "the memory fits");
        let before = std::mem::replace(&mut self.book, book);
        for area in 0..self.latest.len() {
            if before.entry(area).is_pending && !self.book.entry(area).is_pending {
                self.count(area, reached);
            }
        }
    }

    /// The figures hold for each area's latest job.
    fn check(&self) {
        for (area, job) in self.latest.iter().enumerate() {
            let Some(job) = job else {
                continue;
            };
            let Numbers { rounds, own, above, below, locked } = self.book.entry(area).numbers;
            assert!(own <= job.own && below <= job.below, "area {area}");
            assert!(above <= self.audit.above(job), "area {area}: above {above}");
            assert!(locked == 0 || self.audit.may_be_locked(job), "area {area}: locked {locked}");
            assert!(self.audit.rounds(job).is_none_or(|most| rounds <= most), "area {area}");
        }
    }

    /// Counts the figures that the area's job, which has ended, has come up to.
    fn count(&self, area: usize, reached: &mut Reached) {
        let job = self.latest[area].expect("an accepted job");
        let numbers = self.book.entry(area).numbers;
        let figures = [
            (numbers.own, Some(job.own)),
            (numbers.above, Some(self.audit.above(job))),
            (numbers.below, Some(job.below)),
            (numbers.rounds, self.audit.rounds(job)),
        ];
        for (count, (number, figure)) in reached.iter_mut().zip(figures) {
            *count += u64::from(number > 0 && Some(number) == figure);
        }
    }
}

/// What a run has beside the jobs: the locks among them, memory of any bytes, and how many in ten answers are
/// pending.
struct Setting {
    locks: Vec<Target>,
    image: Vec<u8>,
    store: Vec<u8>,
    pending: u32,
}

impl Setting {
    fn drawn(random: &mut Random, plan: &Plan, audit: &Audit) -> Setting {
        let jobs = audit.admitted().map(|admitted| admitted.work.job);
        let locks = jobs.filter(|job| job.job_type == JobType::LockRequest);
        let sum = usize::try_from(plan.device_sum()).expect("an image");
        Setting {
            locks: locks.map(|job| job.target).collect(),
            image: random.bytes(sum),
            store: random.bytes(65_536),
            pending: random.pick(&[0, 5, 9, 10]),
        }
    }
}

/// "if no other job is accepted": the jobs of the list, each made at most once, in any order.
fn run_audited(random: &mut Random, plan: &Plan, audit: &Audit, reached: &mut Reached) {
    let setting = Setting::drawn(random, plan, audit);
    let mut jobs: Vec<_> = audit.admitted().collect();
    random.shuffle(&mut jobs);
    let mut run = Run::of(plan, audit);
    for _ in 0..random.between(20, 200) {
        // At most one in a step, so that rounds come between.
        let next = (0..jobs.len()).find(|place| random.one_in(3) && run.accepts(jobs[*place]));
        if let Some(place) = next {
            jobs.swap_remove(place);
        }
        run.check();
        run.round(random, &setting, reached);
        run.check();
    }
}

#[test]
fn figures_hold_in_runs() {
    let mut random = Random::new(102);
    let mut reached = Reached::default();
    for number in 0..8_000 {
        let plan = bench_plan(&mut random);
        if plan.device_sum() > 4_096 {
            continue;
        }
        let count = random.pick(&[4, 6, 8, 16, 40]);
        let lines: Vec<_> = job_lines(&mut random, &plan, count);
        let audit = Audit::of(Some(&encode(&plan)), &text(&lines, true));
        let audit = audit.unwrap_or_else(|answer| panic!("plan {number}: {answer}"));
        run_audited(&mut random, &plan, &audit, &mut reached);
    }
    println!("jobs at their figures: own, above, below, rounds {reached:?}");
    assert!(reached.iter().all(|count| *count >= 50), "{reached:?}");
}

/// Plans of every kind, valid and damaged.
#[test]
fn plans_are_read_as_the_bench_reads_them() {
    let mut random = Random::new(103);
    for _ in 0..400 {
        let input = Input::drawn(&mut random);
        let text = audit_text(Some(&input.plan), &input.jobs);
        let first = text.split(|byte| *byte == b'\n').next().expect("a line");
        match plan::load(&input.plan) {
            Ok(plan) if plan.device_sum() <= 65_536 => {
                assert!(first.starts_with(b"device 0 bytes 0.."))
            }
            Err(number) if input.plan.len() <= 4_096 => {
                assert_eq!(text, format!("{number}\n").as_bytes())
            }
            _ => assert_eq!(text, b"?\n"),
        }
    }
}
