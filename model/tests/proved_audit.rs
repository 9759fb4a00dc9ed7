//! The proved program `audit` against the model: all that it prints, byte by byte, on plans and jobs of every
//! kind. It is expected in `../crates/audit/out`.
#![cfg(feature = "session")]

mod audits;

use audits::{Forms, Input};
use model::audit::{audit_text, JOBS_LIMIT};
use model::plans::{encode, plan_t};
use model::random::Random;
use std::fs;
use std::io::Write;
use std::path::{Path, PathBuf};
use std::process::{Command, Stdio};
use std::time::{Duration, Instant};

const AUDITS: u32 = 600;
/// On a slow machine fewer audits will do.
const MOST_TIME: Duration = Duration::from_secs(60);
const FEWEST_AUDITS: u32 = 200;

/// The program with a folder of its own to run in.
struct Program {
    file: PathBuf,
    folder: PathBuf,
}

impl Program {
    /// Fails if the program has not been made.
    fn new(name: &str) -> Program {
        let file = Path::new(env!("CARGO_MANIFEST_DIR")).join("../crates/audit/out/audit");
        assert!(
            file.is_file(),
            "{file:?} is not there: it is made by proving the crate of the program"
        );
        let folder = Path::new(env!("CARGO_TARGET_TMPDIR")).join(name);
        // What an earlier run left.
        let _ = fs::remove_dir_all(&folder);
        fs::create_dir_all(&folder).expect("a folder");
        Program { file, folder }
    }

    /// What it prints with this plan, or without one, for the jobs.
    fn printed(&self, plan: Option<&[u8]>, jobs: &[u8]) -> Vec<u8> {
        let plan_file = self.folder.join("plan.bin");
        match plan {
            Some(bytes) => fs::write(plan_file, bytes).expect("a file"),
            None => drop(fs::remove_file(plan_file)),
        }
        let mut program = Command::new(&self.file);
        program.current_dir(&self.folder).stdin(Stdio::piped()).stdout(Stdio::piped());
        let mut program = program.spawn().expect("the program starts");
        let mut pipe = program.stdin.take().expect("a pipe");
        let jobs = jobs.to_vec();
        // A program that does not read its input closes the pipe.
        let writer = std::thread::spawn(move || drop(pipe.write_all(&jobs)));
        let output = program.wait_with_output().expect("the program ends");
        writer.join().expect("the jobs are written");
        assert!(output.status.success(), "{:?}", output.status);
        output.stdout
    }

    /// What both print.
    fn compare(&self, name: &str, plan: Option<&[u8]>, jobs: &[u8]) -> Vec<u8> {
        let (found, expected) = (self.printed(plan, jobs), audit_text(plan, jobs));
        if found != expected {
            let input = self.folder.join("jobs.txt");
            fs::write(&input, jobs).expect("a file");
            panic!("{name}, saved as {input:?} beside its plan: {}", first_line(&found, &expected));
        }
        found
    }
}

/// The first line in which two outputs differ.
fn first_line(found: &[u8], expected: &[u8]) -> String {
    let lines = |output: &[u8]| -> Vec<String> {
        let lines = output.split(|byte| *byte == b'\n');
        lines.map(|line| String::from_utf8_lossy(line).into_owned()).collect()
    };
    let (found, expected) = (lines(found), lines(expected));
    let same = found.iter().zip(&expected).take_while(|(one, other)| one == other).count();
    let line = |lines: &[String]| lines.get(same).cloned().unwrap_or("nothing".to_string());
    format!("line {}: '{}' for '{}'", same + 1, line(&found), line(&expected))
}

#[test]
fn random_audits() {
    let program = Program::new("audit_random");
    let mut random = Random::new(111);
    let mut forms = Forms::default();
    let start = Instant::now();
    let (mut audits, mut bytes) = (0, 0);
    while audits < AUDITS && start.elapsed() < MOST_TIME {
        let input = Input::drawn(&mut random);
        let name = format!("audit {audits}");
        let text = program.compare(&name, Some(&input.plan), &input.jobs);
        bytes += text.len();
        forms.add(&text);
        audits += 1;
    }
    let per_second = f64::from(audits) / start.elapsed().as_secs_f64();
    println!("{audits} audits, {bytes} bytes, {per_second:.0} audits/s, the model's among them");
    assert!(audits >= FEWEST_AUDITS, "only {audits}");
    forms.assert_all(u64::from(audits));
}

/// What is not read, at both sides of the limits.
#[test]
fn what_is_not_read() {
    let program = Program::new("audit_limits");
    let plan = encode(&plan_t());
    let line = b"1 0 4 12\n";
    let most = [&line.repeat(2)[..], &vec![b'\n'; JOBS_LIMIT - 2 * line.len()]].concat();
    let over = [&most[..], b"\n"].concat();
    for jobs in [&most, &over] {
        program.compare("jobs of many bytes", Some(&plan), jobs);
        program.compare("no plan", None, jobs);
        program.compare("an empty plan", Some(b""), jobs);
    }
    for length in [4_096, 4_097] {
        program.compare("a long plan", Some(&vec![0; length]), line);
    }
    for length in [65_536, 65_537] {
        let mut large = plan_t();
        large.devices[0].length = length;
        program.compare("a large device", Some(&encode(&large)), line);
    }
    for line_length in [4_096, 4_097] {
        let padded = [vec![b'0'; line_length - (line.len() - 1)], line.to_vec()].concat();
        program.compare("a long line", Some(&plan), &[&padded[..], line].concat());
    }
    program.compare("no jobs", Some(&plan), b"");
}

/// Two jobs of as many segments as there can be, 65,536 and one less, so that the output is long.
#[test]
fn the_longest_job() {
    let program = Program::new("audit_long");
    let mut plan = plan_t();
    plan.devices[0].length = 65_536;
    plan.areas.truncate(1);
    plan.sub_areas.truncate(1);
    let sub_area = &mut plan.sub_areas[0];
    (sub_area.sector, sub_area.sector_burst, sub_area.page, sub_area.page_burst) = (1, 1, 1, 1);
    (sub_area.largest_read, sub_area.sector_count) = (1, 65_536);
    let text =
        program.compare("65,536 segments", Some(&encode(&plan)), b"4 0 0 65536\n6 0 1 65535\n");
    assert!(text.len() > 2 * 65_535 * 50);
}
