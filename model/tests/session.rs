//! The bench program: document 01's printed session to the byte, its cases "on fresh T", sessions of
//! Req 01, one with bursts that are no powers of two (Req 04), every "?" with both sides of each limit,
//! and random sessions.

use model::calls::{Call, Query};
use model::jobs::Operation;
use model::manager::{DeviceState, Manager};
use model::plan::Plan;
use model::plans::{encode, largest, plan_t, plan_v, plan_w, regular};
use model::random::Random;
use model::segments::{pieces, Piece};
use model::session::{run_session, Session};
use model::sessions::{bench_plan, lines, text, Line};
use std::fs;
use std::io::Write;
use std::path::{Path, PathBuf};
use std::process::{Command, Stdio};

/// The output for these lines, each ended.
fn output(plan: &Plan, lines: &[&str]) -> String {
    let input = lines.iter().map(|line| format!("{line}\n")).collect::<String>();
    String::from_utf8(run_session(Some(&encode(plan)), input.as_bytes())).expect("digits and words")
}

/// Each line of a session on a fresh plan prints its answer.
fn check(plan: &Plan, session: &[(&str, &str)]) {
    let lines: Vec<_> = session.iter().map(|(line, _)| *line).collect();
    let answers: String = session.iter().map(|(_, answer)| format!("{answer}\n")).collect();
    assert_eq!(output(plan, &lines), answers, "{lines:?}");
}

/// Each line alone on fresh T prints its answer.
fn check_each_on_fresh_t(cases: &[(&str, &str)]) {
    for case in cases {
        check(&plan_t(), &[*case]);
    }
}

const PRINTED_SESSION: [(&str, &str); 10] = [
    ("1 0 4 12", "0"),
    ("0 p", "R 0:1:4:4"),
    ("1 1 256 4", "0"),
    ("0 p", "R 0:1:4:4"),
    ("0 d", "R 1:1:32:4"),
    ("0 d", "R 0:1:8:8"),
    ("0 0", "R 0:1:8:8"),
    ("0 d", "R -"),
    ("10 0", "0 12 4 1 0 0"),
    ("10 1", "0 4 1 0 1 0"),
];

#[test]
fn printed_session_of_the_paper() {
    check(&plan_t(), &PRINTED_SESSION);
}

/// The bytes of the paper, written out once more as one text.
#[test]
fn printed_session_to_the_byte() {
    let input = b"1 0 4 12\n0 p\n1 1 256 4\n0 p\n0 d\n0 d\n0 0\n0 d\n10 0\n10 1\n";
    let printed = b"0\nR 0:1:4:4\n0\nR 0:1:4:4\nR 1:1:32:4\nR 0:1:8:8\nR 0:1:8:8\nR -\n\
        0 12 4 1 0 0\n0 4 1 0 1 0\n";
    assert_eq!(run_session(Some(&encode(&plan_t())), input), printed);
}

/// On plan V, by hand: the second area is accepted first.
#[test]
fn equal_priorities_go_by_acceptance() {
    check(
        &plan_v(),
        &[
            ("1 1 256 4", "0"),
            ("1 0 4 4", "0"),
            ("0 p", "R 1:1:32:4"),
            ("0 d", "R 0:1:4:4"),
            ("0 d", "R -"),
            ("10 0", "0 4 1 1 0 0"),
            ("10 1", "0 4 1 0 0 0"),
        ],
    );
}

/// On plan V, by hand: a retry keeps its place.
#[test]
fn retry_among_equal_priorities() {
    check(
        &plan_v(),
        &[
            ("1 0 4 4", "0"),
            ("0 p", "R 0:1:4:4"),
            ("1 1 256 4", "0"),
            ("0 0", "R 0:1:4:4"),
            ("0 d", "R 1:1:32:4"),
            ("0 d", "R -"),
            ("10 0", "0 4 2 0 0 0"),
            ("10 1", "0 4 1 1 0 0"),
        ],
    );
}

/// On plan V, by hand: an area's next job comes last.
#[test]
fn next_job_among_equal_priorities() {
    check(
        &plan_v(),
        &[
            ("1 0 4 12", "0"),
            ("1 1 256 8", "0"),
            ("0 p", "R 0:1:4:4"),
            ("0 d", "R 0:1:8:8"),
            ("0 d", "R 1:1:32:4"),
            ("1 0 0 4", "0"),
            ("0 d", "R 1:1:36:4"),
            ("0 d", "R 0:1:0:4"),
            ("0 d", "R -"),
            ("10 0", "0 4 1 1 0 0"),
            ("10 1", "0 8 2 2 0 0"),
        ],
    );
}

/// On plan V, by hand: a lock request has its place.
#[test]
fn lock_among_equal_priorities() {
    check(
        &plan_v(),
        &[
            ("7 1 256 4", "0"),
            ("1 0 4 4", "0"),
            ("0 p", "R L"),
            ("10 0", "0 0 0 0 0 1"),
            ("8 1 256 4", "0"),
            ("0 p", "R 0:1:4:4"),
            ("0 d", "R -"),
            ("10 0", "0 4 1 0 0 1"),
            ("10 1", "0 0 0 0 0 0"),
        ],
    );
}

/// Plan W byte for byte, written by hand from the fields and widths of document 01.
#[rustfmt::skip]
const PLAN_W: [u8; 66] = [
    0x44, 0x56,  0, 0, 0, 0,  96, 0, 0, 0,  3, 0,
    0x41, 0x52,  1, 0,  0, 0, 0, 0,  0, 0, 0, 0,  48, 0, 0, 0,
    0x53, 0x42,  0, 0,  12, 0, 0, 0,
    12, 0, 0, 0,  24, 0, 0, 0,  4, 0, 0, 0,  12, 0, 0, 0,  2, 0, 0, 0,  6, 0, 0, 0,
    4, 0, 0, 0,  0, 0,
];

/// On plan W, by hand: logical 4 is physical 16, so that of the write two pages come before 24, which is
/// a multiple of the page burst 12; of the erase a sector comes before 24, which is a multiple of the
/// sector burst 24, and at 48, which is one too, only a sector is left.
#[test]
fn bursts_that_are_no_powers_of_two() {
    assert_eq!(encode(&plan_w()), PLAN_W);
    check(
        &plan_w(),
        &[
            ("1 0 4 20", "0"),
            ("0 d", "R 0:1:16:4"),
            ("0 d", "R 0:1:20:4"),
            ("0 d", "R 0:1:24:12"),
            ("0 d", "R -"),
            ("4 0 0 48", "0"),
            ("0 d", "R 0:4:12:12"),
            ("0 d", "R 0:4:24:24"),
            ("0 d", "R 0:4:48:12"),
            ("0 d", "R -"),
        ],
    );
}

/// "On fresh T": the pieces as the bench shows them, each answered done.
#[test]
fn pieces_on_fresh_t() {
    let cases = [
        ("1 0 4 12", vec!["R 0:1:4:4", "R 0:1:8:8"]),
        ("1 0 8 12", vec!["R 0:1:8:8", "R 0:1:16:4"]),
        ("4 0 0 32", vec!["R 0:4:0:32"]),
        ("4 0 16 16", vec!["R 0:4:16:16"]),
        ("2 0 3 13", vec!["R 0:2:3:8", "R 0:2:11:5"]),
        ("2 0 31 1", vec!["R 0:2:31:1"]),
        ("2 0 0 16", vec!["R 0:2:0:8", "R 0:2:8:8"]),
    ];
    for (job, shown) in cases {
        let mut session = vec![(job, "0")];
        session.extend(shown.into_iter().chain(["R -"]).map(|shown| ("0 d", shown)));
        check(&plan_t(), &session);
    }
}

/// The same pieces as the cutting gives them.
#[test]
fn cutting_on_fresh_t() {
    let plan = plan_t();
    let cut = |operation: Operation, address: u64, length: u64| {
        let pieces = pieces(&plan, operation, 0, address..address + length);
        pieces.map(|Piece { start, length, .. }| (length, start)).collect::<Vec<_>>()
    };
    assert_eq!(cut(Operation::Write, 4, 12), [(4, 4), (8, 8)]);
    assert_eq!(cut(Operation::Write, 8, 12), [(8, 8), (4, 16)]);
    assert_eq!(cut(Operation::Erase, 0, 32), [(32, 0)]);
    assert_eq!(cut(Operation::Erase, 16, 16), [(16, 16)]);
    assert_eq!(cut(Operation::Read, 3, 13), [(8, 3), (5, 11)]);
}

#[test]
fn numbers_on_fresh_t() {
    check_each_on_fresh_t(&[
        ("2 0 31 1", "0"),
        ("2 0 31 2", "12"),
        ("1 0 0 0", "12"),
        ("2 0 0 0", "12"),
        ("3 0 0 0", "12"),
        ("4 0 0 0", "12"),
        ("6 0 0 0", "12"),
        ("7 0 0 0", "12"),
        ("8 0 0 0", "12"),
        ("1 0 2 4", "13"),
        ("2 0 0 16", "0"),
        ("2 0 0 17", "14"),
        ("1 2 0 4", "10"),
        ("9 2", "10"),
        ("10 2", "10"),
    ]);
}

/// A refused plan prints only its number, whatever the lines.
#[test]
fn refused_plans_print_their_number() {
    let printed = |plan: &Plan| output(plan, &["1 0 4 12", "x"]);
    let t_with = |change: fn(&mut Plan)| {
        let mut plan = plan_t();
        change(&mut plan);
        plan
    };
    assert_eq!(printed(&t_with(|p| p.devices[0].patience = 0)), "3\n");
    assert_eq!(printed(&t_with(|p| p.devices[0].length = 63)), "6\n");
    assert_eq!(printed(&t_with(|p| p.sub_areas[0].sector_burst = 24)), "5\n");
    assert_eq!(run_session(Some(b""), b"10 0\n"), b"2\n");
    // Refused comes before the sum that the bench takes.
    let large_and_refused = t_with(|p| {
        p.devices[0].length = 65_537;
        p.sub_areas[1].start = 16;
    });
    assert_eq!(printed(&large_and_refused), "8\n");
}

#[test]
fn plans_that_print_only_a_question_mark() {
    assert_eq!(run_session(None, b"10 0\n"), b"?\n");
    let mut bytes = encode(&plan_t());
    bytes.resize(4_096, 0);
    assert_eq!(run_session(Some(&bytes), b"10 0\n"), b"1\n");
    bytes.push(0);
    assert_eq!(run_session(Some(&bytes), b"10 0\n"), b"?\n");

    let with_length = |length: u32| {
        let mut plan = plan_t();
        plan.devices[0].length = length;
        plan
    };
    assert_eq!(output(&with_length(65_536), &["10 0"]), "0 0 0 0 0 0\n");
    assert_eq!(output(&with_length(65_537), &["10 0"]), "?\n");
    assert_eq!(output(&largest(), &["10 7"]), "0 0 0 0 0 0\n");
}

#[test]
fn an_accepted_plan_prints_nothing() {
    assert_eq!(run_session(Some(&encode(&plan_t())), b""), b"");
}

#[test]
fn limits_of_numbers() {
    check_each_on_fresh_t(&[
        ("1 4294967295 0 4", "10"),
        ("1 4294967296 0 4", "?"),
        ("1 0 4294967295 4", "12"),
        ("1 0 4294967296 4", "?"),
        ("1 0 0 4294967295", "12"),
        ("1 0 0 4294967296", "?"),
        ("7 0 4294967295 4294967295", "12"),
        ("8 0 4294967295 4294967295", "12"),
        ("8 0 4294967295 4294967296", "?"),
        ("9 4294967295", "10"),
        ("9 4294967296", "?"),
        ("10 4294967295", "10"),
        ("10 4294967296", "?"),
        ("0 4294967295", "R -"),
        ("0 4294967296", "?"),
        ("4294967295 0 0 4", "?"),
        ("4294967296 0 0 4", "?"),
        ("4294967297 0 0 4", "?"),
        ("1 0 0 18446744073709551620", "?"),
        ("1 0 0 340282366920938463463374607431768211460", "?"),
    ]);
}

#[test]
fn leading_zeros_count_for_nothing() {
    check(
        &plan_t(),
        &[
            ("01 00 0004 0000000000000012", "0"),
            ("000 p", "R 0:1:4:4"),
            ("0 000", "R 0:1:4:4"),
            ("0010 00", "0 0 2 0 0 0"),
            ("09 0", "0"),
            ("00000000004294967296 0 0 4", "?"),
            ("2 0 0 00000000004294967295", "11"),
            ("2 0 0 00000000004294967296", "?"),
        ],
    );
}

#[test]
fn spaces_and_other_bytes() {
    check_each_on_fresh_t(&[
        ("", "?"),
        (" ", "?"),
        ("1 0 4 12", "0"),
        (" 1 0 4 12", "?"),
        ("1 0 4 12 ", "?"),
        ("1 0  4 12", "?"),
        ("1\t0 4 12", "?"),
        ("1 0 4 12\t", "?"),
        ("1 0 4 12\r", "?"),
        ("\r", "?"),
        ("0 p\r", "?"),
        ("1 0 4 1\u{0}2", "?"),
        ("1 0 4 1²", "?"),
        ("1 0 4 +12", "?"),
        ("1 0 4 -0", "?"),
        ("+1 0 4 12", "?"),
        ("1 0 4 12.0", "?"),
        ("1 0 4 0x4", "?"),
        ("1,0,4,12", "?"),
        ("1 0 4 1_2", "?"),
    ]);
}

#[test]
fn types_and_field_counts() {
    check_each_on_fresh_t(&[
        ("1 0 4", "?"),
        ("1 0 4 4 0", "?"),
        ("1", "?"),
        ("5 0 4 4", "?"),
        ("7 0 4 4", "0"),
        ("7 0 4", "?"),
        ("8 0 4 4", "16"),
        ("8 0", "?"),
        ("9 0", "17"),
        ("9", "?"),
        ("9 0 0", "?"),
        ("9 0 4 4", "?"),
        ("10 0", "0 0 0 0 0 0"),
        ("10", "?"),
        ("10 0 0", "?"),
        ("10 0 4 4", "?"),
        ("11 0 4 4", "?"),
        ("11 0", "?"),
        ("255 0 4 4", "?"),
        ("257 0 4 4", "?"),
        ("p", "?"),
        ("x 0 4 4", "?"),
        ("R", "?"),
        ("p 0 4 4", "?"),
        ("1 p 4 4", "?"),
    ]);
}

#[test]
fn answers_of_a_round() {
    check_each_on_fresh_t(&[
        ("0", "?"),
        ("0 p", "R -"),
        ("0 d", "R -"),
        ("0 0", "R -"),
        ("0 p p", "?"),
        ("0 P", "?"),
        ("0 D", "?"),
        ("0 pp", "?"),
        ("0 f", "?"),
        ("0 -1", "?"),
        ("0 ", "?"),
        ("0 0 4 4", "?"),
    ]);
    let four_devices = regular(4, 4, 4);
    let cases = [
        ("0 p d 7 0", "R - - - -"),
        ("0 p d 7", "?"),
        ("0 p d 7 0 p", "?"),
        ("0 p d 7 x", "?"),
        ("0 p d 7 4294967296", "?"),
    ];
    for case in cases {
        check(&four_devices, &[case]);
    }
}

/// A line that prints "?" or a number other than 0 is as if it were not there.
#[test]
fn a_line_that_is_not_read_changes_nothing() {
    let damaged = ["0 p p", "0", "9 0 0", "1 0 4 12 ", "5 0 0 4", "2 0 0 17", "8 0 0 1", "10 2"];
    let mut session = Vec::new();
    for (line, answer) in PRINTED_SESSION {
        session.push((line, answer));
        session.extend(damaged.iter().map(|line| (*line, "")));
    }
    let lines: Vec<_> = session.iter().map(|(line, _)| *line).collect();
    let output = output(&plan_t(), &lines);
    for ((line, answer), printed) in session.iter().zip(output.lines()) {
        assert!(answer.is_empty() || *answer == printed, "{line}: {printed}");
    }
}

#[test]
fn length_of_lines() {
    let plan = encode(&plan_t());
    let padded = |length: usize, line: &str| {
        let zeros = "0".repeat(length - line.len());
        format!("{zeros}{line}\n").into_bytes()
    };
    assert_eq!(run_session(Some(&plan), &padded(4_096, "1 0 4 12")), b"0\n");
    assert_eq!(run_session(Some(&plan), &padded(4_097, "1 0 4 12")), b"?\n");
    assert_eq!(run_session(Some(&plan), &padded(4_096, "0 p")), b"R -\n");
    assert_eq!(run_session(Some(&plan), &padded(4_097, "0 p")), b"?\n");
    assert_eq!(run_session(Some(&plan), &padded(100_000, "0 p")), b"?\n");
    // The line end is not counted; without it the limit is the same.
    let mut unended = padded(4_096, "0 p");
    unended.pop();
    assert_eq!(run_session(Some(&plan), &unended), b"R -\n");
    let mut unended = padded(4_097, "0 p");
    unended.pop();
    assert_eq!(run_session(Some(&plan), &unended), b"?\n");
    // The next line is read from its start.
    let two = [padded(5_000, "0 p"), b"10 0\n".to_vec()].concat();
    assert_eq!(run_session(Some(&plan), &two), b"?\n0 0 0 0 0 0\n");
}

#[test]
fn ends_of_lines() {
    let plan = encode(&plan_t());
    let printed = |input: &[u8]| run_session(Some(&plan), input);
    assert_eq!(printed(b"0 p"), b"R -\n");
    assert_eq!(printed(b"0 p\n"), b"R -\n");
    assert_eq!(printed(b"0 p\n\n"), b"R -\n?\n");
    assert_eq!(printed(b"\n"), b"?\n");
    assert_eq!(printed(b"\n\n"), b"?\n?\n");
    assert_eq!(printed(b" "), b"?\n");
    assert_eq!(printed(b"0 p\r\n"), b"?\n");
    assert_eq!(printed(b"\xFF\xFE"), b"?\n");
}

/// Info of a pending job prints the old result.
#[test]
fn info_of_a_pending_job() {
    check(
        &plan_t(),
        &[
            ("1 1 256 4", "0"),
            ("0 p", "R 1:1:32:4"),
            ("0 0", "R -"),
            ("10 1", "1 0 1 0 0 0"),
            ("4 1 256 16", "0"),
            ("10 1", "1 0 0 0 0 0"),
            ("0 p", "R 1:4:32:16"),
            ("10 1", "1 0 1 0 0 0"),
            ("0 d", "R -"),
            ("10 1", "0 16 1 0 0 0"),
        ],
    );
}

/// A session worked out from the calls that its lines ask for, without reading any line.
fn answers_of_calls(plan: &Plan, lines: &[Line]) -> Vec<u8> {
    let mut manager = Manager::load(&encode(plan)).expect("an accepted plan");
    let sum = usize::try_from(plan.device_sum()).expect("an image");
    let (mut image, mut store) = (vec![255; sum], vec![0; 65_536]);
    let mut output = Vec::new();
    for line in lines {
        let answer = match &line.call {
            None => "?".to_string(),
            Some(call) => {
                let number = call.make(&mut manager, &mut image, &mut store);
                printed(&manager, call, number)
            }
        };
        output.extend(answer.bytes().chain([b'\n']));
    }
    output
}

fn printed(manager: &Manager, call: &Call, number: u8) -> String {
    match call {
        Call::Round(_) => {
            assert_eq!(number, 0, "the bench lends memory that fits");
            let devices = (0..manager.plan().devices.len()).map(|n| match manager.device(n) {
                DeviceState::Free => "-".to_string(),
                DeviceState::Locked(_) => "L".to_string(),
                DeviceState::Running(r) => {
                    let place = (r.piece.start, r.piece.length);
                    format!("{}:{}:{}:{}", r.area, r.operation.number(), place.0, place.1)
                }
            });
            let fields: Vec<_> = std::iter::once("R".to_string()).chain(devices).collect();
            fields.join(" ")
        }
        Call::Query(Query::JobInfo, area) if number == 0 => {
            let info = manager.job_info(*area).expect("a known area");
            let fields = [info.result.into(), info.processed, info.waits.own, info.waits.above];
            let fields = fields.into_iter().chain([info.waits.below, info.waits.locked]);
            fields.map(|field| field.to_string()).collect::<Vec<_>>().join(" ")
        }
        _ => number.to_string(),
    }
}

#[test]
fn random_sessions_answer_their_calls() {
    let mut random = Random::new(31);
    let (mut readable, mut damaged) = (0, 0);
    for _ in 0..600 {
        let plan = bench_plan(&mut random);
        let lines = lines(&mut random, &plan, 300);
        damaged += lines.iter().filter(|line| line.call.is_none()).count();
        readable += lines.iter().filter(|line| line.call.is_some()).count();
        // An empty last line only counts if its end is there.
        let is_last_ended = random.one_in(2) || lines.last().is_some_and(|l| l.text.is_empty());
        let output = run_session(Some(&encode(&plan)), &text(&lines, is_last_ended));
        let expected = answers_of_calls(&plan, &lines);
        let differs = output.split(|b| *b == b'\n').zip(expected.split(|b| *b == b'\n'));
        let differs = differs.zip(&lines).find(|((one, other), _)| one != other);
        assert!(output == expected, "{differs:?}");
    }
    println!("{readable} readable lines, {damaged} damaged ones");
    assert!(damaged >= 10_000 && readable >= 100_000);
}

#[test]
fn input_may_come_in_any_parts() {
    let mut random = Random::new(32);
    for _ in 0..50 {
        let plan = encode(&bench_plan(&mut random));
        let whole_plan = model::plan::load(&plan).expect("an accepted plan");
        let input = text(&lines(&mut random, &whole_plan, 100), random.one_in(2));
        let mut session = Session::open(Some(&plan)).expect("an accepted plan");
        let mut output = Vec::new();
        let mut rest = input.as_slice();
        while !rest.is_empty() {
            let (part, later) = rest.split_at(random.index(rest.len().min(40)) + 1);
            output.extend(session.feed(part));
            rest = later;
        }
        output.extend(session.finish());
        assert!(output == run_session(Some(&plan), &input));
    }
}

/// A folder of its own for a run of the program.
struct Folder(PathBuf);

impl Folder {
    fn new(name: &str) -> Folder {
        let folder = Path::new(env!("CARGO_TARGET_TMPDIR")).join(name);
        // What an earlier run left.
        let _ = fs::remove_dir_all(&folder);
        fs::create_dir_all(&folder).expect("a folder");
        Folder(folder)
    }

    fn with_plan(name: &str, plan: &[u8]) -> Folder {
        let folder = Folder::new(name);
        fs::write(folder.0.join("plan.bin"), plan).expect("a file");
        folder
    }

    /// What the program prints there for the input.
    fn printed(&self, input: &[u8]) -> Vec<u8> {
        let mut program = Command::new(env!("CARGO_BIN_EXE_session"))
            .current_dir(&self.0)
            .stdin(Stdio::piped())
            .stdout(Stdio::piped())
            .spawn()
            .expect("the program starts");
        let mut pipe = program.stdin.take().expect("a pipe");
        let input = input.to_vec();
        // A program that does not read its input closes the pipe.
        let writer = std::thread::spawn(move || drop(pipe.write_all(&input)));
        let output = program.wait_with_output().expect("the program ends");
        writer.join().expect("the input is written");
        assert!(output.status.success());
        output.stdout
    }
}

#[test]
fn the_program_prints_the_session() {
    let folder = Folder::with_plan("session_t", &encode(&plan_t()));
    let input: String = PRINTED_SESSION.iter().map(|(line, _)| format!("{line}\n")).collect();
    let answers: String = PRINTED_SESSION.iter().map(|(_, answer)| format!("{answer}\n")).collect();
    assert_eq!(folder.printed(input.as_bytes()), answers.as_bytes());

    let mut random = Random::new(33);
    let plan = bench_plan(&mut random);
    let input = text(&lines(&mut random, &plan, 20_000), false);
    let folder = Folder::with_plan("session_long", &encode(&plan));
    assert!(folder.printed(&input) == run_session(Some(&encode(&plan)), &input));
}

#[test]
fn the_program_without_a_plan_prints_a_question_mark() {
    let missing = Folder::new("session_missing");
    assert_eq!(missing.printed(b"10 0\n"), b"?\n");
    let directory = Folder::new("session_directory");
    fs::create_dir(directory.0.join("plan.bin")).expect("a folder");
    assert_eq!(directory.printed(b"10 0\n"), b"?\n");
    let long = Folder::with_plan("session_long_plan", &vec![0; 4_097]);
    assert_eq!(long.printed(b"10 0\n"), b"?\n");
    let refused = Folder::with_plan("session_refused_plan", &[0; 4_096]);
    assert_eq!(refused.printed(b"10 0\n"), b"1\n");
    let empty = Folder::with_plan("session_empty_plan", b"");
    assert_eq!(empty.printed(b"10 0\n"), b"2\n");
}
