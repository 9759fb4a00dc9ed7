//! Random lines of a printed session, each with the call that it asks for or with the knowledge that
//! it must print "?".

use super::calls::Drawer;
use crate::calls::{Call, Query};
use crate::jobs::{Answer, Operation, Target};
use crate::plan::Plan;
use crate::random::Random;

/// A line without its end.
#[derive(Clone, Debug, PartialEq, Eq)]
pub struct Line {
    pub text: Vec<u8>,
    /// None if the line is damaged.
    pub call: Option<Call>,
}

const LONGEST_LINE: usize = 4_096;

/// A list of lines over a plan.
pub fn lines(random: &mut Random, plan: &Plan, count: usize) -> Vec<Line> {
    let mut drawer = Drawer::of(random, plan);
    let mut lines = Vec::with_capacity(count);
    while lines.len() < count {
        let call = drawer.call(random);
        if let Some(fields) = fields(&call, plan.devices.len()) {
            lines.push(line(random, call, fields));
        }
    }
    lines
}

/// A list of up to so many lines for an audit: jobs and locks, whole and damaged, some of them twice, and a
/// few other lines of a session, which are no jobs.
pub fn job_lines(random: &mut Random, plan: &Plan, count: usize) -> Vec<Line> {
    let drawn = lines(random, plan, 3 * count);
    let mut kept: Vec<Line> = Vec::new();
    for line in drawn {
        if kept.len() + 1 >= count {
            break;
        }
        if matches!(line.call, None | Some(Call::Job(..) | Call::Lock(_))) || random.one_in(16) {
            kept.extend(random.one_in(12).then(|| line.clone()));
            kept.push(match random.below(24) {
                0 => of_unknown_area(random, plan),
                1..=3 => of_whole_area(random, plan),
                _ => line,
            });
        }
    }
    kept
}

/// A job or lock of all that an area has, on however many devices.
fn of_whole_area(random: &mut Random, plan: &Plan) -> Line {
    let area = random.index(plan.areas.len());
    let target = Target {
        area: u32::try_from(area).expect("at most 8 areas"),
        address: plan.areas[area].logical_start,
        length: u32::try_from(plan.area_size(area)).expect("inside the image"),
    };
    let operation = random.pick(&Operation::ALL);
    plain_line(if random.one_in(6) { Call::Lock(target) } else { Call::Job(operation, target) })
}

/// A job of an area that no plan has.
fn of_unknown_area(random: &mut Random, plan: &Plan) -> Line {
    let area = random.pick(&[8, 255, 256, u32::MAX]);
    let target = Target { area, address: plan.areas[0].logical_start, length: 1 };
    plain_line(Call::Job(random.pick(&Operation::ALL), target))
}

fn plain_line(call: Call) -> Line {
    let fields = fields(&call, 0).expect("a job or lock has a line");
    Line { text: joined(&fields), call: Some(call) }
}

/// The plain lines that ask for these calls, as far as lines can.
pub fn lines_of(calls: &[Call], plan: &Plan) -> Vec<Vec<u8>> {
    let device_count = plan.devices.len();
    calls.iter().filter_map(|call| fields(call, device_count)).map(|f| joined(&f)).collect()
}

/// The bytes of the lines, the last one with or without its end.
pub fn text(lines: &[Line], is_last_ended: bool) -> Vec<u8> {
    let texts: Vec<_> = lines.iter().map(|line| line.text.as_slice()).collect();
    let mut text = texts.join(&b'\n');
    if is_last_ended {
        text.push(b'\n');
    }
    text
}

/// The fields that ask for a call; none if no line can.
fn fields(call: &Call, device_count: usize) -> Option<Vec<String>> {
    let ranged = |job_type: u8, t: &Target| {
        let numbers = [u32::from(job_type), t.area, t.address, t.length];
        numbers.map(|number| number.to_string()).to_vec()
    };
    Some(match call {
        Call::Job(operation, target) => ranged(operation.number(), target),
        Call::Lock(target) => ranged(7, target),
        Call::Release(target) => ranged(8, target),
        Call::Cancel { area } => vec!["9".to_string(), area.to_string()],
        Call::Query(Query::JobInfo, area) => vec!["10".to_string(), area.to_string()],
        Call::Query(..) => return None,
        Call::Round(answers) => {
            let words = answers.iter().take(device_count).map(|answer| match answer {
                Answer::Pending => "p".to_string(),
                Answer::Done => "d".to_string(),
                Answer::Failed(k) => k.to_string(),
            });
            std::iter::once("0".to_string()).chain(words).collect()
        }
    })
}

/// The line of these fields, sometimes written with leading zeros, sometimes damaged.
fn line(random: &mut Random, call: Call, mut fields: Vec<String>) -> Line {
    match random.below(16) {
        0 => Line { text: damaged_fields(random, fields), call: None },
        1 => Line { text: damaged_text(random, joined(&fields)), call: None },
        2 => {
            let length = random.between(0, 12);
            add_zeros(random, &mut fields, length);
            Line { text: joined(&fields), call: Some(call) }
        }
        3 if random.one_in(8) => padded(random, call, fields),
        _ => Line { text: joined(&fields), call: Some(call) },
    }
}

fn joined(fields: &[String]) -> Vec<u8> {
    fields.join(" ").into_bytes()
}

/// Leading zeros before one of the numbers; the type is always one.
fn add_zeros(random: &mut Random, fields: &mut [String], count: u32) {
    let is_number = |field: &String| field.bytes().all(|byte| byte.is_ascii_digit());
    let mut numbers: Vec<_> = fields.iter_mut().filter(|field| is_number(field)).collect();
    let chosen = random.index(numbers.len());
    let zeros = "0".repeat(usize::try_from(count).expect("a short line"));
    numbers[chosen].insert_str(0, &zeros);
}

/// A line of the greatest length, or of one byte or many more, which is too long.
fn padded(random: &mut Random, call: Call, mut fields: Vec<String>) -> Line {
    let length = joined(&fields).len();
    let many = random.index(LONGEST_LINE) + 1;
    let over = random.pick(&[0, 0, 1, many]);
    let zeros = u32::try_from(LONGEST_LINE + over - length).expect("a short line");
    add_zeros(random, &mut fields, zeros);
    Line { text: joined(&fields), call: (over == 0).then_some(call) }
}

const UNKNOWN_TYPES: [&str; 10] =
    ["5", "11", "007x", "256", "4294967295", "4294967296", "-1", "+1", "p", "R"];
const BAD_WORDS: [&str; 10] =
    ["P", "D", "x", "1a", "0x1", "-1", "+0", "1.0", "4294967296", "99999999999999999999"];

/// Another type, word or field count.
fn damaged_fields(random: &mut Random, mut fields: Vec<String>) -> Vec<u8> {
    match random.below(4) {
        0 => fields[0] = random.pick(&UNKNOWN_TYPES).to_string(),
        1 => {
            let chosen = random.index(fields.len());
            fields[chosen] = random.pick(&BAD_WORDS).to_string();
        }
        2 => fields.push(random.pick(&["0", "p", "d"]).to_string()),
        _ => {
            fields.pop();
        }
    }
    joined(&fields)
}

/// A space, or a byte that no field has, somewhere; or nothing at all.
fn damaged_text(random: &mut Random, mut text: Vec<u8>) -> Vec<u8> {
    let spaces: Vec<_> = (0..text.len()).filter(|index| text[*index] == b' ').collect();
    let space = random.pick(&spaces);
    match random.below(6) {
        0 => text.clear(),
        1 => text.insert(0, b' '),
        2 => text.push(b' '),
        3 => text.insert(space, b' '),
        4 => text[space] = b'\t',
        _ => {
            let place = random.index(text.len() + 1);
            text.insert(place, random.pick(&[b'\r', 0, b'-', b',', 0xC3]));
        }
    }
    text
}
