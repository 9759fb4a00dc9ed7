//! From a session that shows a difference to the smallest one found that still does, and its report.
//!
//! Lines are dropped first, then records of the plan, then numbers made plainer, until nothing more
//! can go. A change is kept if the session still shows a difference, not necessarily the same.

use crate::plan::{self, Chip, Plan, SubArea};
use crate::plans::{encode, encode_records, raw_records};
use crate::script::{Bytes, Lending, Script};
use crate::subject::Difference;

/// Does a script still show a difference?
pub type Shows<'a> = dyn FnMut(&Script) -> bool + 'a;

/// Each time over, numbers get nearer to the smallest by half: so often is enough for most.
const MOST_PASSES: u32 = 12;

/// Of so many lines at most every selection is tried.
const FEW_LINES: usize = 10;

pub fn smallest(script: Script, shows: &mut Shows) -> Script {
    let mut best = script;
    for _ in 0..MOST_PASSES {
        let before = best.clone();
        best = with_fewer_lines(best, shows);
        best = with_fewest_lines(best, shows);
        best = with_fewer_records(best, shows);
        best = with_plainer_marks(best, shows);
        best = with_plainer_plan(best, shows);
        best = with_plainer_lines(best, shows);
        best = with_plainer_lending(best, shows);
        if best == before {
            break;
        }
    }
    best
}

/// The one that is tried if it still shows a difference, else the one before.
fn better(best: Script, tried: Script, shows: &mut Shows) -> Script {
    if tried != best && shows(&tried) {
        tried
    } else {
        best
    }
}

/// Drops lines in runs, from half of them down to single ones.
fn with_fewer_lines(mut best: Script, shows: &mut Shows) -> Script {
    let mut run = best.lines.len().div_ceil(2);
    while run > 0 {
        let mut start = 0;
        while start < best.lines.len() {
            let mut tried = best.clone();
            tried.lines.drain(start..best.lines.len().min(start + run));
            let length = best.lines.len();
            best = better(best, tried, shows);
            // Where lines went, others have come up to this place.
            if best.lines.len() == length {
                start += run;
            }
        }
        run /= 2;
    }
    best
}

/// Of few lines the fewest that will do: lines that only make each other wait go together or not at all.
fn with_fewest_lines(best: Script, shows: &mut Shows) -> Script {
    if best.lines.len() > FEW_LINES {
        return best;
    }
    let mut selections: Vec<u32> = (0..1 << best.lines.len()).collect();
    selections.sort_by_key(|selection| selection.count_ones());
    for selection in selections {
        let mut tried = best.clone();
        let mut bits = (0..).map(|line| selection >> line & 1);
        tried.lines.retain(|_| bits.next() == Some(1));
        if tried != best && shows(&tried) {
            return tried;
        }
    }
    best
}

/// Drops areas with all that is theirs, the last device, single sub-areas and wear records, and moves areas
/// to logical address 0.
fn with_fewer_records(mut best: Script, shows: &mut Shows) -> Script {
    for area in (0..count(&best, |plan| plan.areas.len())).rev() {
        best = better_plan(best, shows, |tried, plan| drop_area(tried, plan, area));
    }
    for area in 0..count(&best, |plan| plan.areas.len()) {
        best = better_plan(best, shows, |tried, plan| move_area(tried, plan, area));
    }
    for _ in 0..count(&best, |plan| plan.devices.len()) {
        best = better_plan(best, shows, drop_last_device);
    }
    for sub_area in (0..count(&best, |plan| plan.sub_areas.len())).rev() {
        best = without_sub_area(best, shows, sub_area);
    }
    for record in (0..count(&best, |plan| plan.wear_records.len())).rev() {
        best = better_plan(best, shows, |_, plan| {
            plan.wear_records.remove(record);
        });
    }
    best
}

/// How many records there are of a kind; none where they are not whole.
fn count(script: &Script, of_kind: impl Fn(&Plan) -> usize) -> usize {
    plan::whole_records(&script.plan).map_or(0, |plan| of_kind(&plan))
}

/// Drops the other sub-areas, with their wear records; the numbers of those behind them move down.
fn keep_sub_areas(plan: &mut Plan, keeps: impl Fn(usize, &SubArea) -> bool) {
    let numbered = plan.sub_areas.iter().enumerate();
    let kept: Vec<_> = numbered.map(|(number, sub_area)| keeps(number, sub_area)).collect();
    let is_dropped = |number: u8| kept.get(usize::from(number)) == Some(&false);
    plan.wear_records.retain(|record| !is_dropped(record.sub_area));
    for record in &mut plan.wear_records {
        let dropped = (0..record.sub_area).filter(|number| is_dropped(*number));
        record.sub_area -= dropped.map(|_| 1).sum::<u8>();
    }
    let mut kept = kept.into_iter();
    plan.sub_areas.retain(|_| kept.next() == Some(true));
}

/// Tries a change of the records. Memory of the lengths that the bench lends keeps to them.
fn better_plan(
    best: Script,
    shows: &mut Shows,
    change: impl FnOnce(&mut Script, &mut Plan),
) -> Script {
    let Some(mut plan) = plan::whole_records(&best.plan) else {
        return best;
    };
    let mut tried = best.clone();
    change(&mut tried, &mut plan);
    set_plan(&mut tried, encode(&plan));
    better(best, tried, shows)
}

fn set_plan(script: &mut Script, plan: Vec<u8>) {
    let is_fitting = script.lending == script.lending.fitted(&script.plan);
    script.plan = plan;
    if is_fitting {
        script.lending = script.lending.fitted(&script.plan);
    }
}

/// The areas above it move down, in the plan and in the lines.
fn drop_area(script: &mut Script, plan: &mut Plan, area: usize) {
    plan.areas.remove(area);
    keep_sub_areas(plan, |_, sub_area| usize::from(sub_area.area) != area);
    for sub_area in plan.sub_areas.iter_mut().filter(|s| usize::from(s.area) > area) {
        sub_area.area -= 1;
    }
    change_calls(script, |numbers| {
        if usize::try_from(numbers[1]).is_ok_and(|number| number > area) {
            numbers[1] -= 1;
        }
    });
}

/// To logical address 0, with the calls on it.
fn move_area(script: &mut Script, plan: &mut Plan, area: usize) {
    let start = plan.areas[area].logical_start;
    plan.areas[area].logical_start = 0;
    change_calls(script, |numbers| {
        let is_on_it = usize::try_from(numbers[1]).is_ok_and(|number| number == area);
        if let Some(address) = numbers.get_mut(2).filter(|_| is_on_it) {
            *address = address.wrapping_sub(start);
        }
    });
}

/// Where the end of an area shows the difference, as question 7 asks for it, the area keeps its end.
fn without_sub_area(best: Script, shows: &mut Shows, sub_area: usize) -> Script {
    let tried =
        better_plan(best.clone(), shows, |tried, plan| drop_sub_area(tried, plan, sub_area));
    if tried != best {
        return tried;
    }
    better_plan(best, shows, |tried, plan| {
        let SubArea { area, sector, sector_count, .. } = plan.sub_areas[sub_area];
        drop_sub_area(tried, plan, sub_area);
        if let Some(area) = plan.areas.get_mut(usize::from(area)) {
            let size = sector.saturating_mul(sector_count);
            area.logical_start = area.logical_start.saturating_add(size);
        }
    })
}

/// What lies behind it in its area moves down, with the calls on it.
fn drop_sub_area(script: &mut Script, plan: &mut Plan, sub_area: usize) {
    if sub_area >= plan.sub_areas.len() {
        return;
    }
    let dropped = plan.sub_areas[sub_area];
    keep_sub_areas(plan, |number, _| number != sub_area);
    let area = usize::from(dropped.area);
    let earlier = plan.sub_areas[..sub_area].iter().filter(|s| s.area == dropped.area);
    let offset: u64 = earlier.map(SubArea::size).sum();
    let start = plan.areas.get(area).map_or(0, |area| u64::from(area.logical_start)) + offset;
    let size = u32::try_from(dropped.size()).unwrap_or(u32::MAX);
    change_calls(script, |numbers| {
        let is_on_it = usize::try_from(numbers[1]).is_ok_and(|number| number == area);
        let is_behind = |address: &&mut u32| is_on_it && u64::from(**address) > start;
        if let Some(address) = numbers.get_mut(2).filter(is_behind) {
            *address = address.saturating_sub(size);
        }
    });
}

/// Changes the numbers of every line of numbers but the rounds. The others stay as they are written.
fn change_calls(script: &mut Script, change: impl Fn(&mut [u32])) {
    for line in &mut script.lines {
        let mut fields = fields_of(line);
        let numbers: Option<Vec<_>> = fields.iter().map(|field| number(field)).collect();
        if let Some(numbers) = numbers.filter(|numbers| numbers.len() > 1 && numbers[0] > 0) {
            let mut changed = numbers.clone();
            change(&mut changed);
            for (field, (old, new)) in fields.iter_mut().zip(numbers.iter().zip(changed)) {
                if *old != new {
                    *field = new.to_string().into_bytes();
                }
            }
            *line = fields.join(&b' ');
        }
    }
}

/// With its sub-areas, and with its answer in the rounds.
fn drop_last_device(script: &mut Script, plan: &mut Plan) {
    plan.devices.pop();
    let count = plan.devices.len();
    keep_sub_areas(plan, |_, sub_area| usize::from(sub_area.device) < count);
    for line in &mut script.lines {
        let mut fields = fields_of(line);
        if fields[0] == b"0" && fields.len() == count + 2 {
            fields.pop();
            *line = fields.join(&b' ');
        }
    }
}

/// Gives devices the mark of a plainer chip, of the plainest that will do.
fn with_plainer_marks(mut best: Script, shows: &mut Shows) -> Script {
    let device_count = plan::whole_records(&best.plan).map_or(0, |plan| plan.devices.len());
    let devices = (0..device_count).flat_map(|device| Chip::ALL.map(|chip| (device, chip)));
    for (device, plainer) in devices {
        best = better_plan(best, shows, |_, plan| {
            let chip = &mut plan.devices[device].chip;
            *chip = plainer.min(*chip);
        });
    }
    best
}

/// Makes the numbers of the records smaller, one at a time.
fn with_plainer_plan(mut best: Script, shows: &mut Shows) -> Script {
    let Some(plan) = plan::whole_records(&best.plan) else {
        return best;
    };
    let records = raw_records(&plan);
    let widths = records.iter().map(|record| record.fields.len()).enumerate();
    for (record, field) in widths.flat_map(|(record, width)| (0..width).map(move |f| (record, f))) {
        best = with_plainer_field(best, shows, record, field);
    }
    best
}

fn with_plainer_field(best: Script, shows: &mut Shows, record: usize, field: usize) -> Script {
    let plan = plan::whole_records(&best.plan).expect("a plan of whole records");
    let mut records = raw_records(&plan);
    for value in plainer(records[record].fields[field].value) {
        records[record].fields[field].value = value;
        let mut tried = best.clone();
        set_plan(&mut tried, encode_records(&records));
        if shows(&tried) {
            return tried;
        }
    }
    best
}

/// Makes the words of the lines plainer, one at a time, and drops leading zeros.
fn with_plainer_lines(mut best: Script, shows: &mut Shows) -> Script {
    for line in 0..best.lines.len() {
        for field in 0..fields_of(&best.lines[line]).len() {
            best = with_plainer_word(best, shows, line, field);
        }
    }
    best
}

fn with_plainer_word(best: Script, shows: &mut Shows, line: usize, field: usize) -> Script {
    let mut fields = fields_of(&best.lines[line]);
    for word in plainer_words(&fields[field]) {
        fields[field] = word;
        let mut tried = best.clone();
        tried.lines[line] = fields.join(&b' ');
        if tried != best && shows(&tried) {
            return tried;
        }
    }
    best
}

fn with_plainer_lending(best: Script, shows: &mut Shows) -> Script {
    let ended = Script { is_last_ended: true, ..best.clone() };
    let best = better(best, ended, shows);
    let lent = Script { lending: Lending { bytes: Bytes::Bench, ..best.lending }, ..best.clone() };
    let best = better(best, lent, shows);
    let fitted = Script { lending: best.lending.fitted(&best.plan), ..best.clone() };
    better(best, fitted, shows)
}

/// Smaller numbers, and done for pending, which ends a request sooner.
fn plainer_words(word: &[u8]) -> Vec<Vec<u8>> {
    match (word, number(word)) {
        (b"p", _) => vec![b"d".to_vec()],
        (_, Some(value)) => {
            let values = plainer(value).into_iter().chain([value]);
            values.map(|value| value.to_string().into_bytes()).collect()
        }
        (_, None) => Vec::new(),
    }
}

/// Smaller numbers, the smallest first: 0, 1, then nearer by half each time, down to one less.
fn plainer(value: u32) -> Vec<u32> {
    let halves = (1..32).map(|power| value >> power).take_while(|half| *half > 0);
    let mut values: Vec<_> = [0, 1].into_iter().chain(halves.map(|half| value - half)).collect();
    values.retain(|smaller| *smaller < value);
    values.dedup();
    values
}

fn fields_of(line: &[u8]) -> Vec<Vec<u8>> {
    line.split(|byte| *byte == b' ').map(<[u8]>::to_vec).collect()
}

/// The number of a field, if it is one of 32 bits.
fn number(field: &[u8]) -> Option<u32> {
    std::str::from_utf8(field).ok()?.parse().ok()
}

/// All that it takes to see a difference again.
pub fn report(script: &Script, difference: &Difference) -> String {
    let hex: String = script.plan.iter().map(|byte| format!("{byte:02x}")).collect();
    let Lending { image_length, store_length, bytes } = script.lending;
    let bytes = match bytes {
        Bytes::Bench => "all 255 and all 0".to_string(),
        Bytes::Drawn(seed) => format!("drawn with seed {seed}"),
    };
    let text = |bytes: &[u8]| {
        let lines = bytes.split_inclusive(|byte| *byte == b'\n');
        lines.map(|line| format!("    {}\n", line.escape_ascii())).collect::<String>()
    };
    let plan = plan::whole_records(&script.plan);
    format!(
        "difference: {}\nplan (hex): {hex}\n{plan:#?}\nimage of {image_length} and store of \
         {store_length} bytes, {bytes}\ninput:\n{}output of the model:\n{}output found:\n{}",
        difference.place(),
        text(&script.input()),
        text(&difference.expected.output),
        text(&difference.found.output),
    )
}
