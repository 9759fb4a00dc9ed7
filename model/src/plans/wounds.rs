//! Wounds: changes to a plan that may or may not make a question answer "no".

use super::wear::wound_wear;
use super::{encode, encode_records, raw_records, Field, RawRecord};
use crate::plan::{Chip, Plan, AREA_MARK, SUB_AREA_MARK, WEAR_MARK};
use crate::random::Random;

/// What a wound makes of a field. At the ends of a field's range "one more" and "one less" go round
/// to the other end.
#[derive(Clone, Copy)]
enum FieldChange {
    Zero,
    One,
    OneMore,
    OneLess,
    Largest,
    Random,
}

const FIELD_CHANGES: [FieldChange; 6] = [
    FieldChange::Zero,
    FieldChange::One,
    FieldChange::OneMore,
    FieldChange::OneLess,
    FieldChange::Largest,
    FieldChange::Random,
];

impl Field {
    /// The largest value of the field's width.
    fn largest(&self) -> u32 {
        u32::MAX >> (32 - 8 * self.width)
    }

    fn change(&mut self, random: &mut Random, change: FieldChange) {
        let value = match change {
            FieldChange::Zero => 0,
            FieldChange::One => 1,
            FieldChange::OneMore => self.value.wrapping_add(1),
            FieldChange::OneLess => self.value.wrapping_sub(1),
            FieldChange::Largest => u32::MAX,
            FieldChange::Random => random.between(0, u32::MAX),
        };
        self.value = value & self.largest();
    }
}

/// The bytes of a plan after this many random wounds.
pub fn wounded(random: &mut Random, plan: &Plan, wounds: u32) -> Vec<u8> {
    let mut records = raw_records(plan);
    let (byte_wounds, record_wounds): (Vec<_>, _) = (0..wounds).partition(|_| random.one_in(6));
    for _ in record_wounds {
        wound_records(random, &mut records);
    }
    let mut bytes = encode_records(&records);
    for _ in byte_wounds {
        wound_bytes(random, &mut bytes);
    }
    bytes
}

/// The bytes of a plan with one wound of its wear records.
pub fn wounded_wear(random: &mut Random, plan: &Plan) -> Vec<u8> {
    let mut records = raw_records(plan);
    wound_wear(random, &mut records);
    encode_records(&records)
}

/// Half of these wounds or so change a field, the others drop, double, swap or mark records or are of the
/// wear records.
fn wound_records(random: &mut Random, records: &mut Vec<RawRecord>) {
    if records.is_empty() {
        return;
    }
    let (one, other) = (random.index(records.len()), random.index(records.len()));
    match random.below(12) {
        0 => {
            records.remove(one);
        }
        1 => records.insert(one, records[one].clone()),
        2 => records.insert(other, records[one].clone()),
        3 => records.swap(one, other),
        4 => records[one].mark = another_mark(random, records[one].mark),
        5 => wound_wear(random, records),
        _ => wound_field(random, &mut records[one]),
    }
}

fn wound_field(random: &mut Random, record: &mut RawRecord) {
    let change = random.pick(&FIELD_CHANGES);
    let field = random.index(record.fields.len());
    record.fields[field].change(random, change);
}

/// The mark of some kind, the mark with its bytes exchanged, a first byte with the second of another
/// mark, known or not, or a mark with one byte changed.
fn another_mark(random: &mut Random, [first, second]: [u8; 2]) -> [u8; 2] {
    match random.below(5) {
        0 => {
            let device = random.pick(&Chip::ALL).mark();
            random.pick(&[device, device, AREA_MARK, SUB_AREA_MARK, WEAR_MARK])
        }
        1 => [second, first],
        2 => [first, random.pick(&[0x56, 0x53, 0x46, 0x54, 0x52, 0x4C, 0x42])],
        3 => [random.byte(), second],
        _ => [first, random.byte()],
    }
}

/// Flips bits of a byte, cuts the end or pads it.
fn wound_bytes(random: &mut Random, bytes: &mut Vec<u8>) {
    match random.below(3) {
        0 if !bytes.is_empty() => {
            let index = random.index(bytes.len());
            bytes[index] ^= random.byte();
        }
        1 => bytes.truncate(random.index(bytes.len() + 1)),
        _ => bytes.extend((0..random.between(1, 40)).map(|_| random.byte())),
    }
}

/// Every field of every record changed in each way, one at a time.
pub fn field_changes(random: &mut Random, plan: &Plan) -> Vec<Vec<u8>> {
    let mut plans = Vec::new();
    let mut records = raw_records(plan);
    for record in 0..records.len() {
        for field in 0..records[record].fields.len() {
            let before = records[record].fields[field];
            for change in FIELD_CHANGES {
                records[record].fields[field].change(random, change);
                plans.push(encode_records(&records));
                records[record].fields[field] = before;
            }
        }
    }
    plans
}

/// Every byte changed to every other value, one at a time.
pub fn byte_changes(plan: &Plan) -> Vec<Vec<u8>> {
    let bytes = encode(plan);
    let changed = |index: usize, flips: u8| {
        let mut bytes = bytes.clone();
        bytes[index] ^= flips;
        bytes
    };
    (0..bytes.len())
        .flat_map(|index| (1..=u8::MAX).map(move |flips| (index, flips)))
        .map(|(index, flips)| changed(index, flips))
        .collect()
}

/// The plan cut after every number of bytes, none included.
pub fn cuts(plan: &Plan) -> Vec<Vec<u8>> {
    let bytes = encode(plan);
    (0..bytes.len()).map(|length| bytes[..length].to_vec()).collect()
}
