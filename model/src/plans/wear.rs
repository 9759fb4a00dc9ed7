//! Drawing wear records, and wounding them.

use super::{low_byte, RawRecord};
use crate::plan::{Plan, WearRecord, SUB_AREA_MARK, WEAR_MARK};
use crate::random::Random;

/// Draws wear records of none of the sub-areas, of all, or of some, in any order.
pub fn draw_wear(random: &mut Random, plan: &mut Plan) {
    let mut numbers: Vec<u8> = (0..).take(plan.sub_areas.len()).collect();
    random.shuffle(&mut numbers);
    let some = random.index(numbers.len() + 1);
    numbers.truncate(random.pick(&[0, some, some, numbers.len()]));
    if random.one_in(2) {
        numbers.sort();
    }
    let record = |sub_area: u8| WearRecord { sub_area, endurance: endurance(random) };
    plan.wear_records = numbers.into_iter().map(record).collect();
}

/// Few cycles often, so that sessions go beyond them, and the most that a record can have. A half and a quarter
/// of 2^32 give a total that is small or 0 to whoever keeps 32 bits of it.
fn endurance(random: &mut Random) -> u32 {
    let any = random.between(1, u32::MAX);
    let part = random.pick(&[1 << 30, 1 << 31]) + random.below(2);
    random.pick(&[1, 1, 2, 3, 7, 10, 1_000, part, any, u32::MAX])
}

/// Draws wear records, at times one too many or a wrong one: question 20 may refuse them.
pub(super) fn draw_loose_wear(random: &mut Random, plan: &mut Plan) {
    draw_wear(random, plan);
    if random.one_in(3) {
        let record = wrong_record(random, plan.sub_areas.len(), &named(plan));
        let place = random.index(plan.wear_records.len() + 1);
        plan.wear_records.insert(place, record);
    }
}

/// The sub-areas that have a wear record.
fn named(plan: &Plan) -> Vec<u8> {
    plan.wear_records.iter().map(|record| record.sub_area).collect()
}

/// A record of an unknown sub-area, of endurance 0, or of one of these sub-areas again.
fn wrong_record(random: &mut Random, sub_area_count: usize, named: &[u8]) -> WearRecord {
    let unknown = u8::try_from(sub_area_count).unwrap_or(u8::MAX);
    let known = low_byte(random.below(u32::from(unknown).max(1)));
    let endurance = endurance(random);
    match random.below(3) {
        0 => {
            let sub_area = random.pick(&[unknown, unknown.saturating_add(1), u8::MAX]);
            WearRecord { sub_area, endurance }
        }
        1 if !named.is_empty() => WearRecord { sub_area: random.pick(named), endurance },
        _ => WearRecord { sub_area: known, endurance: 0 },
    }
}

/// A wear record before the last sub-area, more than 32 of them, one with another second byte of its mark,
/// a cut one, or a wrong one, behind all others.
pub(super) fn wound_wear(random: &mut Random, records: &mut Vec<RawRecord>) {
    let of_kind = |mark: [u8; 2]| records.iter().filter(move |record| record.mark == mark);
    let sub_area_count = of_kind(SUB_AREA_MARK).count();
    let named: Vec<_> = of_kind(WEAR_MARK).map(|record| low_byte(record.fields[0].value)).collect();
    let record = RawRecord::from(&wrong_record(random, sub_area_count, &named));
    let mut right = RawRecord::from(&WearRecord { sub_area: 0, endurance: 1 });
    match random.below(8) {
        0 => {
            let last = records.iter().rposition(|record| record.mark == SUB_AREA_MARK);
            records.insert(random.index(last.map_or(1, |last| last + 1)), right);
        }
        1 => records.extend(too_many(random, sub_area_count, &named)),
        2 => {
            let mark = [WEAR_MARK[0], random.pick(&[0x42, 0x51, 0x53, 0x54, 0x56])];
            records.push(RawRecord { mark, ..right });
        }
        3 => {
            right.fields[1].width = random.index(3) + 1;
            records.push(right);
        }
        _ => records.push(record),
    }
}

/// A record for each sub-area that has none, and some again, so that there are more than 32.
fn too_many(random: &mut Random, sub_area_count: usize, named: &[u8]) -> Vec<RawRecord> {
    let unnamed = (0..).take(sub_area_count).filter(|number| !named.contains(number));
    let again = (0..sub_area_count.max(1)).cycle().filter_map(|number| u8::try_from(number).ok());
    let count = 33 - named.len().min(32) + random.index(3);
    let right = |sub_area: u8| RawRecord::from(&WearRecord { sub_area, endurance: 1 });
    unnamed.chain(again).take(count).map(right).collect()
}
