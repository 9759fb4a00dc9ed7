//! Plans whose wear records are read by another rule, before the model sees them.

use super::Mutant;
use model::plan::{self, Plan, WearRecord, WEAR_MARK};
use model::plans::encode;
use model::subject::{Model, Subject};

/// The plan with a change to its records, where they are whole.
fn recorded(plan: &[u8], change: fn(&mut Plan)) -> Vec<u8> {
    match plan::whole_records(plan) {
        Some(mut records) => {
            change(&mut records);
            encode(&records)
        }
        None => plan.to_vec(),
    }
}

/// Makes a mutant of a change to the records of a plan that may be refused.
macro_rules! record_mutant {
    ($name:expr, $change:expr) => {
        Mutant {
            name: $name,
            session: |plan, input, image, store| {
                Model.session(&recorded(plan, $change), input, image, store)
            },
        }
    };
}

/// Makes a mutant that answers some plans with another number.
macro_rules! load_mutant {
    ($name:expr, $number:expr) => {
        Mutant {
            name: $name,
            session: |plan, input, image, store| {
                let number: fn(&[u8]) -> Option<u8> = $number;
                match number(plan) {
                    Some(number) => format!("{number}\n").into_bytes(),
                    None => Model.session(plan, input, image, store),
                }
            },
        }
    };
}

/// The first record of each sub-area, of records in this order.
fn firsts(records: impl Iterator<Item = WearRecord>) -> Vec<WearRecord> {
    let mut firsts: Vec<WearRecord> = Vec::new();
    for record in records {
        if firsts.iter().all(|first| first.sub_area != record.sub_area) {
            firsts.push(record);
        }
    }
    firsts
}

/// Which wear records a plan may have, and when that is asked.
pub fn of_wear_records() -> Vec<Mutant> {
    vec![
        record_mutant!("of repeated wear records the first counts", |p| {
            p.wear_records = firsts(p.wear_records.iter().copied());
        }),
        record_mutant!("of repeated wear records the last counts", |p| {
            p.wear_records = firsts(p.wear_records.iter().rev().copied());
        }),
        record_mutant!("endurance 0 is accepted", |p| {
            p.wear_records.iter_mut().for_each(|record| record.endurance = record.endurance.max(1));
        }),
        record_mutant!("wear records of unknown sub-areas are left out", |p| {
            p.wear_records.retain(|record| usize::from(record.sub_area) < p.sub_areas.len());
        }),
        load_mutant!("question 20 before 8", |plan| {
            let is_8 = plan::load(plan) == Err(8);
            let is_wrong = |records: Plan| !plan::wear_recorded(&records);
            (is_8 && plan::whole_records(plan).is_some_and(is_wrong)).then_some(20)
        }),
    ]
}

/// More of them than there can be sub-areas.
pub fn of_many_wear_records() -> Vec<Mutant> {
    vec![
        record_mutant!("32 wear records are read", |p| p.wear_records.truncate(32)),
        load_mutant!("more than 32 wear records are refused by 2", |plan| {
            let is_long = |records: Plan| records.wear_records.len() > 32;
            (plan::load(plan) == Err(20) && plan::whole_records(plan).is_some_and(is_long))
                .then_some(2)
        }),
        load_mutant!("more than 32 wear records are refused by 1", |plan| {
            let is_long = |records: Plan| records.wear_records.len() > 32;
            plan::whole_records(plan).is_some_and(is_long).then_some(1)
        }),
    ]
}

/// Wear records that question 1 should have refused.
pub fn of_unread_wear_records() -> Vec<Mutant> {
    vec![
        Mutant {
            name: "a cut wear record is left out",
            session: |plan, input, image, store| {
                let cut = (0..7).map(|cut| &plan[..plan.len().saturating_sub(cut)]);
                let whole = cut.into_iter().find(|plan| plan::whole_records(plan).is_some());
                Model.session(whole.unwrap_or(plan), input, image, store)
            },
        },
        Mutant {
            name: "the second byte of a wear mark is not read",
            session: |plan, input, image, store| {
                Model.session(&with_wear_marks(plan), input, image, store)
            },
        },
        Mutant {
            name: "wear records may stand anywhere",
            session: |plan, input, image, store| {
                Model.session(&with_wear_last(plan), input, image, store)
            },
        },
    ]
}

/// The records of a plan in any order, each by the length that the first byte of its mark gives; none if
/// one is not whole.
fn records_of(mut plan: &[u8]) -> Option<Vec<&[u8]>> {
    let mut records = Vec::new();
    while let Some(first) = plan.first() {
        let length = match first {
            0x44 => 12,
            0x41 => 16,
            0x53 => 38,
            0x57 => 7,
            _ => return None,
        };
        let (record, rest) = plan.split_at_checked(length)?;
        records.push(record);
        plan = rest;
    }
    Some(records)
}

/// The plan with the mark of a wear record on every record that begins with its first byte.
fn with_wear_marks(plan: &[u8]) -> Vec<u8> {
    let marked = |record: &[u8]| match record {
        [0x57, _, fields @ ..] => [&WEAR_MARK, fields].concat(),
        _ => record.to_vec(),
    };
    let records = records_of(plan);
    records.map_or(plan.to_vec(), |records| records.into_iter().flat_map(marked).collect())
}

/// The plan with its wear records behind all others.
fn with_wear_last(plan: &[u8]) -> Vec<u8> {
    let Some(mut records) = records_of(plan) else {
        return plan.to_vec();
    };
    records.sort_by_key(|record| record.starts_with(&WEAR_MARK));
    records.concat()
}
