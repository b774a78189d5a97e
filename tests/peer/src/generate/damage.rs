//! Valid sets with a fault or a few: in bytes, fields and records, without regard to what they mean.

use super::call;
use super::tasks::Plan;
use super::Made;
use crate::numbers::Numbers;
use sets::draft::{bytes_of, records_of, Draft};
use sets::record::{Record, EDGE, TASK, VERTEX};

/// A few small tasks and a call that suits them.
pub fn small(numbers: &mut Numbers) -> (Vec<Draft>, call::Call) {
    let mut call = call::random(numbers);
    let drafts = Plan::random(numbers, &call).drafts(numbers);
    call.aim(numbers, &drafts);
    (drafts, call)
}

pub fn damaged_records(numbers: &mut Numbers) -> Made {
    let (drafts, call) = small(numbers);
    let mut records = records_of(&drafts);
    for _ in 0..numbers.pick(&[1, 1, 1, 2, 4]) {
        damage(numbers, &mut records);
    }
    let mut set = bytes_of(&records);
    if numbers.once_in(4) && !set.is_empty() {
        let at = numbers.index(set.len());
        set[at] = match numbers.below(3) {
            0 => numbers.word() as u8,
            1 => set[at] ^ (1 << numbers.below(8)),
            _ => set[at].wrapping_add(numbers.pick(&[1, 255])),
        };
    }
    (set, call)
}

fn damage(numbers: &mut Numbers, records: &mut Vec<Record>) {
    if records.is_empty() {
        return;
    }
    let (at, other) = (numbers.index(records.len()), numbers.index(records.len()));
    match numbers.below(9) {
        0 => records.swap(at, other),
        1 => records.insert(other, records[at]),
        2 => records.insert(at, records[at]),
        3 => drop(records.remove(at)),
        4 => records.insert(at, plausible(numbers)),
        5 if at > 0 => records.swap(at - 1, at),
        _ => change_field(numbers, &mut records[at]),
    }
}

fn change_field(numbers: &mut Numbers, record: &mut Record) {
    let small = numbers.below(12);
    match numbers.below(8) {
        0 => record.kind = numbers.below(5) as u8,
        1 => record.a = small as u8,
        2 => record.b = small as u16,
        3 => record.c = small as u32,
        4 => record.d = small as u32,
        5 => record.e = small as u32,
        6 => record.b = record.b.wrapping_add(numbers.pick(&[1, u16::MAX, 256])),
        _ => record.c = record.c.wrapping_add(numbers.pick(&[1, u32::MAX, 1 << 16])),
    }
}

/// A record that could stand somewhere in a set.
pub fn plausible(numbers: &mut Numbers) -> Record {
    let small = |numbers: &mut Numbers, most: u64| numbers.between(0, most) as u32;
    match numbers.below(8) {
        0 | 1 => Record {
            kind: TASK,
            a: numbers.between(1, 40) as u8,
            b: numbers.between(1, 4) as u16,
            c: numbers.between(1, 4) as u32,
            d: numbers.between(4, 20) as u32,
            e: small(numbers, 4),
        },
        2..=4 => Record {
            kind: VERTEX,
            a: numbers.pick(&[0, 0, 0, 1, 2]),
            b: numbers.pick(&[0, 0, 0, 1, 2, 3]),
            c: small(numbers, 5),
            ..Record::default()
        },
        5 | 6 => Record {
            kind: EDGE,
            c: small(numbers, 2),
            d: numbers.between(1, 4) as u32,
            ..Record::default()
        },
        _ => Record {
            kind: numbers.word() as u8,
            ..Record::default()
        },
    }
}
