//! One field at an end of its range or one beyond, all else in order.

use super::call::{self, Call};
use super::tasks::Plan;
use super::Made;
use crate::numbers::Numbers;
use sets::draft::{bytes_of, records_of, set_of, Draft};
use sets::record::{Record, EDGE, TASK, VERTEX};

/// About the longest job, and where it was before request 2.
const VERTEX_ENDS: [u32; 9] = [
    0,
    999,
    1_000,
    1_001,
    9_999,
    10_000,
    10_001,
    65_536,
    u32::MAX,
];

pub fn field_ends(numbers: &mut Numbers) -> Made {
    let mut call = call::random(numbers);
    let mut drafts = Plan::random(numbers, &call).drafts(numbers);
    let at = numbers.index(drafts.len() + 1);
    match numbers.below(12) {
        0 => drafts.insert(at, Draft::chain(numbers.pick(&[64, 65, 63]), 1, 100, 120)),
        1 => drafts.insert(at, mesh(numbers)),
        2 => drafts = many(numbers),
        _ => return one_field(numbers, call, &drafts),
    }
    call.aim(numbers, &drafts);
    (set_of(&drafts), call)
}

/// Forward edges between plain vertices: 255, 256 or 257 of them.
fn mesh(numbers: &mut Numbers) -> Draft {
    let n = numbers.between(24, 64) as u32;
    let count = numbers.pick(&[255, 256, 256, 257]);
    let mut draft = Draft::chain(n, 1, 100, 120);
    while draft.edges.len() < count {
        let to = numbers.between(1, u64::from(n) - 1);
        let edge = (numbers.below(to) as u32, to as u32);
        if !draft.edges.contains(&edge) {
            draft.edges.push(edge);
        }
    }
    draft.tidy();
    draft
}

/// 31 to 34 tasks.
fn many(numbers: &mut Numbers) -> Vec<Draft> {
    let count = numbers.pick(&[31, 32, 33, 34]);
    let one = |numbers: &mut Numbers| {
        let period = numbers.pick(&[40, 60, 120]);
        Draft::job(numbers.below(4) as u32, period, period)
    };
    (0..count).map(|_| one(numbers)).collect()
}

fn one_field(numbers: &mut Numbers, call: Call, drafts: &[Draft]) -> Made {
    let mut records = records_of(drafts);
    let at = numbers.index(records.len());
    match records[at].kind {
        TASK => task_end(numbers, &mut records[at]),
        VERTEX => records[at].c = numbers.pick(&VERTEX_ENDS),
        EDGE if numbers.once_in(2) => records[at].c = records[at].d,
        _ => records[at].d = numbers.pick(&[0, 1, 63, 64, 65, u32::MAX]),
    }
    if numbers.once_in(6) {
        unused_field(numbers, &mut records[at]);
    }
    (bytes_of(&records), call)
}

fn task_end(numbers: &mut Numbers, task: &mut Record) {
    match numbers.below(5) {
        0 => task.a = numbers.pick(&[0, 1, 40, 41, 255]),
        1 => task.c = numbers.pick(&[0, 1, task.d, task.d + 1, u32::MAX]),
        2 => task.d = numbers.pick(&[0, 9_999, 10_000, 10_001, 65_536, u32::MAX]),
        3 => task.b = numbers.pick(&[0, 1, 64, 65, 256, u16::MAX]),
        _ => task.e = numbers.pick(&[0, 256, 257, 65_536, u32::MAX]),
    }
}

/// A field that must be 0, in the lowest or the highest of its bits.
fn unused_field(numbers: &mut Numbers, record: &mut Record) {
    match record.kind {
        VERTEX if numbers.once_in(2) => record.d = numbers.pick(&[1, 1 << 31]),
        VERTEX => record.e = numbers.pick(&[1, 1 << 31]),
        EDGE if numbers.once_in(2) => record.a = numbers.pick(&[1, 128]),
        EDGE if numbers.once_in(2) => record.b = numbers.pick(&[1, 1 << 15]),
        EDGE => record.e = numbers.pick(&[1, 1 << 31]),
        _ => {}
    }
}
