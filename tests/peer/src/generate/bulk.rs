//! Sets cut short, sets that are too long or too many, and random bytes and records.

use super::call;
use super::damage::{plausible, small};
use super::shape::Shape;
use super::tasks::set_times;
use super::Made;
use crate::numbers::Numbers;
use sets::draft::{bytes_of, set_of, Draft, END, START};
use sets::record::{Record, RECORD, TASK};

pub fn truncated(numbers: &mut Numbers) -> Made {
    let (drafts, call) = small(numbers);
    let mut set = set_of(&drafts);
    let mut keep = numbers.index(set.len());
    if numbers.once_in(2) {
        keep -= keep % RECORD;
    }
    set.truncate(keep);
    (set, call)
}

/// 11 to 14 or 30 to 40 tasks of any size, about where tables may have no more room, with something behind them.
pub fn many_tasks(numbers: &mut Numbers) -> Made {
    let call = call::random(numbers);
    let count = numbers.pick(&[11, 12, 13, 14, 30, 31, 32, 32, 32, 33, 40]);
    let room = numbers.pick(&[1, 1, 2, 4, 8, 64]);
    let mut set = Vec::new();
    for _ in 0..count {
        let mut draft = Shape::random(numbers, room, 4, true).draft(numbers, 8);
        set_times(numbers, &mut draft);
        (draft.deadline, draft.period) = (600, 600);
        set.extend(set_of(&[draft]));
    }
    tail(numbers, &mut set);
    (set, call)
}

fn tail(numbers: &mut Numbers, set: &mut Vec<u8>) {
    match numbers.below(6) {
        0 => {}
        1 => set.extend((0..numbers.between(1, 31)).map(|_| 1)),
        2 => set.extend(bytes_of(&[plausible(numbers)])),
        3 => set.extend(bytes_of(&[Record {
            kind: TASK,
            e: numbers.pick(&[0, u32::MAX]),
            ..Record::default()
        }])),
        4 => set.resize(numbers.between(100_000, 200_000) as usize, 0),
        _ => {
            let more = numbers.index(12_000);
            set.extend(bytes_of(&vec![Draft::job(1, 600, 600).records()[0]; more]));
        }
    }
}

pub fn random_bytes(numbers: &mut Numbers) -> Made {
    let mut len = numbers.index(300);
    if !numbers.once_in(3) {
        len -= len % RECORD;
    }
    let most = numbers.pick(&[1, 2, 3, 255]);
    let set = (0..len).map(|_| numbers.between(0, most) as u8).collect();
    (set, call::random(numbers))
}

/// Records of which many are good, in an order that is sometimes good.
pub fn random_records(numbers: &mut Numbers) -> Made {
    let call = call::random(numbers);
    let mut records = Vec::new();
    for _ in 0..numbers.between(1, 3) {
        match numbers.below(6) {
            0 => records.push(plausible(numbers)),
            _ => records.extend(scribble(numbers).records()),
        }
    }
    (bytes_of(&records), call)
}

/// A small task with any roles and any rising edges: most are no graph, some are one by chance.
fn scribble(numbers: &mut Numbers) -> Draft {
    let n = numbers.between(1, 9);
    let mut draft = Draft::chain(n as u32, 0, 30, 60);
    set_times(numbers, &mut draft);
    for _ in 0..numbers.below(3) {
        let (start, end) = (numbers.index(n as usize), numbers.index(n as usize));
        if start < end && !numbers.once_in(12) {
            let one = &mut draft.vertices;
            (one[start].role, one[start].mate) = (START, end as u16);
            (one[end].role, one[end].mate) = (END, start as u16);
        }
    }
    draft.edges.retain(|_| numbers.once_in(2));
    for to in 1..n {
        let edges = numbers.pick(&[1, 1, 1, 1, 2]);
        draft
            .edges
            .extend((0..edges).map(|_| (numbers.below(to) as u32, to as u32)));
    }
    for from in 0..n - 1 {
        if !draft.edges.iter().any(|edge| u64::from(edge.0) == from) {
            draft
                .edges
                .push((from as u32, numbers.between(from + 1, n - 1) as u32));
        }
    }
    draft.tidy();
    draft
}
