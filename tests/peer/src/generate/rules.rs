//! Sets whose records are in order and whose graph may break a rule: each change aims at one of them.

use super::damage::small;
use super::tasks::task_of;
use super::Made;
use crate::graph::Choice;
use crate::numbers::Numbers;
use sets::draft::{set_of, Draft, DraftVertex, END, PLAIN, START};

pub fn damaged_graph(numbers: &mut Numbers) -> Made {
    let (mut drafts, call) = small(numbers);
    let at = numbers.index(drafts.len());
    let draft = &mut drafts[at];
    let task = task_of(draft);
    match task.graph.choices.len() {
        0 => change_plain(numbers, draft),
        count => {
            let choice = &task.graph.choices[numbers.index(count)];
            change_choice(numbers, draft, choice);
        }
    }
    if numbers.once_in(4) {
        change_plain(numbers, draft);
    }
    draft.tidy();
    (set_of(&drafts), call)
}

/// Adds an edge if it rises.
fn join(draft: &mut Draft, from: usize, to: usize) {
    if from < to && to < draft.vertices.len() {
        draft.edges.push((from as u32, to as u32));
    }
}

fn members(set: &[bool], wanted: bool) -> Vec<usize> {
    (0..set.len())
        .filter(|vertex| set[*vertex] == wanted)
        .collect()
}

fn change_choice(numbers: &mut Numbers, draft: &mut Draft, choice: &Choice) {
    let arm = numbers.index(2);
    let inside = members(&choice.arms[arm], true);
    let outside = members(&choice.arms[arm], false);
    let beside = members(&choice.arms[1 - arm], true);
    let (member, stranger) = (numbers.pick(&inside), numbers.pick(&outside));
    let n = draft.vertices.len();
    match numbers.below(12) {
        0 => join(draft, choice.start, numbers.index(n)),
        1 => join(draft, numbers.index(n), choice.end),
        2 => join(draft, choice.start, choice.end),
        3 => join(draft, stranger, member),
        4 => join(draft, member, stranger),
        5 => join(draft, member, numbers.pick(&beside)),
        6 => join(draft, member, choice.end),
        7 => past_an_arm(draft, choice, member),
        8 => other_mate(numbers, draft),
        9 => swap_ends(numbers, draft, choice),
        10 => two_closing(draft, choice, member),
        _ => set_pair(draft, choice.start, choice.end, false),
    }
}

/// The start's edge to the arm of `member` goes to the end instead.
fn past_an_arm(draft: &mut Draft, choice: &Choice, member: usize) {
    let arm = if choice.arms[0][member] { 0 } else { 1 };
    let into = |to: u32| choice.arms[arm][to as usize];
    draft
        .edges
        .retain(|edge| !(edge.0 as usize == choice.start && into(edge.1)));
    join(draft, choice.start, choice.end);
}

/// One mate names another vertex, as far as the record table allows.
fn other_mate(numbers: &mut Numbers, draft: &mut Draft) {
    let n = draft.vertices.len() as u64;
    let at = numbers.below(n);
    let vertex = &mut draft.vertices[at as usize];
    match vertex.role {
        START => vertex.mate = numbers.between(at + 1, n - 1) as u16,
        END => vertex.mate = numbers.below(at) as u16,
        _ if at > 0 => (vertex.role, vertex.mate) = (END, numbers.below(at) as u16),
        _ => {}
    }
}

/// Two choices change ends; all mates still agree.
fn swap_ends(numbers: &mut Numbers, draft: &mut Draft, choice: &Choice) {
    let starts = (0..draft.vertices.len()).filter(|v| draft.vertices[*v].role == START);
    let starts: Vec<usize> = starts.collect();
    let other = numbers.pick(&starts);
    let (end, other_end) = (choice.end, usize::from(draft.vertices[other].mate));
    if choice.start < other_end && other < end {
        set_pair(draft, choice.start, other_end, true);
        set_pair(draft, other, end, true);
    }
}

/// An edge out of `member` inside its arm goes to the end instead.
fn two_closing(draft: &mut Draft, choice: &Choice, member: usize) {
    let found = draft
        .edges
        .iter()
        .position(|edge| edge.0 as usize == member);
    if let Some(at) = found {
        draft.edges.remove(at);
    }
    join(draft, member, choice.end);
}

fn set_pair(draft: &mut Draft, start: usize, end: usize, paired: bool) {
    let one = &mut draft.vertices;
    let (first, last) = if paired { (START, END) } else { (PLAIN, PLAIN) };
    let mates = if paired { (end, start) } else { (0, 0) };
    (one[start].role, one[start].mate) = (first, mates.0 as u16);
    (one[end].role, one[end].mate) = (last, mates.1 as u16);
}

/// Changes that need no choice: edges and roles anywhere.
fn change_plain(numbers: &mut Numbers, draft: &mut Draft) {
    let n = draft.vertices.len();
    let (one, other) = (numbers.index(n), numbers.index(n));
    match numbers.below(5) {
        0 => join(draft, one, other),
        1 if !draft.edges.is_empty() => {
            draft.edges.remove(numbers.index(draft.edges.len()));
        }
        2 if !draft.edges.is_empty() => {
            let at = numbers.index(draft.edges.len());
            draft.edges.remove(at);
            join(draft, one, other);
        }
        3 if one < other => set_pair(draft, one, other, true),
        _ => {
            draft.vertices.push(DraftVertex::default());
            join(draft, one, n);
        }
    }
    draft.vertices.truncate(64);
    let n = draft.vertices.len() as u32;
    draft.edges.retain(|edge| edge.1 < n);
}
