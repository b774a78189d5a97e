//! Random speeds, histories and intervals, drawn so that the work inside comes near to the demand.

use super::{Interval, Release, Spared};
use crate::curve::figures;
use crate::numbers::Numbers;
use crate::records::Task;
use crate::speed::{Speed, LARGEST_Q};

/// Ticks times vertices of a release, beyond which a speed is passed over, so that one task costs no
/// more than moments.
const MOST_STEPS: u64 = 100_000;

/// A task with work at a speed that spares it, if there is one: often the speed that it was made for,
/// where it is the most likely to run up to its deadline.
pub fn spared<'a>(numbers: &mut Numbers, task: &'a Task, made_for: Speed) -> Option<Spared<'a>> {
    let length = figures(task).length;
    let vertices = task.vertices.len() as u64;
    let at = |speed| {
        let spared = Spared::at(task, length, speed);
        spared.filter(|spared| (1..=MOST_STEPS).contains(&(spared.length * vertices)))
    };
    let largest_q = numbers.pick(&[4, LARGEST_Q]);
    let speeds = Speed::all().filter(|speed| speed.q <= largest_q);
    let all: Vec<Spared> = speeds.filter_map(at).collect();
    match at(made_for) {
        Some(spared) if numbers.once_in(2) => Some(spared),
        _ if all.is_empty() => None,
        _ => Some(numbers.pick(&all)),
    }
}

/// Releases that are mostly a period apart, each with any way.
pub fn history(numbers: &mut Numbers, spared: &Spared) -> Vec<Release> {
    let mut tick = numbers.below(spared.period + spared.deadline);
    let mut releases = Vec::new();
    for _ in 0..numbers.between(1, 6) {
        let way = way(numbers, spared.task);
        releases.push(Release { tick, way });
        let later = numbers.below(spared.period);
        tick += spared.period + numbers.pick(&[0, 0, 0, 0, 1, later]);
    }
    releases
}

/// A choice in an arm comes after the one around it, and is passed over if that arm is untaken.
fn way(numbers: &mut Numbers, task: &Task) -> Vec<bool> {
    let mut way = vec![true; task.vertices.len()];
    for choice in &task.graph.choices {
        if way[choice.start] {
            let untaken = &choice.arms[numbers.index(2)];
            (0..way.len()).for_each(|vertex| way[vertex] &= !untaken[vertex]);
        }
    }
    way
}

/// It mostly ends at a deadline, or a tick beside one.
pub fn interval(numbers: &mut Numbers, spared: &Spared, history: &[Release]) -> Interval {
    let due = history[numbers.index(history.len())].tick + spared.deadline;
    let end = match numbers.below(6) {
        0 => due - 1,
        1 => due + 1,
        2 => due + numbers.below(spared.period),
        _ => due,
    };
    let x = ticks(numbers, spared).min(end);
    Interval { a: end - x, x }
}

/// The x of an interval: some whole periods, and often a part in which a release is cut that runs. No
/// period has more than 310,000 ticks, so demand takes four of them.
pub fn ticks(numbers: &mut Numbers, spared: &Spared) -> u64 {
    let any = numbers.below(spared.period);
    let cut = spared.deadline - numbers.between(0, spared.length);
    numbers.below(4) * spared.period + numbers.pick(&[any, cut])
}
