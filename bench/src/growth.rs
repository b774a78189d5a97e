//! How the cost grows with tasks, vertices and the common cycle.

use crate::answer::Call;
use crate::clock::{keep, median, medians, once, shown, times, LONG};
use crate::draft::Draft;
use crate::draw::Draw;
use crate::linked;
use crate::phases::phases;
use crate::sets::{encode, grouped, spread, Group, Plan, Set, FULL};
use crate::swift::Swift;
use std::time::Duration;

const SEEDS: u64 = 3;
const PERIODS: [u64; 4] = [2_000, 1_000, 500, 400];

/// One line: the medians over sets of one size.
fn line(size: String, sets: &[Set], budget: Duration) {
    let mut swift = Swift::new();
    let mut whole = Vec::new();
    for set in sets {
        let Set { bytes, call } = set;
        let first = once(&mut || keep(linked::judge(bytes, *call)));
        let mut fast = || keep(swift.judge(bytes, *call));
        let mut proved = || keep(linked::judge(bytes, *call));
        whole.push(match first > LONG {
            true => vec![first.as_secs_f64(), medians(&mut [&mut fast], budget)[0]],
            false => medians(&mut [&mut proved, &mut fast], budget),
        });
    }
    let reading = median(sets.iter().map(|set| phases(set, budget)[0]).collect());
    let over = |i: usize| median(whole.iter().map(|times| times[i]).collect());
    println!(
        "| {size} | {} | {} | {} | {} |",
        shown(reading),
        shown(over(0)),
        shown(over(1)),
        times(over(0) / over(1))
    );
}

fn head(what: &str) {
    println!("{what}");
    println!();
    println!("| size | proved: reading | proved: all | fast Rust: all | proved / fast |");
    println!("|---|---|---|---|---|");
}

fn seeds(make: impl Fn(&mut Draw) -> Set) -> Vec<Set> {
    (0..SEEDS)
        .map(|seed| make(&mut Draw::new(77 + seed)))
        .collect()
}

fn moderate(draw: &mut Draw, tasks: usize, n: usize) -> Set {
    let call = Call { m: 8, p: 8, q: 15 };
    let plan = Plan {
        tasks,
        n,
        periods: &PERIODS,
        call,
        load: 5 * tasks.min(10) as u64,
        tight: 60,
    };
    spread(draw, plan)
}

/// At the bound: one period, deadlines one behind the other.
fn tight(draw: &mut Draw, tasks: usize, n: usize) -> Set {
    let all = Group {
        period: 2_000,
        volume: 2_000,
        tasks,
    };
    encode(&grouped(draw, n, &[all]), FULL)
}

/// The same graphs over a cycle of 1,000 times `factor`, at the bound.
fn cycle(draw: &mut Draw, factor: u64) -> Set {
    let group = |period, volume, tasks| Group {
        period,
        volume,
        tasks,
    };
    let mut drafts = grouped(draw, 20, &[group(125, 25, 2), group(200, 160, 8)]);
    let longer = |draft: &mut Draft| {
        draft.times.iter_mut().for_each(|time| *time *= factor);
        draft.deadline *= factor;
        draft.period *= factor;
    };
    drafts.iter_mut().for_each(longer);
    encode(&drafts, FULL)
}

pub fn print(budget: Duration) {
    head("Growth with tasks of 20 vertices, half load:");
    for tasks in [1, 2, 4, 8, 16, 32] {
        line(
            format!("{tasks} tasks"),
            &seeds(|d| moderate(d, tasks, 20)),
            budget,
        );
    }
    head("\nGrowth with tasks of 20 vertices, at the bound:");
    for tasks in [4, 8, 16, 32] {
        line(
            format!("{tasks} tasks"),
            &seeds(|d| tight(d, tasks, 20)),
            budget,
        );
    }
    head("\nGrowth with vertices, 10 tasks, half load:");
    for n in [4, 8, 16, 32, 64] {
        line(
            format!("{n} vertices"),
            &seeds(|d| moderate(d, 10, n)),
            budget,
        );
    }
    head("\nGrowth with vertices, 10 tasks, at the bound:");
    for n in [4, 8, 16, 32, 64] {
        line(format!("{n} vertices"), &seeds(|d| tight(d, 10, n)), budget);
    }
    head("\nGrowth with the common cycle, 10 tasks of 20 vertices, at the bound, p = q = 31:");
    for factor in [1, 2, 5, 10, 20, 50] {
        let sets = seeds(|d| cycle(d, factor));
        line(format!("H = {}", 1_000 * factor), &sets, budget);
    }
    println!();
}
