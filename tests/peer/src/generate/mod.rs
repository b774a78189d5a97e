//! The inputs: a set and the numbers of a call, each a function of (seed, index).

mod boundary;
mod bulk;
pub mod call;
mod damage;
mod ends;
mod rules;
mod shape;
mod tasks;

use crate::numbers::Numbers;
use call::Call;
use sets::draft::set_of;
use shape::Shape;
use tasks::{set_long_times, Plan};

pub type Made = (Vec<u8>, Call);

pub struct Input {
    /// Its row in `KINDS`.
    pub kind: usize,
    pub set: Vec<u8>,
    pub call: Call,
}

pub struct Kind {
    pub name: &'static str,
    /// How many of ten thousand inputs.
    share: u64,
    make: fn(&mut Numbers) -> Made,
}

pub const KINDS: [Kind; 19] = [
    kind("valid", 2_240, valid),
    kind("valid, nested deep or beside", 350, deep),
    kind("valid, full size", 100, full),
    kind("valid, many tasks", 150, many_tasks),
    kind("valid, long jobs", 200, long_jobs),
    kind("bound met or missed by one", 600, boundary::exact_bound),
    kind("cycle filled to a unit", 300, boundary::full_cycle),
    kind("bound straddled", 350, boundary::straddled_bound),
    kind("density", 600, boundary::density),
    kind("density, no speed named", 400, boundary::default_speed),
    kind("cycle of about 50,000", 150, boundary::long_cycle),
    kind("most ticks", 1, boundary::most_ticks),
    kind("field at an end of its range", 800, ends::field_ends),
    kind("damaged records", 1_100, damage::damaged_records),
    kind("damaged graph", 1_459, rules::damaged_graph),
    kind("truncated", 400, bulk::truncated),
    kind("many tasks", 50, bulk::many_tasks),
    kind("random bytes", 200, bulk::random_bytes),
    kind("random records", 550, bulk::random_records),
];

const fn kind(name: &'static str, share: u64, make: fn(&mut Numbers) -> Made) -> Kind {
    Kind { name, share, make }
}

pub fn input(seed: u64, index: u64) -> Input {
    let mut numbers = Numbers::new(seed, index);
    let mut left = numbers.below(KINDS.iter().map(|kind| kind.share).sum());
    let mut kind = 0;
    while left >= KINDS[kind].share {
        left -= KINDS[kind].share;
        kind += 1;
    }
    let (set, call) = (KINDS[kind].make)(&mut numbers);
    Input { kind, set, call }
}

fn valid(numbers: &mut Numbers) -> Made {
    if numbers.once_in(200) {
        return (Vec::new(), call::random(numbers));
    }
    let (drafts, call) = damage::small(numbers);
    (set_of(&drafts), call)
}

/// One or two tasks of shapes that are drawn for them.
fn of_shapes(
    numbers: &mut Numbers,
    cycles: &[u64],
    draw: impl Fn(&mut Numbers, u64) -> Vec<Shape>,
) -> Made {
    let mut call = call::random(numbers);
    let mut plan = Plan::random(numbers, &call);
    plan.cycle = numbers.pick(cycles);
    plan.tasks = numbers.between(1, 2);
    let shapes = draw(numbers, plan.tasks);
    let drafts: Vec<_> = shapes
        .iter()
        .map(|shape| plan.fitted(numbers, shape))
        .collect();
    call.aim(numbers, &drafts);
    (set_of(&drafts), call)
}

/// Choices nested up to 21 deep, or up to 15 beside each other.
fn deep(numbers: &mut Numbers) -> Made {
    let shape = |numbers: &mut Numbers| match numbers.below(3) {
        0 => Shape::beside(numbers.pick(&[1, 2, 3, 5, 8, 9, 15])),
        1 => Shape::nest(numbers.pick(&[2, 3, 6, 20, 21])),
        _ => Shape::random(numbers, 64, 21, false),
    };
    of_shapes(numbers, &[24, 60, 120], move |numbers, count| {
        (0..count).map(|_| shape(numbers)).collect()
    })
}

/// All 64 vertices, up to 256 edges; two tasks have the same graph.
fn full(numbers: &mut Numbers) -> Made {
    of_shapes(numbers, &[60, 120], |numbers, count| {
        vec![Shape::random(numbers, 64, 6, true); count as usize]
    })
}

/// Up to 32 tasks.
fn many_tasks(numbers: &mut Numbers) -> Made {
    let call = call::random(numbers);
    of_plan(numbers, call, |numbers, plan| {
        plan.tasks = numbers.between(5, 32);
        plan.cycle = numbers.pick(&[24, 60, 120]);
        plan.room = numbers.pick(&[1, 4, 8]);
    })
}

/// Jobs of all times, in cycles that have room for them; often at full speed, where the longest can fit.
fn long_jobs(numbers: &mut Numbers) -> Made {
    let mut call = call::random(numbers);
    if numbers.once_in(2) {
        let speed = numbers.pick(&[(1, 1), (1, 1), (2, 2), (31, 31)]);
        call = Call::fair(numbers, call.m, speed);
    }
    of_plan(numbers, call, |numbers, plan| {
        plan.tasks = numbers.between(1, 4);
        plan.cycle = numbers.pick(&[1_200, 5_000, 10_000, 20_000, 50_000]);
        plan.room = numbers.pick(&[1, 3, 6, 10]);
        plan.times = set_long_times;
    })
}

/// A set after a plan that is drawn for the call, and then changed.
fn of_plan(
    numbers: &mut Numbers,
    mut call: Call,
    change: impl Fn(&mut Numbers, &mut Plan),
) -> Made {
    let mut plan = Plan::random(numbers, &call);
    change(numbers, &mut plan);
    let drafts = plan.drafts(numbers);
    call.task = numbers.index(drafts.len() + 1);
    call.aim(numbers, &drafts);
    (set_of(&drafts), call)
}
