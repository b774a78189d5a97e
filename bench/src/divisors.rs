//! The greatest common divisor in plain Rust, by remainder and by halving, on pairs of a common cycle and a period.

use crate::answer::greatest_divisor;
use crate::clock::{keep, medians, shown, times};
use crate::draw::Draw;
use std::time::Duration;

/// So many that no branch can be foretold from the round before.
const PAIRS: usize = 10_000;
const MOST_CYCLE: u64 = 50_000;
const LONGEST_PERIOD: u64 = 10_000;

type Pair = (u64, u64);

/// As the library does it: the smaller of two odd numbers, and how far they are apart, halved until it is odd.
fn odd_divisor(a: u64, b: u64) -> u64 {
    if a == b {
        return a;
    }
    let apart = a.abs_diff(b);
    odd_divisor(a.min(b), apart >> apart.trailing_zeros())
}

fn by_halving(a: u64, b: u64) -> u64 {
    if a == 0 || b == 0 {
        return a | b;
    }
    let (in_a, in_b) = (a.trailing_zeros(), b.trailing_zeros());
    odd_divisor(a >> in_a, b >> in_b) << in_a.min(in_b)
}

fn line(what: &str, pairs: &[Pair], budget: Duration) {
    for &(cycle, period) in pairs {
        let (one, other) = (greatest_divisor(cycle, period), by_halving(cycle, period));
        assert_eq!(one, other, "of {cycle} and {period}");
    }
    let all = |divisor: fn(u64, u64) -> u64| pairs.iter().for_each(|&(a, b)| keep(divisor(a, b)));
    let mut remainder = || all(greatest_divisor);
    let mut halving = || all(by_halving);
    let found = medians(&mut [&mut remainder, &mut halving], budget);
    println!(
        "| {what} | {} | {} | {} |",
        shown(found[0]),
        shown(found[1]),
        times(found[1] / found[0])
    );
}

pub fn print(budget: Duration) {
    let mut draw = Draw::new(9);
    let any: Vec<Pair> = (0..PAIRS)
        .map(|_| (draw.between(1, MOST_CYCLE), draw.between(1, LONGEST_PERIOD)))
        .collect();
    let mut divides = || {
        let period = draw.between(1, LONGEST_PERIOD);
        (period * draw.between(1, MOST_CYCLE / period), period)
    };
    let whole: Vec<Pair> = (0..PAIRS).map(|_| divides()).collect();
    println!("The greatest common divisor of {PAIRS} pairs of a cycle and a period, plain Rust:");
    println!();
    println!("| pairs | by remainder | by halving | halving / remainder |");
    println!("|---|---|---|---|");
    line("any", &any, budget);
    line("the period divides the cycle", &whole, budget);
    println!();
}
