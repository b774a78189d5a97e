//! How long the proved judge takes, beside a tick-by-tick judge and a fast one in plain Rust.

#![deny(unsafe_code)]

mod answer;
mod arms;
mod clock;
mod curve;
mod default;
mod divisors;
mod draft;
mod draw;
mod growth;
mod judges;
mod layers;
mod linked;
mod parts;
mod phases;
mod read;
mod sets;
mod shape;
mod speed;
mod stack;
mod swift;
mod ticks;

use judges::Effort;
use std::process::ExitCode;
use std::time::Duration;

const WHOLE: Effort = Effort {
    budget: Duration::from_millis(60),
    patience: Duration::from_secs(30),
    large_by_ticks: 2,
};
const QUICK: Effort = Effort {
    budget: Duration::from_millis(15),
    patience: Duration::from_secs(2),
    large_by_ticks: 0,
};

fn main() -> ExitCode {
    let words: Vec<String> = std::env::args().skip(1).collect();
    let quick = words == ["--quick"];
    if !quick && !words.is_empty() {
        eprintln!("--quick is the only argument");
        return ExitCode::FAILURE;
    }
    let effort = if quick { QUICK } else { WHOLE };
    let kinds = sets::kinds();
    // First, while no thread has left a used stack behind.
    stack::print(&kinds, quick);
    judges::head();
    let mut rows = Vec::new();
    for kind in &kinds {
        let row = judges::row(kind, effort);
        judges::line(kind, &row);
        rows.push((kind, row));
    }
    println!();
    phases::print(&rows, effort.budget);
    default::print(&kinds, effort.budget);
    parts::print(&kinds, effort.budget);
    growth::print(effort.budget);
    layers::print(effort.budget);
    divisors::print(effort.budget);
    ExitCode::SUCCESS
}
