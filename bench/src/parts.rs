//! What it costs that a set arrives in parts: an upload from its beginning to its closing, beside one
//! call of judge on the same bytes.

use crate::clock::{keep, median, medians, shown, times};
use crate::linked;
use crate::sets::{Kind, Set};
use std::time::Duration;

const PART: usize = 64;
const SETS: usize = 5;
/// Small sets, typical ones and the longest.
const KINDS: [&str; 3] = [
    "overrun soon, short periods",
    "typical, accepted",
    "largest, half load",
];

/// Seconds of the call on the whole set and of the upload, and the length of the set.
struct Times {
    judge: f64,
    upload: f64,
    bytes: f64,
}

impl Times {
    fn parts(&self) -> f64 {
        (self.bytes / PART as f64).ceil()
    }
}

fn both(set: &Set, budget: Duration) -> Times {
    let Set { bytes, call } = set;
    let mut room = vec![0; bytes.len()];
    let found = linked::upload(bytes, PART, &mut room, *call);
    assert_eq!(found, linked::judge(bytes, *call), "the upload differs");
    let mut at_once = || keep(linked::judge(bytes, *call));
    let mut in_parts = || keep(linked::upload(bytes, PART, &mut room, *call));
    let found = medians(&mut [&mut at_once, &mut in_parts], budget);
    Times {
        judge: found[0],
        upload: found[1],
        bytes: bytes.len() as f64,
    }
}

pub fn print(kinds: &[Kind], budget: Duration) {
    println!("A set in parts of {PART} bytes beside one call of judge: medians.");
    println!();
    println!("| sets | bytes | parts | judge | in parts | more for a part | in parts / judge |");
    println!("|---|---|---|---|---|---|---|");
    for name in KINDS {
        let kind = kinds.iter().find(|kind| kind.name == name);
        let sets = kind.expect("a kind of ours").sets.iter().take(SETS);
        let found: Vec<Times> = sets.map(|set| both(set, budget)).collect();
        let over = |f: fn(&Times) -> f64| median(found.iter().map(f).collect());
        println!(
            "| {name} | {:.0} | {:.0} | {} | {} | {:.1} ns | {} |",
            over(|times| times.bytes),
            over(Times::parts),
            shown(over(|times| times.judge)),
            shown(over(|times| times.upload)),
            over(|times| (times.upload - times.judge) / times.parts()) * 1e9,
            times(over(|times| times.upload / times.judge))
        );
    }
    println!();
}
