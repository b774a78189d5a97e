//! Where the time goes: reading, tables, judging.

use crate::clock::{keep, median, medians, shown};
use crate::draft::put_c;
use crate::judges::Row;
use crate::linked;
use crate::read::Reader;
use crate::sets::{Kind, Set};
use crate::swift::Swift;
use std::time::Duration;

const NO_TASK: usize = 99;
const SETS: usize = 5;

/// The set with deadline 1 in its last task, which makes that one dense: the judge finds it once all
/// tables are there, before any tick is judged.
pub fn dense(set: &Set) -> Vec<u8> {
    let (mut bytes, mut reader) = (set.bytes.clone(), Reader::new());
    reader.read(&bytes).expect("a set of ours can be read");
    let last = reader.tasks().last().expect("no set is empty").place;
    put_c(&mut bytes, last, 1);
    bytes
}

/// Seconds of the proved library for reading and for reading with tables, and of fast reading.
pub fn phases(set: &Set, budget: Duration) -> [f64; 3] {
    let (bytes, last_dense) = (&set.bytes, dense(set));
    assert_eq!(linked::figures(bytes, NO_TASK)[0], 6, "the set is read");
    let number = linked::judge(&last_dense, set.call).number;
    assert_eq!(number, 8, "the last task is dense");
    let mut swift = Swift::new();
    let mut reading = || keep(linked::figures(bytes, NO_TASK));
    let mut tables = || keep(linked::judge(&last_dense, set.call));
    let mut fast = || keep(swift.read(bytes));
    let found = medians(&mut [&mut reading, &mut tables, &mut fast], budget);
    [found[0], found[1], found[2]]
}

pub fn print(rows: &[(&Kind, Row)], budget: Duration) {
    println!("Where the time goes: medians; tables and judging are differences.");
    println!();
    println!("| sets | proved: reading | tables | judging | fast Rust: reading | the rest |");
    println!("|---|---|---|---|---|---|");
    for (kind, row) in rows {
        let sets = kind.sets.iter().take(SETS);
        let found: Vec<[f64; 3]> = sets.map(|set| phases(set, budget)).collect();
        let over = |i: usize| median(found.iter().map(|times| times[i]).collect());
        let (reading, tables, fast) = (over(0), over(1), over(2));
        println!(
            "| {} | {} | {} | {} | {} | {} |",
            kind.name,
            shown(reading),
            shown((tables - reading).max(0.0)),
            shown((row.proved - tables).max(0.0)),
            shown(fast),
            shown((row.swift - fast).max(0.0))
        );
    }
    println!();
}
