//! The summary of a run without disagreement.

use crate::arguments::{Arguments, DEFAULT_HISTORIES, DEFAULT_INPUTS, DEFAULT_UPLOADS};
use crate::compare::Tally;
use crate::finer::Grids;
use crate::generate::KINDS;
use crate::history::Histories;
use crate::realization::simulated;
use crate::upload::{Uploads, AROUND, CHANGES, CUTS, PARTS};
use std::fmt::Display;

const ENTRIES: [&str; 5] = ["judge", "at 0/0", "figures", "demand", "layers"];

/// The numbers that an entry can give.
const APPLY: [&[usize]; 5] = [
    &[0, 1, 2, 3, 4, 5, 7, 8, 9],
    &[0, 1, 2, 3, 4, 5, 7, 8, 9],
    &[0, 2, 3, 4, 5, 6],
    &[0, 1, 2, 3, 4, 5, 6, 8],
    &[0, 1, 2, 3, 4, 5, 6, 10],
];

pub fn print(arguments: &Arguments, tally: &Tally, [examples, copies, edges]: [usize; 3]) {
    let inputs: u64 = tally.kinds.iter().sum();
    println!(
        "seed {}: {inputs} inputs of the library, by kind",
        arguments.seed
    );
    for (kind, count) in KINDS.iter().zip(tally.kinds) {
        println!("  {:<30}{count:>8}", kind.name);
    }
    println!("answers by number");
    let heads: Vec<String> = (0..=10).map(|number| format!("{number:>8}")).collect();
    println!("  {:<8}{}", "", heads.concat());
    for (entry, counts) in ENTRIES.iter().zip(&tally.answers) {
        let counts: Vec<String> = counts.iter().map(|count| format!("{count:>8}")).collect();
        println!("  {entry:<8}{}", counts.concat());
    }
    println!("calls compared: {}", 4 * inputs);
    let [rack, task, above] = tally.stood;
    println!("0/0 as m/(2m-1): {rack}, a task's length/deadline: {task}, the next above: {above}");
    println!("accepted with the bound met exactly: {}", tally.met);
    println!(
        "overrun by one: {}, beyond the longest period: {}",
        tally.by_one, tally.late
    );
    println!("words of lent memory compared: {}", tally.words);
    println!("realizations simulated: {}", simulated());
    println!("inputs of both programs: {}", arguments.program_inputs);
    println!("cases at the programs' edge: {edges}");
    let [readable, others] = tally.said;
    println!("sets to words and back: {readable} readable, {others} others");
    println!("examples: {examples}");
    println!("copies of examples compared: {copies}");
}

pub fn print_histories(histories: &Histories, grids: &Grids) {
    println!(
        "random histories: {} on {} tasks, {} reach the demand, none exceeds it",
        histories.random, histories.tasks, histories.reached
    );
    println!(
        "the largest of all histories is the demand: {} intervals on {} small tasks",
        histories.largest, histories.small_tasks
    );
    println!(
        "the history of the theorem reaches the demand: {} intervals on {} other tasks",
        histories.theorem, histories.other_tasks
    );
    let [accepted, .., long, dense, overrun] = grids.numbers;
    println!(
        "same number on a finer grid: 0 for {accepted} sets, 7 for {long}, 8 for {dense}, 9 for {overrun} \
         ({} first between our ticks)",
        grids.between
    );
}

pub fn print_uploads(uploads: &Uploads) {
    let all = |counts: &[u64]| counts.iter().sum::<u64>();
    println!(
        "uploads: {} begun, {} parts, {} closings",
        uploads.begun,
        all(&uploads.parts),
        all(&uploads.closings)
    );
    let numbers: Vec<String> = (0..uploads.closings.len())
        .map(|number| number.to_string())
        .collect();
    let least = uploads.rooms.iter().min().expect("there are lengths");
    println!("  a part {}", counted(&PARTS, &uploads.parts));
    println!("  a part ended {}", counted(&CUTS, &uploads.cuts));
    println!(
        "  closings by number: {}",
        counted(&numbers, &uploads.closings)
    );
    println!("  closings with a room of each length up to {AROUND} bytes off: {least} or more");
    println!("  a caller changed {}", counted(&CHANGES, &uploads.changes));
    println!("  bytes of lent memory compared: {}", uploads.bytes);
}

/// Each name with how often it came.
fn counted(names: &[impl Display], counts: &[u64]) -> String {
    let came = names.iter().zip(counts).filter(|(_, count)| **count > 0);
    let texts: Vec<String> = came
        .map(|(name, count)| format!("{name}: {count}"))
        .collect();
    texts.join(", ")
}

/// A number that an entry never gave, in a run long enough to see them all.
pub fn missing(arguments: &Arguments, tally: &Tally) -> Option<String> {
    if arguments.inputs < DEFAULT_INPUTS {
        return None;
    }
    for (entry, numbers) in APPLY.iter().enumerate() {
        let never = numbers
            .iter()
            .find(|number| tally.answers[entry][**number] == 0);
        if let Some(number) = never {
            return Some(format!("{} never gave {number}", ENTRIES[entry]));
        }
    }
    None
}

/// What no history and no grid came to, in a run long enough for all of it.
pub fn untried(arguments: &Arguments, histories: &Histories, grids: &Grids) -> Option<String> {
    if arguments.histories < DEFAULT_HISTORIES {
        return None;
    }
    let [accepted, .., dense, overrun] = grids.numbers;
    let came = [
        ("random history reached the demand", histories.reached),
        ("task was small", histories.small_tasks),
        ("task was other than small", histories.other_tasks),
        ("set was accepted on a finer grid", accepted),
        ("set was dense on a finer grid", dense),
        ("set overran on a finer grid", overrun),
    ];
    let never = came.iter().find(|(_, count)| *count == 0);
    never.map(|(what, _)| format!("no {what}"))
}

/// What no upload came to, in a run long enough for all of it.
pub fn not_uploaded(arguments: &Arguments, uploads: &Uploads) -> Option<String> {
    let whole = arguments.uploads >= DEFAULT_UPLOADS;
    whole.then(|| uploads.missing()).flatten()
}
