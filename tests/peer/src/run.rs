//! Runs of many inputs, and the report of the first disagreement.

use crate::compare::{check, hex, Disagreement, Tally};
use crate::finer::{self, Grids};
use crate::generate::{input, Input, KINDS};
use crate::history::{self, Histories};
use crate::program::{self, Program, PROGRAMS};
use crate::upload::{self, Uploads};
use std::panic::{catch_unwind, AssertUnwindSafe};
use std::sync::atomic::{AtomicU64, Ordering};

const THREADS: u64 = 2;

/// What a thread counts; it adds up to what the run counts.
pub trait Counts: Default + Send {
    fn add(&mut self, other: &Self);
}

/// One input through all entries.
pub fn one(seed: u64, index: u64, tally: &mut Tally) -> Result<(), String> {
    checked(seed, index, |input| check(input, tally))
}

/// Histories of a task of one input.
pub fn one_task(seed: u64, index: u64, histories: &mut Histories) -> Result<(), String> {
    checked(seed, index, |input| {
        history::check(input, (seed, index), histories)
    })
}

/// The set of one input on a finer grid.
pub fn one_grid(seed: u64, index: u64, grids: &mut Grids) -> Result<(), String> {
    checked(seed, index, |input| {
        finer::check(input, (seed, index), grids)
    })
}

/// Uploads of the set of one input.
pub fn one_upload(seed: u64, index: u64, uploads: &mut Uploads) -> Result<(), String> {
    checked(seed, index, |input| {
        upload::check(input, (seed, index), uploads)
    })
}

/// A failed check of this package on itself is reported like a disagreement.
fn checked(
    seed: u64,
    index: u64,
    check: impl FnOnce(&Input) -> Result<(), Disagreement>,
) -> Result<(), String> {
    let made = catch_unwind(|| input(seed, index));
    let Ok(input) = made else {
        return Err(format!(
            "seed {seed}, index {index}: the peer failed to make the input\n"
        ));
    };
    let checked = catch_unwind(AssertUnwindSafe(|| check(&input)));
    let found = match checked {
        Ok(Ok(())) => return Ok(()),
        Ok(Err(found)) => found,
        Err(_) => Disagreement {
            entry: "the peer itself".to_string(),
            call: format!("{:?}", input.call),
            peer: "failed its own check, see above".to_string(),
            library: "not asked".to_string(),
        },
    };
    let kind = KINDS[input.kind].name;
    let head = format!("seed {seed}, index {index}, kind {kind}");
    Err(report(&head, &found, &input.set))
}

fn report(head: &str, found: &Disagreement, set: &[u8]) -> String {
    let Disagreement {
        entry,
        call,
        peer,
        library,
    } = found;
    format!(
        "disagreement: {head}\n{entry}: {call}\npeer:    {peer}\nlibrary: {library}\n{} bytes:\n{}",
        set.len(),
        hex(set)
    )
}

type Found = Option<(u64, String)>;

/// The inputs 0 to `inputs` - 1, each checked by `one`, shared out among the threads; of the
/// disagreements, the one with the smallest index.
fn shared<T: Counts>(
    inputs: u64,
    one: impl Fn(u64, &mut T) -> Result<(), String> + Sync,
) -> Result<T, String> {
    let first = AtomicU64::new(u64::MAX);
    let results: Vec<(T, Found)> = std::thread::scope(|scope| {
        let (first, one) = (&first, &one);
        let threads: Vec<_> = (0..THREADS)
            .map(|thread| scope.spawn(move || share(thread, inputs, first, one)))
            .collect();
        let joined = threads.into_iter().map(|thread| thread.join());
        joined
            .map(|result| result.expect("a thread came to an end"))
            .collect()
    });
    let mut all = T::default();
    results.iter().for_each(|(counts, _)| all.add(counts));
    let found = results.into_iter().filter_map(|(_, found)| found);
    match found.min_by_key(|(index, _)| *index) {
        Some((_, report)) => Err(report),
        None => Ok(all),
    }
}

/// The inputs of one thread, up to a disagreement of any thread.
fn share<T: Counts>(
    thread: u64,
    inputs: u64,
    first: &AtomicU64,
    one: impl Fn(u64, &mut T) -> Result<(), String>,
) -> (T, Found) {
    let mut counts = T::default();
    for index in (thread..inputs).step_by(THREADS as usize) {
        if index > first.load(Ordering::Relaxed) {
            break;
        }
        if let Err(report) = one(index, &mut counts) {
            first.fetch_min(index, Ordering::Relaxed);
            return (counts, Some((index, report)));
        }
    }
    (counts, None)
}

pub fn library(seed: u64, inputs: u64) -> Result<Tally, String> {
    shared(inputs, |index, tally| one(seed, index, tally))
}

pub fn histories(seed: u64, inputs: u64) -> Result<Histories, String> {
    shared(inputs, |index, histories| one_task(seed, index, histories))
}

pub fn grids(seed: u64, inputs: u64) -> Result<Grids, String> {
    shared(inputs, |index, grids| one_grid(seed, index, grids))
}

/// Every cut of the short sets, and then the sets of the inputs.
pub fn uploads(seed: u64, inputs: u64) -> Result<Uploads, String> {
    let cases = upload::all_cuts();
    let mut uploads: Uploads = shared(cases.len() as u64, |index, uploads| {
        let case = &cases[index as usize];
        let found = upload::check_cut(case, uploads);
        found.map_err(|found| report(&format!("cut {index}"), &found, &case.set))
    })?;
    let others = shared(inputs, |index, uploads| one_upload(seed, index, uploads))?;
    uploads.add(&others);
    Ok(uploads)
}

/// One input of a program.
pub fn one_program(program: Program, seed: u64, index: u64) -> Result<String, String> {
    let (name, feed) = (program.name(), program::feed(seed, index));
    let peer = program.line(&feed.bytes);
    let shown = program.printed(&feed);
    let shown = shown.map_err(|error| format!("{name}: {error}\n"))?;
    if peer == shown {
        return Ok(shown);
    }
    let numbers = &feed.bytes[..feed.bytes.len().min(3)];
    let set = &feed.bytes[numbers.len()..];
    Err(format!(
        "disagreement: seed {seed}, program input {index}\nm, p, q: {numbers:?}\npeer: {peer:?}\n{name}: {shown:?}\nset of {} bytes:\n{}",
        set.len(),
        hex(set)
    ))
}

/// The inputs of the programs, each to both of them.
pub fn programs(seed: u64, inputs: u64) -> Result<(), String> {
    shared(inputs, |index, _: &mut Tally| {
        let mut all = PROGRAMS.iter();
        all.try_for_each(|program| one_program(*program, seed, index).map(drop))
    })
    .map(drop)
}
