//! An independent implementation of document 01, compared with the built library and programs.

#![deny(unsafe_code)]

mod arguments;
#[cfg(not(target_arch = "x86_64"))]
mod bridged;
mod compare;
mod copies;
mod curve;
mod edge;
mod entries;
mod finer;
mod generate;
mod graph;
mod history;
mod latest;
mod lent;
mod library;
#[cfg(target_arch = "x86_64")]
mod linked;
mod listing;
mod machine;
mod numbers;
mod program;
mod realization;
mod records;
mod run;
mod speed;
mod summary;
mod upload;
mod verdict;
mod words;

use arguments::Arguments;
use compare::Tally;
use finer::Grids;
use history::Histories;
use program::PROGRAMS;
use std::path::{Path, PathBuf};
use std::process::ExitCode;
use upload::Uploads;

fn main() -> ExitCode {
    let result = Arguments::parse(std::env::args().skip(1));
    match result.and_then(|arguments| guarded(&arguments)) {
        Ok(()) => ExitCode::SUCCESS,
        Err(report) => {
            println!("{}", report.trim_end());
            ExitCode::FAILURE
        }
    }
}

/// A check of the peer on itself that fails outside an input, as in an example, fails the run as well.
fn guarded(arguments: &Arguments) -> Result<(), String> {
    let run = std::panic::catch_unwind(|| compare_all(arguments));
    run.unwrap_or_else(|_| Err("the peer failed its own check, see above".to_string()))
}

/// The root of the repository.
fn root() -> PathBuf {
    Path::new(env!("CARGO_MANIFEST_DIR")).join("../..")
}

fn compare_all(arguments: &Arguments) -> Result<(), String> {
    if let Some(index) = arguments.only {
        return replay(arguments.seed, index);
    }
    if let Some(index) = arguments.only_program {
        return replay_program(arguments.seed, index);
    }
    let examples = listing::check_folder(&root().join("examples"))?;
    listing::check_faults()?;
    let copies = copies::check(&root())?;
    history::check_x(&root().join("examples"))?;
    let mut edges = 0;
    for program in PROGRAMS {
        edges += edge::check(program)?;
    }
    let tally = run::library(arguments.seed, arguments.inputs)?;
    let histories = run::histories(arguments.seed, arguments.histories)?;
    let grids = run::grids(arguments.seed, arguments.histories)?;
    let uploads = run::uploads(arguments.seed, arguments.uploads)?;
    run::programs(arguments.seed, arguments.program_inputs)?;
    summary::print(arguments, &tally, [examples, copies, edges]);
    summary::print_histories(&histories, &grids);
    summary::print_uploads(&uploads);
    let untried = || summary::untried(arguments, &histories, &grids);
    let not_uploaded = || summary::not_uploaded(arguments, &uploads);
    let missing = summary::missing(arguments, &tally);
    match missing.or_else(untried).or_else(not_uploaded) {
        Some(missing) => Err(missing),
        None => {
            println!("no disagreement");
            Ok(())
        }
    }
}

/// One input of the programs again.
fn replay_program(seed: u64, index: u64) -> Result<(), String> {
    for program in PROGRAMS {
        let (name, line) = (program.name(), run::one_program(program, seed, index)?);
        println!("seed {seed}, program input {index}: peer and {name} print {line:?}");
    }
    Ok(())
}

/// One input again, with what it is.
fn replay(seed: u64, index: u64) -> Result<(), String> {
    run::one(seed, index, &mut Tally::default())?;
    run::one_task(seed, index, &mut Histories::default())?;
    run::one_grid(seed, index, &mut Grids::default())?;
    run::one_upload(seed, index, &mut Uploads::default())?;
    let input = generate::input(seed, index);
    let kind = generate::KINDS[input.kind].name;
    println!("seed {seed}, index {index}, kind {kind}: no disagreement");
    println!("{:?}", input.call);
    print!("{}", compare::hex(&input.set));
    Ok(())
}
