//! The copies: what a proof or a program holds of an example as bytes must be what the listing makes.

use crate::listing::read_listing;
use crate::words::first_difference;
use sets::listing::{Listing, Question};
use sets::record::RECORD;
use std::fs;
use std::path::Path;

/// A source that holds sets, each a paragraph of its own, and no other definition.
struct Source {
    path: &'static str,
    /// What stands in front of the two digits of a byte.
    mark: &'static str,
    /// The examples that must be there; others may be.
    holds: &'static [&'static [&'static str]],
}

/// The sets of document 01 that have starred cases, and those that have none but are not empty.
const STARRED: [&str; 6] = [
    "x",
    "y",
    "one-job",
    "one-job-dense",
    "two-jobs-deadline-1",
    "two-jobs-deadline-2",
];
const UNSTARRED: [&str; 2] = ["periods-10000-6250", "periods-10000-9999"];

const SOURCES: [Source; 2] = [
    Source {
        path: "crates/model/proofs/Sets.antt",
        mark: "0x",
        holds: &[&STARRED],
    },
    Source {
        path: "crates/cases/src/sets.rt",
        mark: "\\x",
        holds: &[&STARRED, &UNSTARRED],
    },
];

/// What the gate runs each program on, and what it must print.
const RUNS: [[&str; 2]; 2] = [
    ["crates/racktest/stdin", "crates/racktest/stdout"],
    ["crates/rackparts/stdin", "crates/rackparts/stdout"],
];

/// The manual, whose worked example is this one.
const MANUAL: &str = "docs/REFERENCE.md";
const WORKED: &str = "shade";

/// Compares every copy with its listing; how many there are, or what is wrong.
pub fn check(root: &Path) -> Result<usize, String> {
    let mut copies = 0;
    for source in &SOURCES {
        copies += check_source(root, source)?;
    }
    for run in RUNS {
        check_run(root, run)?;
    }
    check_manual(root)?;
    Ok(copies + RUNS.len() + 2)
}

fn check_source(root: &Path, source: &Source) -> Result<usize, String> {
    let bytes = read(root, source.path)?;
    let text = String::from_utf8(bytes).map_err(|error| format!("{}: {error}", source.path))?;
    let mut seen = Vec::new();
    for (name, body) in definitions(&text) {
        let place = format!("{}, {name}", source.path);
        let set = bytes_of(body, source.mark).ok_or(format!("{place}: no list of bytes"))?;
        let example = example_of(name);
        let listing = listing(root, &example).map_err(|error| format!("{place}: {error}"))?;
        compare(&place, &set, &example, &listing.set())?;
        seen.push(example);
    }
    let missing = |example: &&str| !seen.iter().any(|name| name == example);
    match source.holds.concat().into_iter().find(missing) {
        Some(example) => Err(format!("{}: no copy of example {example}", source.path)),
        None => Ok(seen.len()),
    }
}

/// A program's own run: m, p, q and the set of X, and for its answer a line of the listing.
fn check_run(root: &Path, [stdin, stdout]: [&str; 2]) -> Result<(), String> {
    let (input, output) = (read(root, stdin)?, read(root, stdout)?);
    let [m, p, q, set @ ..] = input.as_slice() else {
        return Err(format!("{stdin}: fewer than three bytes"));
    };
    let listing = listing(root, "x")?;
    compare(stdin, set, "x", &listing.set())?;
    let [m, p, q] = [m, p, q].map(|byte| u64::from(*byte));
    let printed = String::from_utf8_lossy(&output);
    let said = printed.trim_end();
    let question = Question::Judge { m, p, q };
    let mut answers = listing.answers.iter();
    match answers.any(|answer| answer.question == question && answer.said == said) {
        true => Ok(()),
        false => Err(format!(
            "{stdout}: example x does not say \"{said}\" of {m} processors at {p}/{q}"
        )),
    }
}

/// The manual's worked example: its lines of 16 bytes in hexadecimal, and its listing in words.
fn check_manual(root: &Path) -> Result<(), String> {
    let bytes = read(root, MANUAL)?;
    let text = String::from_utf8(bytes).map_err(|error| format!("{MANUAL}: {error}"))?;
    let set = listing(root, WORKED)?.set();
    let hex: Vec<u8> = text.lines().filter_map(hex_line).flatten().collect();
    compare(&format!("{MANUAL}, bytes"), &hex, WORKED, &set)?;
    // A block may name its language behind the first mark.
    let blocks = text.split("```").skip(1).step_by(2);
    let mut blocks = blocks.filter_map(|block| Some(block.split_once('\n')?.1));
    let words = blocks.find(|block| block.starts_with("task 0:"));
    let words = sets::listing::read(words.unwrap_or(""));
    let words = words.map_err(|fault| fault.in_file(format!("{MANUAL}, words")))?;
    compare(&format!("{MANUAL}, words"), &words.set(), WORKED, &set)
}

/// A record, where a line begins with its bytes.
fn hex_line(line: &str) -> Option<Vec<u8>> {
    let digits: Vec<&str> = line.split_whitespace().take(RECORD).collect();
    let whole = digits.len() == RECORD;
    whole.then(|| digits.into_iter().map(byte).collect())?
}

fn read(root: &Path, path: &str) -> Result<Vec<u8>, String> {
    fs::read(root.join(path)).map_err(|error| format!("{path}: {error}"))
}

fn listing(root: &Path, example: &str) -> Result<Listing, String> {
    read_listing(&root.join("examples"), example)
}

/// The definitions of a source: their names and what stands behind the `=`.
fn definitions(text: &str) -> Vec<(&str, &str)> {
    text.split("\n\n").filter_map(definition).collect()
}

/// The name is the last word before the colon, in `pub(crate) const X: [u8; 416]` and in `pub set_X : List ℕ`.
fn definition(paragraph: &str) -> Option<(&str, &str)> {
    let is_comment = |line: &str| line.starts_with("//") || line.starts_with("--");
    let mut rest = paragraph.trim_start();
    while is_comment(rest) {
        rest = rest.split_once('\n')?.1;
    }
    let (head, body) = rest.split_once('=')?;
    let name = head.split(':').next()?.split_whitespace().last()?;
    Some((name, body))
}

/// The bytes of a set: marks and digits, without what ties them together.
fn bytes_of(body: &str, mark: &str) -> Option<Vec<u8>> {
    let mut bare = body.to_string();
    for tie in ["*b\"", "\\\n", "\";", "∷", "[]"] {
        bare = bare.replace(tie, "");
    }
    bare.retain(|letter| !letter.is_whitespace());
    let digits = bare.strip_prefix(mark)?.split(mark);
    digits.map(byte).collect()
}

fn byte(digits: &str) -> Option<u8> {
    let whole = digits.len() == 2 && digits.chars().all(|digit| digit.is_ascii_hexdigit());
    whole.then(|| u8::from_str_radix(digits, 16).ok())?
}

/// The example of a set: `ONE_JOB` and `set_one_job` are `one-job`.
fn example_of(name: &str) -> String {
    let name = name.strip_prefix("set_").unwrap_or(name);
    name.to_lowercase().replace('_', "-")
}

pub fn compare(place: &str, copy: &[u8], example: &str, set: &[u8]) -> Result<(), String> {
    match first_difference(copy, set) {
        None => Ok(()),
        Some(byte) => Err(format!(
            "{place}: other bytes than the listing of example {example} makes, from byte {byte} on"
        )),
    }
}
