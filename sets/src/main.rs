//! `bytes` turns a listing into the bytes of its set, `words` the bytes of a set into a listing.

#![forbid(unsafe_code)]

use sets::fault::Fault;
use sets::{listing, words};
use std::env::args_os;
use std::ffi::OsString;
use std::io::{self, Read, Write};
use std::path::Path;
use std::process::ExitCode;

const USAGE: &str = "usage: sets/bytes [LISTING] > SET, or sets/words [SET] > LISTING; \
    without a file, or with -, from standard input";

type Turn = fn(&[u8]) -> Result<Vec<u8>, Fault>;

fn main() -> ExitCode {
    let arguments: Vec<OsString> = args_os().skip(1).collect();
    let Some((turn, file)) = command(&arguments) else {
        eprintln!("{USAGE}");
        return ExitCode::from(2);
    };
    match run(turn, file) {
        Ok(()) => ExitCode::SUCCESS,
        Err(what) => {
            eprintln!("{what}");
            ExitCode::FAILURE
        }
    }
}

/// What to turn, and the file; none for standard input.
fn command(arguments: &[OsString]) -> Option<(Turn, Option<&Path>)> {
    let (turn, files) = arguments.split_first()?;
    let turn: Turn = match turn.to_str()? {
        "bytes" => |text| Ok(listing::read(&String::from_utf8_lossy(text))?.set()),
        "words" => |set| Ok(words::of(set)?.into_bytes()),
        _ => return None,
    };
    match files {
        [] => Some((turn, None)),
        [file] if file == "-" => Some((turn, None)),
        // No option is known, so a name that looks like one is a question for help.
        [file] if !file.as_encoded_bytes().starts_with(b"-") => Some((turn, Some(file.as_ref()))),
        _ => None,
    }
}

/// Writes all or nothing.
fn run(turn: Turn, file: Option<&Path>) -> Result<(), String> {
    let name = file.unwrap_or(Path::new("standard input")).display();
    let read = || match file {
        Some(file) => std::fs::read(file),
        None => {
            let mut bytes = Vec::new();
            io::stdin().read_to_end(&mut bytes).map(|_| bytes)
        }
    };
    let bytes = read().map_err(|error| format!("{name}: {error}"))?;
    let turned = turn(&bytes).map_err(|fault| fault.in_file(name))?;
    let mut output = io::stdout();
    let written = output.write_all(&turned).and_then(|()| output.flush());
    written.map_err(|error| format!("standard output: {error}"))
}
