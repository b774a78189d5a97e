//! The examples: `NAME.txt` lists a set in words, with what the entries answer for it, and
//! `NAME.set` has the bytes of a set. Either may stand alone.

mod answers;
mod faults;

pub use faults::check as check_faults;

use crate::copies::compare;
use crate::records::{read, Reading};
use crate::words::and_back;
use sets::listing::{Answer, Listing, Question};
use std::collections::BTreeSet;
use std::path::{Path, PathBuf};
use std::{fs, io};

/// Words to lend where a line does not say how many.
const PLENTY: usize = 4_096;

/// Checks every example of the folder; how many there are, or what is wrong.
pub fn check_folder(folder: &Path) -> Result<usize, String> {
    let files = names(folder).map_err(|error| format!("{}: {error}", folder.display()))?;
    let mut examples = BTreeSet::new();
    for file in &files {
        let (name, ending) = file.rsplit_once('.').unwrap_or((file, ""));
        match ending {
            "txt" => check_listing(folder, name)?,
            "set" => check_set(folder, name)?,
            // a program or a script
            _ => continue,
        }
        examples.insert(name);
    }
    match examples.len() {
        0 => Err(format!("{}: no example", folder.display())),
        count => Ok(count),
    }
}

/// The names of the files in a folder, in their order.
fn names(folder: &Path) -> io::Result<BTreeSet<String>> {
    let files = fs::read_dir(folder)?;
    let name = |file: fs::DirEntry| file.file_name().to_string_lossy().into_owned();
    files.map(|file| file.map(name)).collect()
}

fn check_listing(folder: &Path, name: &str) -> Result<(), String> {
    let listing = read_listing(folder, name)?;
    let (place, set) = (text_file(folder, name), listing.set());
    // What a listing makes can be said, readable or not.
    and_back(&set, true).map_err(|what| format!("{}: {what}", place.display()))?;
    let reading = read(&set);
    for answer in &listing.answers {
        let checked = check_answer(&set, &reading, answer);
        checked.map_err(|what| format!("{}:{}: {what}", place.display(), answer.line))?;
    }
    Ok(())
}

fn check_set(folder: &Path, name: &str) -> Result<(), String> {
    let path = folder.join(format!("{name}.set"));
    let place = path.display().to_string();
    let set = fs::read(&path).map_err(|error| format!("{place}: {error}"))?;
    and_back(&set, read(&set).is_ok()).map_err(|what| format!("{place}: {what}"))?;
    match text_file(folder, name).exists() {
        true => compare(&place, &set, name, &read_listing(folder, name)?.set()),
        false => Ok(()),
    }
}

fn text_file(folder: &Path, name: &str) -> PathBuf {
    folder.join(format!("{name}.txt"))
}

pub fn read_listing(folder: &Path, name: &str) -> Result<Listing, String> {
    let path = text_file(folder, name);
    let text = fs::read_to_string(&path);
    let text = text.map_err(|error| format!("{}: {error}", path.display()))?;
    sets::listing::read(&text).map_err(|fault| fault.in_file(path.display()))
}

/// What the line says must be what the peer, the library and for judge the programs give.
fn check_answer(set: &[u8], reading: &Reading, answer: &Answer) -> Result<(), String> {
    let answers = match answer.question {
        Question::Figures { task } => answers::figures(set, reading, task as usize),
        Question::Layers { task, p, q, words } => {
            let words = words.map_or(PLENTY, |words| words as usize);
            answers::layers(set, reading, task as usize, (p, q), words)
        }
        Question::Demand { task, p, q, x } => {
            answers::demand(set, reading, task as usize, (p, q), x)
        }
        Question::Judge { m, p, q } => answers::judge(set, reading, [m, p, q])?,
    };
    for (who, given) in ["peer", "library"].iter().zip(answers) {
        if given != answer.said {
            let said = &answer.said;
            return Err(format!("listed as {said}, but the {who} gives {given}"));
        }
    }
    Ok(())
}
