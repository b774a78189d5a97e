//! The built programs: bytes to their standard input, and the line they print.

use crate::entries::{judge, verdict, Judged};
use crate::generate;
use crate::machine;
use crate::numbers::Numbers;
use crate::records::{read, refuse};
use crate::speed::least_speed;
use sets::draft::{set_of, Draft};
use std::io::{self, Write};
use std::process::{Child, Command, Stdio};

const LONGEST_SET: usize = 65_536;
/// Keeps the numbers of these inputs apart from those of the library's.
const SALT: u64 = 0x7261_636b_7465_7374;

pub struct Feed {
    pub bytes: Vec<u8>,
    /// How many bytes to write at a time, and then wait until the program has read them; 0 for all
    /// at once.
    pub piece: usize,
}

#[derive(Clone, Copy)]
pub enum Program {
    /// Takes the set as a whole.
    Racktest,
    /// Takes it in parts as they come, into a room for the longest set (request 5).
    Rackparts,
}

pub const PROGRAMS: [Program; 2] = [Program::Racktest, Program::Rackparts];

impl Program {
    pub fn name(self) -> &'static str {
        match self {
            Program::Racktest => "racktest",
            Program::Rackparts => "rackparts",
        }
    }

    pub fn command(self) -> Command {
        machine::program(&crate::root().join("target/bin").join(self.name()))
    }

    /// The line that document 01 asks for. Since request 6 a program names m/(2m-1) for 0/0.
    pub fn line(self, input: &[u8]) -> String {
        let [m, p, q, set @ ..] = input else {
            return "1 0 0 0\n".to_string();
        };
        let reading = match self {
            _ if set.len() <= LONGEST_SET => read(set),
            Program::Racktest => return "too long\n".to_string(),
            // Number 1 comes before what is read of the set, and so before 11.
            Program::Rackparts => refuse(11, 0),
        };
        let [m, p, q] = [m, p, q].map(|byte| u64::from(*byte));
        let (p, q) = match (p, q) {
            (0, 0) if m > 0 => least_speed(m),
            named => named,
        };
        judged_line(judge(verdict(&reading, m, p, q)))
    }

    /// What it prints.
    pub fn printed(self, feed: &Feed) -> io::Result<String> {
        let mut child = self
            .command()
            .stdin(Stdio::piped())
            .stdout(Stdio::piped())
            .spawn()?;
        write(&mut child, feed)?;
        let output = child.wait_with_output()?;
        Ok(String::from_utf8_lossy(&output.stdout).into_owned())
    }
}

pub fn judged_line(judged: Judged) -> String {
    let Judged {
        number,
        place,
        x,
        w,
        ..
    } = judged;
    format!("{number} {place} {x} {w}\n")
}

/// Writes and closes. A program may stop reading a set that is too long.
fn write(child: &mut Child, feed: &Feed) -> io::Result<()> {
    let mut stdin = child.stdin.take().expect("asked for a pipe");
    let piece = if feed.piece == 0 {
        feed.bytes.len().max(1)
    } else {
        feed.piece
    };
    for part in feed.bytes.chunks(piece) {
        match stdin.write_all(part) {
            Err(error) if error.kind() == io::ErrorKind::BrokenPipe => break,
            other => other?,
        }
        if feed.piece > 0 {
            machine::wait_for(child, &['S', 'Z'])?;
        }
    }
    Ok(())
}

/// Input `index` of the programs.
pub fn feed(seed: u64, index: u64) -> Feed {
    let mut numbers = Numbers::new(seed ^ SALT, index);
    let bytes = match index {
        0..=3 => vec![1; index as usize],
        4..=60 => around_the_longest(&mut numbers),
        _ => like_the_library(&mut numbers),
    };
    let piece = match numbers.below(60) {
        0 => 1 + bytes.len() / numbers.between(2, 9) as usize,
        1 if bytes.len() < 40 => 1,
        _ => 0,
    };
    Feed { bytes, piece }
}

/// A set of about 65,536 bytes, or much longer; sometimes bad numbers in front of it.
fn around_the_longest(numbers: &mut Numbers) -> Vec<u8> {
    let len = match numbers.below(7) {
        0 => 65_535,
        1 | 2 => 65_536,
        3 => 65_537,
        4 => 65_552,
        5 => 65_520,
        _ => numbers.between(65_538, 1_000_000) as usize,
    };
    let mut bytes = match numbers.below(3) {
        0 => vec![numbers.below(20) as u8, 40, 3],
        _ => vec![2, 1, 1],
    };
    let job = set_of(&[Draft::chain(64, 0, 20, 20)]);
    while bytes.len() < len + 3 {
        bytes.extend(&job);
    }
    bytes.truncate(len + 3);
    bytes
}

/// A set and numbers as the library gets them, where the numbers fit a byte.
fn like_the_library(numbers: &mut Numbers) -> Vec<u8> {
    let input = generate::input(numbers.word(), numbers.word());
    let call = input.call;
    let mut bytes = [call.m, call.p, call.q].map(|number| number as u8).to_vec();
    bytes.extend(input.set);
    if numbers.once_in(50) {
        bytes.truncate(numbers.index(4));
    }
    bytes
}
