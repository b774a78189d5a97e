//! One input through all four entries of the built library and of this package, in every field.

use crate::entries::{self, Judged, Layered};
use crate::generate::call::{Call, Words};
use crate::generate::{Input, KINDS};
use crate::lent::Lent;
use crate::library;
use crate::records::{read, Reading, Task};
use crate::run::Counts;
use crate::speed::{density, least_speed, Speed};
use crate::verdict::Verdict;
use crate::words::and_back;
use sets::record::RECORD;
use std::fmt::Debug;

/// What was compared so far.
#[derive(Default, Clone)]
pub struct Tally {
    pub kinds: [u64; KINDS.len()],
    /// By entry (judge, of these at 0/0, figures, demand, layers) and number.
    pub answers: [[u64; 11]; 5],
    /// Sets judged at 0/0, by what that stood for: m/(2m-1), a task's length/deadline, or the next
    /// speed above both.
    pub stood: [u64; 3],
    pub words: u64,
    /// Sets accepted with a tick above 0 whose demand is equal to the bound.
    pub met: u64,
    /// Sets whose first overrun is by one.
    pub by_one: u64,
    /// Sets whose first overrun is beyond the longest period.
    pub late: u64,
    /// Sets that went to words and back: readable ones, and others.
    pub said: [u64; 2],
}

impl Counts for Tally {
    fn add(&mut self, other: &Tally) {
        for (mine, more) in self.kinds.iter_mut().zip(other.kinds) {
            *mine += more;
        }
        for (mine, more) in self
            .answers
            .iter_mut()
            .flatten()
            .zip(other.answers.iter().flatten())
        {
            *mine += more;
        }
        for (mine, more) in self.stood.iter_mut().zip(other.stood) {
            *mine += more;
        }
        self.words += other.words;
        self.met += other.met;
        self.by_one += other.by_one;
        self.late += other.late;
        for (mine, more) in self.said.iter_mut().zip(other.said) {
            *mine += more;
        }
    }
}

pub struct Disagreement {
    pub entry: String,
    pub call: String,
    pub peer: String,
    pub library: String,
}

/// Compares an answer, and sees that the set was left as it was.
pub fn same<T: PartialEq + Debug>(
    entry: &str,
    call: &str,
    peer: T,
    (library, kept): (T, bool),
) -> Result<(), Disagreement> {
    if peer == library && kept {
        return Ok(());
    }
    let changed = if kept {
        ""
    } else {
        ", and changed bytes of the set or around it"
    };
    Err(Disagreement {
        entry: entry.to_string(),
        call: call.to_string(),
        peer: format!("{peer:?}"),
        library: format!("{library:?}{changed}"),
    })
}

pub fn check(input: &Input, tally: &mut Tally) -> Result<(), Disagreement> {
    let reading = read(&input.set);
    tally.kinds[input.kind] += 1;
    check_words(&input.set, reading.is_ok(), tally)?;
    check_judge(&input.set, &reading, &input.call, tally)?;
    check_figures(&input.set, &reading, &input.call, tally)?;
    check_demand(&input.set, &reading, &input.call, tally)?;
    check_layers(&input.set, &reading, &input.call, tally)
}

fn check_words(set: &[u8], readable: bool, tally: &mut Tally) -> Result<(), Disagreement> {
    let went = and_back(set, readable).map_err(|what| Disagreement {
        entry: "words".to_string(),
        call: "the set as a listing, and back".to_string(),
        peer: what,
        library: "not asked".to_string(),
    })?;
    tally.said[usize::from(!readable)] += u64::from(went);
    Ok(())
}

fn check_judge(
    set: &[u8],
    reading: &Reading,
    call: &Call,
    tally: &mut Tally,
) -> Result<(), Disagreement> {
    let verdict = entries::verdict(reading, call.m, call.p, call.q);
    match verdict {
        Ok(Verdict::Accepted { met: true, .. }) => tally.met += 1,
        Ok(Verdict::Overrun { excess, late, .. }) => {
            tally.by_one += u64::from(excess == 1);
            tally.late += u64::from(late);
        }
        _ => {}
    }
    let peer = entries::judge(verdict);
    tally.answers[0][peer.number as usize] += 1;
    if (call.p, call.q) == (0, 0) {
        count_default(reading, call.m, peer, tally);
    }
    let library = library::judge(set, call.m, call.p, call.q);
    let text = format!("m {}, speed {}/{}", call.m, call.p, call.q);
    same("judge", &text, peer, library)
}

fn count_default(reading: &Reading, m: u64, judged: Judged, tally: &mut Tally) {
    tally.answers[1][judged.number as usize] += 1;
    if let (Ok(tasks), Some(speed)) = (reading, Speed::in_range(judged.p, judged.q)) {
        tally.stood[stood_for(tasks, m, speed)] += 1;
    }
}

fn stood_for(tasks: &[Task], m: u64, speed: Speed) -> usize {
    let is = |ratio| speed.compared(ratio).is_eq();
    if is(least_speed(m)) {
        return 0;
    }
    match tasks.iter().any(|task| is(density(task))) {
        true => 1,
        false => 2,
    }
}

fn check_figures(
    set: &[u8],
    reading: &Reading,
    call: &Call,
    tally: &mut Tally,
) -> Result<(), Disagreement> {
    let peer = entries::figures(reading, call.task);
    tally.answers[2][peer.number as usize] += 1;
    let text = format!("task {}", call.task);
    same("figures", &text, peer, library::figures(set, call.task))
}

fn check_demand(
    set: &[u8],
    reading: &Reading,
    call: &Call,
    tally: &mut Tally,
) -> Result<(), Disagreement> {
    let (task, p, q, x) = (call.task, call.task_p, call.task_q, call.x);
    let peer = entries::demand(reading, task, p, q, x);
    tally.answers[3][peer.number as usize] += 1;
    let text = format!("task {task}, speed {p}/{q}, x {x}");
    same("demand", &text, peer, library::demand(set, task, p, q, x))
}

fn check_layers(
    set: &[u8],
    reading: &Reading,
    call: &Call,
    tally: &mut Tally,
) -> Result<(), Disagreement> {
    let (task, p, q) = (call.task, call.task_p, call.task_q);
    let pairs = entries::layer_pairs(reading, task, p, q);
    let taken = pairs.as_ref().map_or(4, |pairs| 2 * pairs.len());
    let words = match call.words {
        Words::Count(words) => words,
        Words::BeyondPairs(more) => taken.saturating_add_signed(more),
    };
    let mut expected = Lent::new(words, call.x as u32);
    let mut lent = expected.clone();
    let peer: Layered = entries::layers(&pairs, expected.table());
    tally.answers[4][peer.number as usize] += 1;
    tally.words += expected.memory.len() as u64;
    let text = format!("task {task}, speed {p}/{q}, {words} words lent");
    let library = library::layers(set, task, p, q, &mut lent);
    same("layers", &text, peer, library)?;
    if expected == lent {
        return Ok(());
    }
    let text = format!("{text}; the lent words, guards included");
    same("layers", &text, &expected.memory, (&lent.memory, true))
}

/// The set as lines of hexadecimal, one for each record.
pub fn hex(set: &[u8]) -> String {
    let mut text = String::new();
    for (number, record) in set.chunks(RECORD).enumerate() {
        let bytes: Vec<String> = record.iter().map(|byte| format!("{byte:02x}")).collect();
        text += &format!("  {number:>5}: {}\n", bytes.join(" "));
    }
    text
}
