//! Every way to cut a few short sets, and every length of room around them.

use super::model::Asked;
use super::tally::{Uploads, AROUND};
use super::trial::Trial;
use crate::compare::Disagreement;
use sets::draft::{set_of, Draft};
use sets::record::RECORD;

/// Bytes whose cuts are all tried: with one more there are twice as many.
const MOST_BYTES: usize = 12;

/// One upload: parts of the set that end at these places.
pub struct Case {
    pub set: Vec<u8>,
    asked: Asked,
    room: usize,
    ends: Vec<usize>,
}

pub fn check(case: &Case, uploads: &mut Uploads) -> Result<(), Disagreement> {
    let room: Vec<u8> = (0..case.room).map(|place| 255 - place as u8).collect();
    let mut trial = Trial::new(&room, case.ends.len() as u64, uploads);
    trial.begin()?;
    let mut from = 0;
    for &end in &case.ends {
        trial.part(&case.set[from..end])?;
        from = end;
    }
    trial.close(case.asked)
}

pub fn all() -> Vec<Case> {
    let mut cases = every_cut();
    for (set, asked) in short_sets() {
        cases.extend(two_cuts(&set, asked));
        cases.extend(every_room(&set, asked));
    }
    cases
}

/// The first bytes of a set, cut in every way: a bit for each place between two bytes. The room has
/// a byte too few, just enough, or a byte too many, in turn.
fn every_cut() -> Vec<Case> {
    let set = set_of(&[Draft::job(1, 1, 1)]);
    let cases = (0..=MOST_BYTES).flat_map(|len| {
        let set = set[..len].to_vec();
        (0..1_usize << len.saturating_sub(1)).map(move |cut| Case {
            set: set.clone(),
            asked: [1, 1, 1],
            room: (len + cut % 3).saturating_sub(1),
            ends: (1..=len)
                .filter(|end| *end == len || cut >> (end - 1) & 1 == 1)
                .collect(),
        })
    });
    cases.collect()
}

/// Two records, accepted and dense; three, where the fourth is missing; four, which overrun.
fn short_sets() -> [(Vec<u8>, Asked); 4] {
    let one = set_of(&[Draft::job(1, 1, 1)]);
    let dense = set_of(&[Draft::job(2, 1, 1)]);
    let two = set_of(&[Draft::job(1, 1, 2), Draft::job(1, 1, 2)]);
    let cut_short = two[..3 * RECORD].to_vec();
    [
        (one, [1, 1, 1]),
        (dense, [1, 1, 1]),
        (cut_short, [1, 1, 1]),
        (two, [1, 0, 0]),
    ]
}

/// Three parts, of which any may be empty, with just enough room.
fn two_cuts(set: &[u8], asked: Asked) -> Vec<Case> {
    let len = set.len();
    let places = (0..=len).flat_map(|one| (one..=len).map(move |other| [one, other]));
    let cases = places.map(|[one, other]| Case {
        set: set.to_vec(),
        asked,
        room: len,
        ends: vec![one, other, len],
    });
    cases.collect()
}

/// No room at all, and every length up to plenty of it; parts of several lengths.
fn every_room(set: &[u8], asked: Asked) -> Vec<Case> {
    let len = set.len();
    let rooms = (0..=len + AROUND).flat_map(|room| [1, 7, RECORD, len].map(|size| (room, size)));
    let cases = rooms.map(|(room, size)| Case {
        set: set.to_vec(),
        asked,
        room,
        ends: (size..len).step_by(size).chain([len]).collect(),
    });
    cases.collect()
}
