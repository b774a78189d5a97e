//! Uploads of the set of one input: cut at random, with a room of about its length, and in some of
//! them with what a caller may change between two calls.

use super::tally::{Uploads, AROUND, CHANGES};
use super::trial::Trial;
use crate::compare::Disagreement;
use crate::generate::Input;
use crate::numbers::Numbers;

/// Keeps the numbers of the uploads apart from those of the inputs.
const SALT: u64 = 0x7570_6c6f_6164_696e;
/// So that one input costs no more than moments.
const MOST_PARTS: usize = 40;
const ODD_WORDS: [u64; 7] = [0, 1, 2, 256, 1 << 32, 1 << 63, u64::MAX];

pub fn check(
    input: &Input,
    (seed, index): (u64, u64),
    uploads: &mut Uploads,
) -> Result<(), Disagreement> {
    let numbers = &mut Numbers::new(seed ^ SALT, index);
    let (set, asked) = (&input.set, [input.call.m, input.call.p, input.call.q]);
    let len = room_length(numbers, set.len());
    let room = bytes(numbers, len);
    let mut trial = Trial::new(&room, numbers.word(), uploads);
    let changes = numbers.pick(&[0, 0, 0, 0, 1, 2]);
    trial.begin()?;
    hand_in(&mut trial, numbers, set, changes)?;
    trial.close(asked)?;
    if numbers.once_in(3) {
        after_closing(&mut trial, numbers, set, asked)?;
    }
    if numbers.once_in(4) {
        // Anew, where the room still holds the first upload: a few bytes or records fewer.
        let fewer = numbers.pick(&[1, 16, 32, 48]).min(set.len());
        trial.begin()?;
        hand_in(&mut trial, numbers, &set[..set.len() - fewer], changes)?;
        trial.close(asked)?;
    }
    Ok(())
}

fn bytes(numbers: &mut Numbers, len: usize) -> Vec<u8> {
    (0..len).map(|_| numbers.word() as u8).collect()
}

/// For so many bytes: mostly about as many, often exactly.
fn room_length(numbers: &mut Numbers, len: usize) -> usize {
    let any = numbers.index(2 * len + AROUND);
    let near = (len + numbers.index(2 * AROUND + 1)).saturating_sub(AROUND);
    numbers.pick(&[len, len, near, near, near, near, any, any / 8])
}

/// The set in parts; so many changes, more or less, stand before parts or behind the last.
fn hand_in(
    trial: &mut Trial,
    numbers: &mut Numbers,
    set: &[u8],
    changes: u64,
) -> Result<(), Disagreement> {
    let ends = ends(numbers, set.len());
    let places = ends.len() as u64 + 1;
    let mut from = 0;
    for end in ends {
        if numbers.below(places) < changes {
            change(trial, numbers);
        }
        trial.part(&set[from..end])?;
        from = end;
    }
    if numbers.below(places) < changes {
        change(trial, numbers);
    }
    Ok(())
}

/// Where parts end: all of one length, or anywhere; two that end at one place make an empty part.
fn ends(numbers: &mut Numbers, len: usize) -> Vec<usize> {
    let size = numbers
        .pick(&[1, 7, 15, 16, 17, 64])
        .max(len / MOST_PARTS + 1);
    let mut ends: Vec<usize> = match numbers.below(3) {
        0 => (size..len).step_by(size).collect(),
        _ => (0..numbers.below(9))
            .map(|_| numbers.index(len + 1))
            .collect(),
    };
    for _ in 0..numbers.below(3) {
        ends.push(ends.last().copied().unwrap_or(0));
    }
    ends.push(len);
    ends.sort_unstable();
    ends
}

/// Nothing changes any more, whatever is handed in or asked.
fn after_closing(
    trial: &mut Trial,
    numbers: &mut Numbers,
    set: &[u8],
    asked: [u64; 3],
) -> Result<(), Disagreement> {
    for _ in 0..numbers.between(1, 4) {
        match numbers.below(4) {
            0 => trial.part(&[])?,
            1 => trial.part(set)?,
            2 => trial.close(asked)?,
            _ => trial.close([numbers.below(20), numbers.below(33), numbers.below(33)])?,
        }
    }
    Ok(())
}

/// One of `CHANGES`.
fn change(trial: &mut Trial, numbers: &mut Numbers) {
    let ([held, over, closed], len) = (trial.words(), trial.room().len());
    let kind = numbers.index(CHANGES.len());
    match kind {
        0 => trial.set_words([0; 3].map(|_| any_word(numbers, len))),
        1 => trial.set_words([beyond(numbers, len), over, closed]),
        2 => trial.set_words([numbers.index(len + 1) as u64, over, closed]),
        3 => trial.set_words([held, numbers.pick(&ODD_WORDS), closed]),
        4 => trial.set_words([held, over, numbers.pick(&ODD_WORDS)]),
        5 if len > 0 => trial.set_byte(numbers.index(len), numbers.word() as u8),
        _ => change_room(trial, numbers),
    }
    trial.count_change(kind);
}

fn any_word(numbers: &mut Numbers, len: usize) -> u64 {
    let (small, large) = (numbers.index(len + 2) as u64, numbers.word());
    numbers.pick(&[0, 0, small, large])
}

/// A little, or so much that a sum with it is beyond any word.
fn beyond(numbers: &mut Numbers, len: usize) -> u64 {
    let (len, any) = (len as u64, numbers.word() | 1 << 63);
    let last = u64::MAX - numbers.below(64);
    numbers.pick(&[len + 1, len + 2, len + 17, len + (1 << 32), any, last])
}

/// Another length, with the same bytes as far as they go or with other ones.
fn change_room(trial: &mut Trial, numbers: &mut Numbers) {
    let mut room = trial.room().to_vec();
    let len = room_length(numbers, room.len());
    if numbers.once_in(2) {
        room.clear();
    }
    room.truncate(len);
    room.extend(bytes(numbers, len - room.len()));
    trial.set_room(&room);
}
