//! What an upload must do, by the words of request 5, in two ways.
//!
//! `Run` is an upload from its beginning on: it keeps every byte that was handed in, and says from
//! that list what room and words must be. `part` and `closing` go by whatever words and room a call
//! finds. Where a run can tell, the two must agree.

use crate::entries::{self, Judged};
use crate::lent::{LentUpload, Words};
use crate::records::{read, refuse};

/// m, p and q.
pub type Asked = [u64; 3];

/// What a closing is answered with.
#[derive(Debug, PartialEq, Eq)]
pub enum Closing<'a> {
    /// 12.
    Again,
    /// 11, unless it is 1.
    Exceeded,
    /// What judge gives for these bytes.
    Judge(&'a [u8]),
}

impl Closing<'_> {
    pub fn answer(&self, [m, p, q]: Asked) -> Judged {
        // A refusal of the reading comes after number 1 and before all others, as 11 does.
        let reading = match self {
            Closing::Again => return entries::judge(refuse(12, 0)),
            Closing::Exceeded => refuse(11, 0),
            Closing::Judge(set) => read(set),
        };
        entries::judge(entries::verdict(&reading, m, p, q))
    }
}

/// An upload from its beginning on, with one room.
pub struct Run {
    /// The room as it was lent.
    lent: Vec<u8>,
    /// All bytes that were handed in before a closing, also those that the room does not hold.
    joined: Vec<u8>,
    closed: bool,
}

impl Run {
    pub fn begin(room: &[u8]) -> Run {
        Run {
            lent: room.to_vec(),
            joined: Vec::new(),
            closed: false,
        }
    }

    pub fn part(&mut self, part: &[u8]) -> u64 {
        if self.closed {
            return 12;
        }
        self.joined.extend(part);
        0
    }

    pub fn closing(&mut self) -> Closing<'_> {
        let again = std::mem::replace(&mut self.closed, true);
        match self.joined.len() > self.lent.len() {
            _ if again => Closing::Again,
            true => Closing::Exceeded,
            false => Closing::Judge(&self.joined),
        }
    }

    /// The caller changes a byte of the room: it counts as what was handed in.
    pub fn change(&mut self, place: usize, byte: u8) {
        self.lent[place] = byte;
        if let Some(held) = self.joined.get_mut(place) {
            *held = byte;
        }
    }

    /// The joined bytes stand at the front as far as they fit, and behind them what was there.
    pub fn room(&self) -> Vec<u8> {
        let fits = self.joined.len().min(self.lent.len());
        [&self.joined[..fits], &self.lent[fits..]].concat()
    }

    pub fn words(&self) -> Words {
        let held = self.joined.len().min(self.lent.len());
        let over = self.joined.len() > self.lent.len();
        [held as u64, over.into(), self.closed.into()]
    }

    pub fn joined(&self) -> usize {
        self.joined.len()
    }
}

/// A part, whatever words and room it finds: place by place, which byte of it belongs there.
pub fn part(lent: &mut LentUpload, part: &[u8]) -> u64 {
    let [held, over, closed] = *lent.words();
    if closed != 0 {
        return 12;
    }
    let mut kept = 0;
    for (place, byte) in lent.room().iter_mut().enumerate() {
        let behind = (place as u64).checked_sub(held);
        if let Some(new) = behind.and_then(|at| part.get(at as usize)) {
            *byte = *new;
            kept += 1;
        }
    }
    let over = if kept < part.len() { 1 } else { over };
    *lent.words() = [held + kept as u64, over, 0];
    0
}

/// A closing, whatever words and room it finds. Where it closes, only that word changes.
pub fn closing(lent: &mut LentUpload) -> Closing<'_> {
    let [held, over, closed] = *lent.words();
    if closed != 0 {
        return Closing::Again;
    }
    *lent.words() = [held, over, 1];
    match lent.room().get(..held as usize) {
        Some(set) if over == 0 => Closing::Judge(set),
        _ => Closing::Exceeded,
    }
}
