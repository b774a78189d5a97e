//! What uploads came to.

use crate::lent::LentUpload;
use crate::run::Counts;
use sets::record::RECORD;

/// A room is tried at every length that is so much shorter or longer than the joined bytes.
pub const AROUND: usize = RECORD + 1;

/// The numbers that a closing can give.
const CLOSINGS: [usize; 11] = [0, 1, 2, 3, 4, 5, 7, 8, 9, 11, 12];

/// How a part met the room.
pub const PARTS: [&str; 6] = [
    "left room behind it",
    "filled the room to its end",
    "fitted in part",
    "found no room",
    "was empty",
    "came after a closing",
];

/// Where a part of a run ended.
pub const CUTS: [&str; 2] = ["inside a record", "at the end of a record"];

/// What a caller changed between calls.
pub const CHANGES: [&str; 7] = [
    "any words",
    "held beyond the room",
    "held within the room",
    "over",
    "closed",
    "bytes of the room",
    "the room itself",
];

/// What was tried so far.
pub struct Uploads {
    pub begun: u64,
    pub parts: [u64; PARTS.len()],
    pub cuts: [u64; CUTS.len()],
    /// By number.
    pub closings: [u64; 13],
    /// Closings of a run, by how much longer the room is than the joined bytes.
    pub rooms: [u64; 2 * AROUND + 1],
    pub changes: [u64; CHANGES.len()],
    /// Bytes of rooms and guards compared.
    pub bytes: u64,
}

impl Default for Uploads {
    fn default() -> Uploads {
        Uploads {
            begun: 0,
            parts: [0; PARTS.len()],
            cuts: [0; CUTS.len()],
            closings: [0; 13],
            rooms: [0; 2 * AROUND + 1],
            changes: [0; CHANGES.len()],
            bytes: 0,
        }
    }
}

fn add(mine: &mut [u64], more: &[u64]) {
    for (mine, more) in mine.iter_mut().zip(more) {
        *mine += more;
    }
}

impl Counts for Uploads {
    fn add(&mut self, other: &Uploads) {
        self.begun += other.begun;
        add(&mut self.parts, &other.parts);
        add(&mut self.cuts, &other.cuts);
        add(&mut self.closings, &other.closings);
        add(&mut self.rooms, &other.rooms);
        add(&mut self.changes, &other.changes);
        self.bytes += other.bytes;
    }
}

impl Uploads {
    /// A part of so many bytes, before it is handed in.
    pub fn count_part(&mut self, lent: &mut LentUpload, len: usize) {
        let ([held, _, closed], room) = (*lent.words(), lent.room().len() as u64);
        let (len, left) = (len as u64, room.saturating_sub(held));
        let kind = match (len, left) {
            _ if closed != 0 => 5,
            (0, _) => 4,
            (_, 0) => 3,
            _ if len > left => 2,
            _ if len == left => 1,
            _ => 0,
        };
        self.parts[kind] += 1;
    }

    /// A part of a run, behind which so many bytes are joined.
    pub fn count_cut(&mut self, joined: usize) {
        self.cuts[usize::from(joined.is_multiple_of(RECORD))] += 1;
    }

    /// A closing of a run.
    pub fn count_room(&mut self, lent: &mut LentUpload, joined: usize) {
        let longer = (lent.room().len() + AROUND).checked_sub(joined);
        if let Some(count) = longer.and_then(|longer| self.rooms.get_mut(longer)) {
            *count += 1;
        }
    }

    /// What never came up, of all that can.
    pub fn missing(&self) -> Option<String> {
        let number = CLOSINGS.iter().find(|number| self.closings[**number] == 0);
        let number = number.map(|number| format!("no closing gave {number}"));
        let part = never(&self.parts).map(|at| format!("no part {}", PARTS[at]));
        let cut = never(&self.cuts).map(|at| format!("no part ended {}", CUTS[at]));
        let change = never(&self.changes).map(|at| format!("no caller changed {}", CHANGES[at]));
        let room = never(&self.rooms).map(|at| at as i64 - AROUND as i64);
        let room = room.map(|longer| format!("no room was longer by {longer} at a closing"));
        number.or(part).or(cut).or(change).or(room)
    }
}

fn never(counts: &[u64]) -> Option<usize> {
    counts.iter().position(|count| *count == 0)
}
