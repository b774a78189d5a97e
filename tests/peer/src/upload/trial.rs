//! An upload of the library, held against the models after every call: the answer, the three words,
//! every byte of the room, and what stands around them.

use super::model::{self, Asked, Run};
use super::tally::Uploads;
use crate::compare::{same, Disagreement};
use crate::lent::{LentUpload, Words};
use crate::library;

pub struct Trial<'a> {
    /// As the library left it; the caller may have changed it since.
    lent: LentUpload,
    /// While the caller has not changed what it cannot follow.
    run: Option<Run>,
    /// What was done so far, in words.
    acts: Vec<String>,
    uploads: &'a mut Uploads,
}

impl<'a> Trial<'a> {
    /// An upload of any words, not begun yet.
    pub fn new(room: &[u8], first: u64, uploads: &'a mut Uploads) -> Trial<'a> {
        Trial {
            lent: LentUpload::new(room, first),
            run: None,
            acts: vec![format!("a room of {} bytes", room.len())],
            uploads,
        }
    }

    pub fn begin(&mut self) -> Result<(), Disagreement> {
        self.acts.push("begun".to_string());
        self.uploads.begun += 1;
        let mut due = self.lent.clone();
        *due.words() = [0, 0, 0];
        library::upload_begin(&mut self.lent);
        self.run = Some(Run::begin(self.lent.room()));
        self.hold(due)
    }

    pub fn part(&mut self, part: &[u8]) -> Result<(), Disagreement> {
        self.acts.push(format!("a part of {} bytes", part.len()));
        self.uploads.count_part(&mut self.lent, part.len());
        let mut due = self.lent.clone();
        let number = model::part(&mut due, part);
        if let Some(run) = &mut self.run {
            assert_eq!(run.part(part), number, "the models differ on a part");
            self.uploads.count_cut(run.joined());
        }
        let given = library::upload_part(&mut self.lent, part);
        same("part", &self.text(), number, given)?;
        self.hold(due)
    }

    pub fn close(&mut self, asked: Asked) -> Result<(), Disagreement> {
        let [m, p, q] = asked;
        self.acts.push(format!("closed with m {m}, speed {p}/{q}"));
        let mut due = self.lent.clone();
        let closing = model::closing(&mut due);
        let judged = closing.answer(asked);
        self.uploads.closings[judged.number as usize] += 1;
        if let Some(run) = &mut self.run {
            self.uploads.count_room(&mut self.lent, run.joined());
            assert_eq!(run.closing(), closing, "the models differ on a closing");
        }
        let given = library::upload_close(&mut self.lent, asked);
        same("close", &self.text(), judged, given)?;
        self.hold(due)
    }

    pub fn words(&mut self) -> Words {
        *self.lent.words()
    }

    pub fn room(&mut self) -> &[u8] {
        self.lent.room()
    }

    /// The caller changes the words.
    pub fn set_words(&mut self, words: Words) {
        self.acts.push(format!("the words set to {words:?}"));
        *self.lent.words() = words;
        self.run = None;
    }

    /// The caller changes a byte of the room.
    pub fn set_byte(&mut self, place: usize, byte: u8) {
        self.acts
            .push(format!("byte {place} of the room set to {byte}"));
        self.lent.room()[place] = byte;
        if let Some(run) = &mut self.run {
            run.change(place, byte);
        }
    }

    /// The caller goes on with another room.
    pub fn set_room(&mut self, room: &[u8]) {
        self.acts
            .push(format!("another room, of {} bytes", room.len()));
        self.lent.set_room(room);
        self.run = None;
    }

    /// Counts what the caller changed: its place in `CHANGES`.
    pub fn count_change(&mut self, kind: usize) {
        self.uploads.changes[kind] += 1;
    }

    /// The memory must be what is due, guards included, and what the run says of it.
    fn hold(&mut self, mut due: LentUpload) -> Result<(), Disagreement> {
        if let Some(run) = &self.run {
            assert_eq!(run.words(), *due.words(), "the models differ on the words");
            assert_eq!(run.room(), due.room(), "the models differ on the room");
        }
        self.uploads.bytes += due.memory.len() as u64;
        if self.lent == due {
            return Ok(());
        }
        let differs = |(one, other): (&u8, &u8)| one != other;
        let mut pairs = due.memory.iter().zip(&self.lent.memory);
        let place = pairs.position(differs);
        Err(Disagreement {
            entry: "the memory of an upload".to_string(),
            call: self.text(),
            peer: shown(&due, place),
            library: shown(&self.lent, place),
        })
    }

    fn text(&self) -> String {
        self.acts.join(", ")
    }
}

/// The words with their guards, and one byte, counted from the room's front.
fn shown(lent: &LentUpload, place: Option<usize>) -> String {
    let words = format!("words between guards {:?}", lent.uploads);
    match place {
        None => words,
        Some(place) => {
            let from_front = place as i64 - lent.guard as i64;
            format!(
                "{words}, byte {from_front} of the room is {}",
                lent.memory[place]
            )
        }
    }
}
