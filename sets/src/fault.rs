//! Why a listing makes no set, or a set has no words: what is wrong, and where.

use std::fmt::Display;

#[derive(Debug)]
pub struct Fault {
    pub place: Place,
    pub what: String,
}

#[derive(Debug)]
pub enum Place {
    /// From 1, as editors count.
    Line(usize),
    /// From 0, as refusals count.
    Record(usize),
}

impl Fault {
    /// The file, the place in it, and what is wrong.
    pub fn in_file(&self, file: impl Display) -> String {
        let what = &self.what;
        match self.place {
            Place::Line(line) => format!("{file}:{line}: {what}"),
            Place::Record(record) => format!("{file}: record {record}: {what}"),
        }
    }
}
