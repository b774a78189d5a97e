//! Sets of tasks as bytes and as words, and the way from each to the other.
//!
//! Nothing here judges a set: a listing can say a deadline beyond its period or an edge that falls,
//! and such a set has words like any other.

#![forbid(unsafe_code)]

pub mod draft;
pub mod fault;
mod form;
pub mod listing;
pub mod record;
pub mod words;

/// The most that a listing makes, so that a slip in a range does not fill the memory. A readable
/// set has at most 32 · (1 + 64 + 256) = 10,272 records.
pub const MOST_RECORDS: usize = 1_000_000;

fn too_many() -> String {
    format!("a listing makes at most {MOST_RECORDS} records")
}
