//! Calls of the linked archive, through its face for Rust. The only unsafe code of this package is in there.

#![allow(unsafe_code)]

use crate::answer::{Answer, Call};

#[path = "../../include/rack.rs"]
mod rack;

pub fn judge(set: &[u8], call: Call) -> Answer {
    answer(rack::judge(set, call.m, call.p, call.q))
}

/// Hands in the set by parts of so many bytes, and closes.
pub fn upload(set: &[u8], size: usize, room: &mut [u8], call: Call) -> Answer {
    let mut upload = rack::Upload::begin();
    for part in set.chunks(size) {
        upload.part(room, part);
    }
    answer(upload.close(room, call.m, call.p, call.q))
}

fn answer(given: rack::Verdict) -> Answer {
    Answer {
        number: given.number as u64,
        place: given.place,
        x: given.x,
        w: given.w,
        p: given.p,
        q: given.q,
    }
}

/// The number of the answer, length and volume.
pub fn figures(set: &[u8], task: usize) -> [u64; 3] {
    let given = rack::figures(set, task);
    [given.number as u64, given.length, given.volume]
}

/// The number of the answer and the count of pairs, which stand in front of the table.
pub fn layers(set: &[u8], task: usize, p: u64, q: u64, table: &mut [u32]) -> [u64; 2] {
    let given = rack::layers(set, task, p, q, table);
    [given.number as u64, given.pairs]
}
