//! Calls of the linked archive, on x86-64, through its face for Rust. The only unsafe code of this package is in there.

#![allow(unsafe_code)]

use crate::lent::{Lent, LentUpload};
use crate::library::{Entry, Reply, Request};

#[path = "../../../include/rack.rs"]
mod rack;

/// The number, and the fields in the order of the header.
type Answer = (rack::Number, [u64; 5]);

pub fn call(request: &Request, lent: &mut Lent) -> Reply {
    between_guards(request.set, |set| answer(request, set, lent))
}

pub fn call_upload(request: &Request, lent: &mut LentUpload) -> Reply {
    between_guards(request.set, |part| upload_answer(request, part, lent))
}

/// Lends a set or a part between guard bytes, at an address of any remainder by 16.
fn between_guards(set: &[u8], call: impl FnOnce(&[u8]) -> Answer) -> Reply {
    let (from, len) = (1 + set.len() % 13, set.len());
    let mut bytes = vec![1; len + 32];
    bytes[from..from + len].copy_from_slice(set);
    let before = bytes.clone();
    let (number, fields) = call(&bytes[from..from + len]);
    Reply {
        number: number as u64,
        fields,
        kept: bytes == before,
    }
}

/// The upload that is lent stands between two others.
fn upload_answer(request: &Request, part: &[u8], lent: &mut LentUpload) -> Answer {
    let upload = |[held, over, closed]: [u64; 3]| rack::Upload { held, over, closed };
    let mut uploads = lent.uploads.map(upload);
    let ([m, p, q, _], room) = (request.numbers, lent.room());
    let answer = match request.entry {
        Entry::Part => (uploads[1].part(room, part), [0; 5]),
        Entry::Close => verdict(uploads[1].close(room, m, p, q)),
        _ => {
            uploads[1] = rack::Upload::begin();
            (rack::Number::Ok, [0; 5])
        }
    };
    lent.uploads = uploads.map(|upload| [upload.held, upload.over, upload.closed]);
    answer
}

fn verdict(given: rack::Verdict) -> Answer {
    let fields = [given.place, given.x, given.w, given.p, given.q];
    (given.number, fields)
}

fn answer(request: &Request, set: &[u8], lent: &mut Lent) -> Answer {
    let [a, b, c, d] = request.numbers;
    let task = a as usize;
    match request.entry {
        Entry::Judge => verdict(rack::judge(set, a, b, c)),
        Entry::Figures => {
            let given = rack::figures(set, task);
            let fields = [given.place, given.length, given.volume, 0, 0];
            (given.number, fields)
        }
        Entry::Demand => {
            let given = rack::demand(set, task, b, c, d);
            (given.number, [given.place, given.work, 0, 0, 0])
        }
        _ => {
            let given = rack::layers(set, task, b, c, lent.table());
            (given.number, [given.place, given.pairs, 0, 0, 0])
        }
    }
}
