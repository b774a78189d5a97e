//! The built library, behind safe functions. With each answer goes whether the set, or the part, and
//! the bytes around it were left as they were.

use crate::entries::{Demanded, Figured, Judged, Layered};
use crate::lent::{Lent, LentUpload};

#[cfg(target_arch = "x86_64")]
use crate::linked::{call, call_upload};

#[cfg(not(target_arch = "x86_64"))]
use crate::bridged::{call, call_upload};

/// A call as it goes over: which entry, a set or a part, and its numbers in the order of the header.
pub struct Request<'a> {
    pub entry: Entry,
    pub set: &'a [u8],
    pub numbers: [u64; 4],
}

#[derive(Clone, Copy, PartialEq, Eq)]
pub enum Entry {
    Judge,
    Figures,
    Demand,
    Layers,
    Begin,
    Part,
    Close,
}

/// The number, then the fields in the order of the header.
pub struct Reply {
    pub number: u64,
    pub fields: [u64; 5],
    pub kept: bool,
}

pub fn judge(set: &[u8], m: u64, p: u64, q: u64) -> (Judged, bool) {
    let numbers = [m, p, q, 0];
    judged(call(
        &request(Entry::Judge, set, numbers),
        &mut Lent::new(0, 0),
    ))
}

fn judged(reply: Reply) -> (Judged, bool) {
    let (number, [place, x, w, p, q]) = (reply.number, reply.fields);
    let judged = Judged {
        number,
        place,
        x,
        w,
        p,
        q,
    };
    (judged, reply.kept)
}

pub fn figures(set: &[u8], task: usize) -> (Figured, bool) {
    let numbers = [task as u64, 0, 0, 0];
    let reply = call(&request(Entry::Figures, set, numbers), &mut Lent::new(0, 0));
    let (number, [place, length, volume, ..]) = (reply.number, reply.fields);
    let figured = Figured {
        number,
        place,
        length,
        volume,
    };
    (figured, reply.kept)
}

pub fn demand(set: &[u8], task: usize, p: u64, q: u64, x: u64) -> (Demanded, bool) {
    let numbers = [task as u64, p, q, x];
    let reply = call(&request(Entry::Demand, set, numbers), &mut Lent::new(0, 0));
    let (number, [place, work, ..]) = (reply.number, reply.fields);
    let demanded = Demanded {
        number,
        place,
        work,
    };
    (demanded, reply.kept)
}

/// Lends the table of `lent`, and leaves in it what the library made of it and of the guards.
pub fn layers(set: &[u8], task: usize, p: u64, q: u64, lent: &mut Lent) -> (Layered, bool) {
    let numbers = [task as u64, p, q, 0];
    let reply = call(&request(Entry::Layers, set, numbers), lent);
    let (number, [place, pairs, ..]) = (reply.number, reply.fields);
    let layered = Layered {
        number,
        place,
        pairs,
    };
    (layered, reply.kept)
}

/// Leaves in `lent` a new upload.
pub fn upload_begin(lent: &mut LentUpload) {
    call_upload(&request(Entry::Begin, &[], [0; 4]), lent);
}

/// Lends upload and room, and leaves in `lent` what the library made of them and of the guards.
pub fn upload_part(lent: &mut LentUpload, part: &[u8]) -> (u64, bool) {
    let reply = call_upload(&request(Entry::Part, part, [0; 4]), lent);
    (reply.number, reply.kept)
}

/// As `upload_part`; of the room only a wrong library makes anything.
pub fn upload_close(lent: &mut LentUpload, [m, p, q]: [u64; 3]) -> (Judged, bool) {
    judged(call_upload(&request(Entry::Close, &[], [m, p, q, 0]), lent))
}

fn request(entry: Entry, set: &[u8], numbers: [u64; 4]) -> Request<'_> {
    Request {
        entry,
        set,
        numbers,
    }
}
