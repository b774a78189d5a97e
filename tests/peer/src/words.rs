//! A set to words and back, which must be the same bytes.

use sets::{listing, words};

/// Whether the set has words. A set that a mill may come to hold (a readable one, or what a listing
/// makes) must have them; any other may be beyond the notation, as a record of kind 9.
pub fn and_back(set: &[u8], must: bool) -> Result<bool, String> {
    let text = match words::of(set) {
        Ok(text) => text,
        Err(_) if !must => return Ok(false),
        Err(fault) => return Err(fault.in_file("no words")),
    };
    let listing = listing::read(&text).map_err(|fault| fault.in_file("its words"))?;
    match first_difference(set, &listing.set()) {
        None => Ok(true),
        Some(byte) => Err(format!("its words make other bytes, from byte {byte} on")),
    }
}

/// The first byte in which they differ; where one is the front of the other, the byte behind it.
pub fn first_difference(one: &[u8], other: &[u8]) -> Option<usize> {
    if one == other {
        return None;
    }
    let same = one
        .iter()
        .zip(other)
        .take_while(|(one, other)| one == other);
    Some(same.count())
}
