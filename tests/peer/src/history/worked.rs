//! X of document 01, whose history for an interval of 72 ticks at 1/1 is worked out by hand.

use super::every::Ways;
use super::{theorem, Interval, Spared};
use crate::listing::read_listing;
use crate::records::read;
use crate::speed::Speed;
use std::path::Path;
use std::slice::from_ref;

/// The ticks of the releases, and what each runs inside. The first has run for 3 ticks when the
/// interval begins: its start in one, and the three jobs of 8 in two. That is 7 of 25 units, and 18
/// are left. It is due 12 ticks later. The others run inside as a whole, and the last is due at the
/// end, 72 + 15.
const BY_HAND: [(u64, u64); 4] = [(12, 18), (32, 25), (52, 25), (72, 25)];
const INTERVAL: Interval = Interval { a: 15, x: 72 };
const LENGTH: u64 = 11;

pub fn check_x(examples: &Path) -> Result<(), String> {
    let set = read_listing(examples, "x")?.set();
    let tasks = read(&set).map_err(|refusal| format!("x: {refusal:?}"))?;
    let spared = Spared::at(&tasks[0], LENGTH, Speed { p: 1, q: 1 }).expect("11 is within 15");
    let ways = Ways::of(spared).expect("a period of 20 and two ways are few");
    let history = theorem::history(&spared, INTERVAL);
    let run = |release| spared.work_inside(from_ref(release), INTERVAL);
    let runs: Vec<(u64, u64)> = history.iter().map(|one| (one.tick, run(one))).collect();
    let (most, _) = ways.largest(INTERVAL);
    if runs == BY_HAND && most == BY_HAND.iter().map(|(_, work)| work).sum() {
        return Ok(());
    }
    Err(format!(
        "x from 15 to 87: releases and their work {runs:?}, at most {most}; by hand {BY_HAND:?}"
    ))
}
