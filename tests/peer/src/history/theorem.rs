//! The history that reaches the demand, as the theorem of request 12 has it.

use super::{Interval, Release, Spared};
use crate::latest::most_left;

/// Releases a period apart, the last of them due where the interval ends. With x = k·P + r the first
/// is due r ticks after the interval begins, and has a way with the most left there; the other k run
/// inside as a whole, with a way of the largest volume. The interval must begin a deadline after tick
/// 0 or later. Ways are proposed by the second method; what they run is for the simulation to say.
pub fn history(spared: &Spared, interval: Interval) -> Vec<Release> {
    let (k, r) = (interval.x / spared.period, interval.x % spared.period);
    let first = interval.a - spared.deadline + r;
    let way = |tick| most_left(spared.task, spared.speed.q, tick);
    let mut releases = vec![Release {
        tick: first,
        way: way(spared.deadline.saturating_sub(r)),
    }];
    releases.extend((1..=k).map(|later| Release {
        tick: first + later * spared.period,
        way: way(0),
    }));
    releases
}
