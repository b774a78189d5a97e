//! The largest over every history of a small task, by a search over the ticks of its releases.
//!
//! Why that is every history that can matter. What a history runs inside is a sum over its releases,
//! and none holds up another; so at each tick the way that runs the most inside is as good as any,
//! whatever the other releases are. A release after the interval's end is due outside. That leaves
//! the lists of ticks up to the end, at least a period apart; and from each tick on, a list either
//! has a release there and the next a period later or after that, or it has none there. An interval
//! that begins a deadline after tick 0 has room before it for every release that can count; one that
//! begins later has the same ones, shifted, and one that begins earlier has fewer.

use super::running::Running;
use super::{Interval, Release, Spared};
use crate::realization::ways;

/// A task is small if a period has at most so many ticks, and the choices so many ways.
const FEW_TICKS: u64 = 60;
const FEW_WAYS: usize = 32;

/// All ways of a small task, and how they run.
pub struct Ways<'a> {
    spared: Spared<'a>,
    ways: Vec<Vec<bool>>,
    running: Vec<Running>,
}

/// The most work that a release at some tick can run inside, and the number of a way that does.
type Best = (u64, usize);

impl<'a> Ways<'a> {
    /// None if the task is not small.
    pub fn of(spared: Spared<'a>) -> Option<Ways<'a>> {
        if spared.period > FEW_TICKS {
            return None;
        }
        let ways = ways(spared.task, FEW_WAYS)?;
        let running = ways.iter().map(|way| Running::of(&spared, way)).collect();
        Some(Ways {
            spared,
            ways,
            running,
        })
    }

    /// A history that runs the most inside, and how much that is.
    pub fn largest(&self, interval: Interval) -> (u64, Vec<Release>) {
        let last = interval.a + interval.x;
        let best: Vec<Best> = (0..=last).map(|tick| self.best(tick, interval)).collect();
        let period = self.spared.period as usize;
        // By the releases from a tick on; beyond the last there are none that count.
        let mut most = vec![0; best.len() + period];
        for tick in (0..best.len()).rev() {
            let released = best[tick].0 + most[tick + period];
            most[tick] = released.max(most[tick + 1]);
        }
        (most[0], self.history(&best, &most))
    }

    fn best(&self, tick: u64, interval: Interval) -> Best {
        let running = self.running.iter();
        let inside = running.map(|running| self.spared.release_inside(tick, running, interval));
        let numbered = inside.zip(0..);
        numbered.max().expect("a task has a way")
    }

    /// The releases that make up the most from tick 0 on.
    fn history(&self, best: &[Best], most: &[u64]) -> Vec<Release> {
        let mut releases = Vec::new();
        let mut tick = 0;
        while most[tick] > 0 {
            if most[tick] == most[tick + 1] {
                tick += 1;
                continue;
            }
            let way = self.ways[best[tick].1].clone();
            releases.push(Release {
                tick: tick as u64,
                way,
            });
            tick += self.spared.period as usize;
        }
        releases
    }
}
