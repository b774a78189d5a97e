//! The work of a history inside an interval, held against the library's demand.

use super::{Interval, Release, Spared};
use crate::compare::{same, Disagreement};
use crate::entries::Demanded;
use crate::library;
use crate::speed::Speed;
use crate::verdict::Row;

/// A task as the library is asked for it: the set, and its number there.
pub struct Asked<'a> {
    set: &'a [u8],
    number: usize,
    pub spared: Spared<'a>,
    row: Row,
}

/// A history, an interval, and the work that the one runs inside the other.
pub struct Trial {
    pub history: Vec<Release>,
    pub interval: Interval,
    pub work: u64,
}

impl<'a> Asked<'a> {
    pub fn new(set: &'a [u8], number: usize, spared: Spared<'a>) -> Asked<'a> {
        Asked {
            set,
            number,
            spared,
            row: Row::of(spared.task, spared.speed),
        }
    }

    pub fn run(&self, history: Vec<Release>, interval: Interval) -> Trial {
        Trial {
            work: self.spared.work_inside(&history, interval),
            history,
            interval,
        }
    }

    /// Whether the work is as much as the demand. It must not be more.
    pub fn reaches(&self, what: &str, trial: &Trial) -> Result<bool, Disagreement> {
        let demand = self.demand(trial.interval.x)?;
        if trial.work > demand {
            return Err(self.disagreement(what, trial, demand));
        }
        Ok(trial.work == demand)
    }

    pub fn must_reach(&self, what: &str, trial: &Trial) -> Result<(), Disagreement> {
        let demand = self.demand(trial.interval.x)?;
        if trial.work != demand {
            return Err(self.disagreement(what, trial, demand));
        }
        Ok(())
    }

    /// The library's demand, which must be the peer's.
    fn demand(&self, x: u64) -> Result<u64, Disagreement> {
        let Speed { p, q } = self.spared.speed;
        let work = self.row.demand(x);
        let peer = Demanded {
            number: 0,
            place: 0,
            work,
        };
        let text = format!("task {}, speed {p}/{q}, x {x}", self.number);
        let library = library::demand(self.set, self.number, p, q, x);
        same("demand", &text, peer, library)?;
        Ok(work)
    }

    fn disagreement(&self, what: &str, trial: &Trial, demand: u64) -> Disagreement {
        let (Speed { p, q }, Interval { a, x }) = (self.spared.speed, trial.interval);
        let (number, end, history) = (self.number, a + x, in_words(&trial.history));
        Disagreement {
            entry: what.to_string(),
            call: format!("task {number}, speed {p}/{q}, from {a} to {end}, {history}"),
            peer: format!("{} units run inside", trial.work),
            library: format!("the demand at x {x} is {demand}"),
        }
    }
}

fn in_words(history: &[Release]) -> String {
    let releases: Vec<String> = history.iter().map(release_in_words).collect();
    match history {
        [] => "no release".to_string(),
        _ => format!("released {}", releases.join("; ")),
    }
}

/// The tick, and the vertices that are present.
fn release_in_words(release: &Release) -> String {
    let present = (0..release.way.len()).filter(|vertex| release.way[*vertex]);
    let present: Vec<String> = present.map(|vertex| vertex.to_string()).collect();
    format!("at {} with vertices {}", release.tick, present.join(" "))
}
