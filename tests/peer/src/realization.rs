//! The first method: list every realization, run it on unlimited processors, and look at it.

use crate::records::Task;
use std::sync::atomic::{AtomicU64, Ordering};

/// How many realizations were run, for the summary.
static SIMULATED: AtomicU64 = AtomicU64::new(0);

pub fn simulated() -> u64 {
    SIMULATED.load(Ordering::Relaxed)
}

/// One realization: who is present, and when each of them ends, in time units.
pub struct Realization {
    present: Vec<bool>,
    ends: Vec<u64>,
}

/// Every realization of the task, or none if there are more than `most`.
pub fn realizations(task: &Task, most: usize) -> Option<Vec<Realization>> {
    let ways = ways(task, most)?;
    SIMULATED.fetch_add(ways.len() as u64, Ordering::Relaxed);
    Some(
        ways.into_iter()
            .map(|present| simulate(task, present))
            .collect(),
    )
}

/// The ways through the choices, as sets of present vertices, or none if there are more than `most`.
/// Choices come in the order of their starts, so a choice in an arm comes after the one around it, and
/// is passed over if that arm is untaken.
pub fn ways(task: &Task, most: usize) -> Option<Vec<Vec<bool>>> {
    let mut ways = vec![vec![true; task.vertices.len()]];
    for choice in &task.graph.choices {
        let mut longer = Vec::new();
        for way in ways {
            if !way[choice.start] {
                longer.push(way);
                continue;
            }
            for untaken in &choice.arms {
                longer.push((0..way.len()).map(|v| way[v] && !untaken[v]).collect());
            }
        }
        if longer.len() > most {
            return None;
        }
        ways = longer;
    }
    Some(ways)
}

/// A present vertex starts when its last present predecessor ends. Edges rise, so predecessors come first.
fn simulate(task: &Task, present: Vec<bool>) -> Realization {
    let mut ends = vec![0; present.len()];
    for vertex in (0..present.len()).filter(|vertex| present[*vertex]) {
        let before = task.graph.before[vertex].iter();
        let last = before
            .filter(|from| present[**from])
            .map(|from| ends[*from])
            .max();
        assert!(vertex == 0 || last.is_some(), "nothing leads to a vertex");
        ends[vertex] = last.unwrap_or(0) + task.vertices[vertex].time;
    }
    Realization { present, ends }
}

impl Realization {
    fn vertices(&self) -> impl Iterator<Item = usize> + '_ {
        (0..self.present.len()).filter(|vertex| self.present[*vertex])
    }

    pub fn length(&self) -> u64 {
        self.vertices()
            .map(|vertex| self.ends[vertex])
            .max()
            .unwrap_or(0)
    }

    pub fn volume(&self, task: &Task) -> u64 {
        self.vertices()
            .map(|vertex| task.vertices[vertex].time)
            .sum()
    }

    /// What remains at each tick from 0 to `ticks`: each running job does one unit in each tick, so
    /// what remains is all that runs from there on.
    pub fn remaining(&self, task: &Task, q: u64, ticks: usize) -> Vec<u64> {
        let (mut begin, mut finish) = (vec![0u64; ticks + 1], vec![0u64; ticks + 1]);
        for vertex in self.vertices() {
            let end = self.ends[vertex];
            begin[(q * (end - task.vertices[vertex].time)) as usize] += 1;
            finish[(q * end) as usize] += 1;
        }
        let mut remaining = vec![0; ticks + 1];
        let (mut running, mut rest) = (0, 0);
        for tick in (0..ticks).rev() {
            running = running + finish[tick + 1] - begin[tick + 1];
            rest += running;
            remaining[tick] = rest;
        }
        remaining
    }
}
