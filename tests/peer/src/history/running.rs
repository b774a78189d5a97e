//! A way that runs tick by tick, with no limit on processors.

use super::Spared;
use crate::records::Task;

/// How many vertices run in each tick from the release on, until all have ended.
pub struct Running {
    pub vertices: Vec<u64>,
}

impl Running {
    /// `way` says who is present.
    pub fn of(spared: &Spared, way: &[bool]) -> Running {
        let times = spared.task.vertices.iter().map(|vertex| vertex.time);
        let mut left: Vec<u64> = times
            .zip(way)
            .map(|(time, present)| if *present { spared.speed.q * time } else { 0 })
            .collect();
        let mut vertices = Vec::new();
        while left.iter().any(|ticks| *ticks > 0) {
            vertices.push(run_tick(spared.task, way, &mut left));
        }
        Running { vertices }
    }
}

/// Lets one tick pass, and counts the vertices that run in it. Edges rise, so all that a vertex waits
/// for were asked before it whether they had ended when the tick began; an absent one keeps nobody
/// waiting, and one with no time left ends as soon as it is ready.
fn run_tick(task: &Task, way: &[bool], left: &mut [u64]) -> u64 {
    let mut ended = vec![true; left.len()];
    let mut running = 0;
    for vertex in (0..left.len()).filter(|vertex| way[*vertex]) {
        let ready = task.graph.before[vertex].iter().all(|from| ended[*from]);
        ended[vertex] = ready && left[vertex] == 0;
        if ready && left[vertex] > 0 {
            left[vertex] -= 1;
            running += 1;
        }
    }
    assert!(running > 0, "a vertex waits for ever");
    running
}
