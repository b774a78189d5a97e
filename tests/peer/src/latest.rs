//! The second method, for graphs with too many realizations to list: latest ends, and the larger of
//! the two arms at each tick by itself.
//!
//! Why it is right. Let L(v) be the longest path to v through the whole graph. A path goes through at
//! most one arm of each choice, since an arm is left by its end only; so some realization has it, and
//! L(v) is the latest end of v.
//!
//! Not more: in any realization v ends at L(v) or before, and what a job has left at a tick never falls
//! when it ends later. So what remains at tick x is at most the sum, over the present vertices, of what
//! they would have left if they ended at L. Taking the larger arm sum at each choice is at least that.
//!
//! Not less: fix x. At each choice take the arm with the larger sum at x; where both sums are 0, take the
//! arm with the later latest end. Claim: each present v starts at its latest start, if both are cut off
//! at x. What a job has left at x depends on the start so cut off, so this realization has the sum. By
//! induction over v: the claim passes from all predecessors to a vertex, by the largest of their ends. At
//! the end of a choice only the taken arm leads in. If its sum is above 0, some vertex of it ends after x
//! at the latest, so does its last vertex, and the end starts at x cut off, as late as can be. If its sum
//! is 0, so is the other one, and the arm with the later end was taken.

use crate::records::{Role, Task};

/// The vertices of an arm, or of the whole graph, that are in no choice inside it; and those choices.
pub struct Block {
    jobs: Vec<Job>,
    choices: Vec<[Block; 2]>,
}

/// In time units.
struct Job {
    vertex: usize,
    time: u64,
    latest: u64,
}

/// L of each vertex.
pub fn latest_ends(task: &Task) -> Vec<u64> {
    let mut ends: Vec<u64> = Vec::new();
    for vertex in 0..task.vertices.len() {
        let before = task.graph.before[vertex].iter();
        let start = before.map(|from| ends[*from]).max().unwrap_or(0);
        ends.push(start + task.vertices[vertex].time);
    }
    ends
}

pub fn length(task: &Task) -> u64 {
    latest_ends(task).into_iter().max().unwrap_or(0)
}

/// The realization of "Not less" above, by who is present: it has the most left at tick x.
pub fn most_left(task: &Task, q: u64, x: u64) -> Vec<bool> {
    let mut present = vec![false; task.vertices.len()];
    Block::of(task).take_larger(q, x, &mut present);
    present
}

impl Block {
    pub fn of(task: &Task) -> Block {
        Block::within(task, &latest_ends(task), &vec![true; task.vertices.len()])
    }

    /// Starts come before their arms, so what is in an arm is known when the walk comes to it.
    fn within(task: &Task, latest: &[u64], members: &[bool]) -> Block {
        let mut in_arm = vec![false; members.len()];
        let (mut jobs, mut choices) = (Vec::new(), Vec::new());
        for vertex in 0..members.len() {
            if !members[vertex] || in_arm[vertex] {
                continue;
            }
            jobs.push(Job {
                vertex,
                time: task.vertices[vertex].time,
                latest: latest[vertex],
            });
            if task.vertices[vertex].role == Role::Start {
                let all = task.graph.choices.iter();
                let choice = all.clone().find(|choice| choice.start == vertex);
                let arms = &choice.expect("each start has a choice").arms;
                (0..in_arm.len()).for_each(|v| in_arm[v] |= arms[0][v] || arms[1][v]);
                choices.push([0, 1].map(|arm| Block::within(task, latest, &arms[arm])));
            }
        }
        Block { jobs, choices }
    }

    /// The largest that can remain at tick x, in units of work.
    pub fn remaining(&self, q: u64, x: u64) -> u64 {
        let jobs = self.jobs.iter();
        let own: u64 = jobs
            .map(|job| (q * job.latest).saturating_sub(x).min(q * job.time))
            .sum();
        let choices = self.choices.iter();
        let larger = choices.map(|[one, other]| one.remaining(q, x).max(other.remaining(q, x)));
        own + larger.sum::<u64>()
    }

    /// At each choice the arm with the larger sum at x; of two without any, the one that ends later.
    fn take_larger(&self, q: u64, x: u64, present: &mut [bool]) {
        self.jobs.iter().for_each(|job| present[job.vertex] = true);
        for [one, other] in &self.choices {
            let worth = |arm: &Block| (arm.remaining(q, x), arm.latest_end());
            let taken = match worth(one) < worth(other) {
                true => other,
                false => one,
            };
            taken.take_larger(q, x, present);
        }
    }

    /// That of its last vertex, which is in no choice inside.
    fn latest_end(&self) -> u64 {
        self.jobs.iter().map(|job| job.latest).max().unwrap_or(0)
    }
}
