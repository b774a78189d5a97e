//! The graph rules over vertex sets as 64-bit words, and the arms that they are about.
//!
//! Starts are taken from the highest down, so that the choices inside an arm are known when the arm is
//! walked: each is stepped over as a whole. A graph rule broken anywhere is number 4 at one place, so the
//! order of the rules does not matter.

use crate::read::{members, Task};

pub fn bit(v: usize) -> u64 {
    1 << v
}

/// What the records of one task say about its graph.
pub struct Links {
    pub n: usize,
    /// The vertices with an edge out, and those with an edge in.
    pub left: u64,
    pub entered: u64,
    before: [u64; 64],
    after: [u64; 64],
    mates: [u8; 64],
    starts: u64,
    ends: u64,
    /// For each start that has been judged: all that is in its arms, and the volume of the larger arm.
    inside: [u64; 64],
    larger: [u32; 64],
}

/// An arm: all of it, what is in no choice inside it, and its volume.
#[derive(Clone, Copy)]
struct Arm {
    all: u64,
    own: u64,
    volume: u32,
}

impl Links {
    pub fn new() -> Links {
        Links {
            n: 0,
            left: 0,
            entered: 0,
            before: [0; 64],
            after: [0; 64],
            mates: [0; 64],
            starts: 0,
            ends: 0,
            inside: [0; 64],
            larger: [0; 64],
        }
    }

    pub fn clear(&mut self, n: usize) {
        self.n = n;
        self.before[..n].fill(0);
        self.after[..n].fill(0);
        (self.starts, self.ends) = (0, 0);
    }

    /// Notes a role and a mate that are not both 0; false where the record table forbids them.
    pub fn pair(&mut self, v: usize, role: u64, mate: usize) -> bool {
        let fits = match role {
            1 => v < mate && mate < self.n,
            2 => mate < v,
            _ => false,
        };
        if fits {
            self.mates[v] = mate as u8;
            match role {
                1 => self.starts |= bit(v),
                _ => self.ends |= bit(v),
            }
        }
        fits
    }

    pub fn join(&mut self, from: usize, to: usize) {
        self.after[from] |= bit(to);
        self.before[to] |= bit(from);
    }

    /// G1 to G6; the task's arms, volume and length where they hold.
    pub fn judge(&mut self, task: &mut Task) -> bool {
        let (all, last) = (Task::whole(self.n), bit(self.n - 1));
        if self.entered != all & !1 || self.left != all & !last {
            return false;
        }
        task.starts = self.starts;
        if !self.judge_choices(task) {
            return false;
        }
        let in_arms = members(self.starts).fold(0, |sum, s| sum | self.inside[s]);
        task.top = all & !in_arms;
        let jobs = members(task.top).map(|v| task.time[v]);
        let choices = members(task.top & self.starts).map(|s| self.larger[s]);
        task.volume = u64::from(jobs.chain(choices).sum::<u32>());
        task.length = u64::from(task.end[self.n - 1]);
        true
    }

    /// As many ends as starts, and each start's mate names it back: so does each end's.
    fn judge_choices(&mut self, task: &mut Task) -> bool {
        let mut left = self.starts;
        while left != 0 {
            let s = 63 - left.leading_zeros() as usize;
            left ^= bit(s);
            if !self.judge_choice(s, task) {
                return false;
            }
        }
        self.starts.count_ones() == self.ends.count_ones()
    }

    fn judge_choice(&mut self, s: usize, task: &mut Task) -> bool {
        let e = self.mates[s] as usize;
        if self.ends & bit(e) == 0 || self.mates[e] as usize != s {
            return false;
        }
        let firsts = self.after[s];
        if firsts.count_ones() != 2 || firsts & bit(e) != 0 || self.before[e].count_ones() != 2 {
            return false;
        }
        let first = firsts.trailing_zeros() as usize;
        let second = 63 - firsts.leading_zeros() as usize;
        let (Some(one), Some(two)) = (self.arm(first, s, task), self.arm(second, s, task)) else {
            return false;
        };
        if one.all & two.all != 0 {
            return false;
        }
        self.inside[s] = one.all | two.all;
        self.larger[s] = one.volume.max(two.volume);
        task.own[s] = [one.own, two.own];
        true
    }

    /// The arm of `s` that begins at `first`, unless it breaks G4, G5 or G6. By G5 all of an arm lies
    /// below the end: its highest vertex has no edge to another, so it is the one that leads to the end.
    fn arm(&self, first: usize, s: usize, task: &Task) -> Option<Arm> {
        let e = self.mates[s] as usize;
        let (mut all, mut own, mut entries, mut volume) = (0, 0, 0, 0);
        let mut next = bit(first);
        while next != 0 {
            let v = next.trailing_zeros() as usize;
            if v > e {
                return None;
            }
            next ^= bit(v);
            own |= bit(v);
            entries |= self.before[v];
            volume += task.time[v];
            if self.starts & bit(v) == 0 {
                next |= self.after[v] & !bit(e);
                continue;
            }
            all |= self.inside[v];
            volume += self.larger[v];
            next |= bit(self.mates[v] as usize) & !bit(e);
        }
        all |= own;
        let closed = (self.before[e] & all).is_power_of_two();
        let shut = entries & !(all | bit(s)) == 0;
        (closed && shut && all & bit(e) == 0).then_some(Arm { all, own, volume })
    }
}
