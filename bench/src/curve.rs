//! A task's remaining work as one list of straight pieces, made once by merging.
//!
//! A curve is a list of turns in z, the ticks gone since the latest that a task can start and still be in
//! time: z = q·length - y, where y is what remains until the deadline. At z = 0 nothing is due; a job adds
//! one unit a tick between its latest start and its latest end, seen from the end. The sum of two curves
//! has the turns of both. The larger of two arms is a sweep over the turns of both; where they cross inside
//! a tick, that tick is a piece of its own.

use crate::read::{members, Task};

/// Where the slope changes, and by how much, in one word that sorts by place.
fn turn(z: u32, by: i32) -> u64 {
    u64::from(z) << 32 | u64::from(by as u32 ^ 1 << 31)
}

fn place(turn: u64) -> u32 {
    (turn >> 32) as u32
}

fn change(turn: u64) -> i32 {
    (turn as u32 ^ 1 << 31) as i32
}

/// From `from` on, the value grows by `slope` a tick.
#[derive(Clone, Copy, Debug)]
pub struct Piece {
    pub from: u32,
    pub slope: u32,
    pub value: u64,
}

/// Makes curves; the lists are kept between calls.
#[derive(Default)]
pub struct Maker {
    turns: Vec<u64>,
    larger: Vec<u64>,
}

impl Maker {
    /// Appends the pieces of the task's part of a period, by ticks since its begin.
    pub fn pieces(&mut self, task: &Task, p: u64, q: u64, pieces: &mut Vec<Piece>) {
        self.turns.clear();
        self.sum(task, q as u32, task.top);
        let lead = (p * task.deadline - q * task.length) as u32;
        let first = pieces.len();
        let (mut from, mut slope, mut value) = (0, 0, 0);
        for &turn in &self.turns {
            let next = lead + place(turn);
            if next > from {
                let same = pieces[first..]
                    .last()
                    .is_some_and(|piece| piece.slope == slope);
                if !same {
                    pieces.push(Piece { from, slope, value });
                }
                value += u64::from(slope) * u64::from(next - from);
                from = next;
            }
            slope = slope.wrapping_add_signed(change(turn));
        }
        pieces.push(Piece { from, slope, value });
    }

    /// Appends the turns of the vertices `own`, with the larger arm at each choice among them.
    fn sum(&mut self, task: &Task, q: u32, own: u64) {
        let (at, length) = (self.turns.len(), task.length as u32);
        for v in members(own) {
            let (time, after) = (task.time[v], length - task.end[v]);
            if time != 0 {
                self.turns.push(turn(q * after, 1));
                self.turns.push(turn(q * (after + time), -1));
            }
        }
        for [one, two] in task.choices(own) {
            let first = self.turns.len();
            self.sum(task, q, one);
            let second = self.turns.len();
            self.sum(task, q, two);
            sweep(
                &self.turns[first..second],
                &self.turns[second..],
                &mut self.larger,
            );
            self.turns.truncate(first);
            self.turns.extend_from_slice(&self.larger);
        }
        self.turns[at..].sort_unstable();
    }
}

/// One of the two arms at the place of the sweep.
#[derive(Clone, Copy)]
struct Arm {
    value: i64,
    slope: i64,
}

impl Arm {
    fn on(self, ticks: u32) -> i64 {
        self.value + self.slope * i64::from(ticks)
    }
}

/// The turns of what comes out.
struct Out<'a> {
    turns: &'a mut Vec<u64>,
    slope: i64,
}

impl Out<'_> {
    fn goes_on(&mut self, z: u32, slope: i64) {
        if slope != self.slope {
            self.turns.push(turn(z, (slope - self.slope) as i32));
            self.slope = slope;
        }
    }

    /// The larger of two arms from z on, for some ticks in which neither turns.
    fn stretch(&mut self, z: u32, ticks: u32, one: Arm, two: Arm) {
        let (ahead, nearing) = (one.value - two.value, one.slope - two.slope);
        let one_leads = ahead > 0 || (ahead == 0 && nearing >= 0);
        let (lead, other) = if one_leads { (one, two) } else { (two, one) };
        self.goes_on(z, lead.slope);
        if other.on(ticks) <= lead.on(ticks) {
            return;
        }
        let (gap, gain) = (lead.value - other.value, other.slope - lead.slope);
        let (cross, inside) = ((gap / gain) as u32, gap % gain != 0);
        if inside {
            self.goes_on(z + cross, other.on(cross + 1) - lead.on(cross));
            self.goes_on(z + cross + 1, other.slope);
        } else {
            self.goes_on(z + cross, other.slope);
        }
    }
}

/// The turns of the larger of two curves.
fn sweep(ones: &[u64], twos: &[u64], turns: &mut Vec<u64>) {
    turns.clear();
    let mut out = Out { turns, slope: 0 };
    let still = Arm { value: 0, slope: 0 };
    let (mut one, mut two) = (still, still);
    let (mut z, mut i, mut j) = (0, 0, 0);
    loop {
        let next = |turns: &[u64], at: usize| turns.get(at).map_or(u32::MAX, |turn| place(*turn));
        let (next_one, next_two) = (next(ones, i), next(twos, j));
        let to = next_one.min(next_two);
        if to == u32::MAX {
            break out.goes_on(z, 0);
        }
        if to > z {
            out.stretch(z, to - z, one, two);
            (one.value, two.value) = (one.on(to - z), two.on(to - z));
            z = to;
        }
        if next_one == to {
            one.slope += i64::from(change(ones[i]));
            i += 1;
        } else {
            two.slope += i64::from(change(twos[j]));
            j += 1;
        }
    }
}
