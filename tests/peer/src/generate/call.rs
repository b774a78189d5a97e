//! The numbers of a call: mostly in range, so that verdicts are reached, sometimes at an end or beyond.

use crate::numbers::Numbers;
use sets::draft::Draft;

#[derive(Clone, Copy, Debug)]
pub struct Call {
    pub m: u64,
    /// Judge's speed.
    pub p: u64,
    pub q: u64,
    pub task: usize,
    /// The speed of demand and layers; judge's own, save where that is 0/0.
    pub task_p: u64,
    pub task_q: u64,
    pub x: u64,
    pub words: Words,
}

/// How many words to lend to layers.
#[derive(Clone, Copy, Debug)]
pub enum Words {
    Count(usize),
    /// So many more than the pairs take, or fewer.
    BeyondPairs(isize),
}

const ODD_M: [u64; 7] = [0, 17, 18, 255, 256, (1 << 32) + 2, u64::MAX];
const ODD_SPEEDS: [(u64, u64); 14] = [
    (0, 1),
    (0, 31),
    (1, 0),
    (31, 0),
    (2, 1),
    (31, 30),
    (32, 32),
    (1, 32),
    (31, 32),
    (32, 31),
    (1, u64::MAX),
    (u64::MAX, u64::MAX),
    ((1 << 32) + 1, (1 << 32) + 1),
    (0, u64::MAX),
];
const LARGEST_X: u64 = 1_550_000;

pub fn random(numbers: &mut Numbers) -> Call {
    let (p, q) = speed(numbers);
    let (task_p, task_q) = task_speed(numbers, (p, q));
    Call {
        m: processors(numbers),
        p,
        q,
        task: task(numbers),
        task_p,
        task_q,
        x: tick(numbers),
        words: words(numbers),
    }
}

fn processors(numbers: &mut Numbers) -> u64 {
    match numbers.below(20) {
        0 => numbers.pick(&ODD_M),
        1 => 16,
        2..=12 => numbers.between(1, 4),
        _ => numbers.between(1, 16),
    }
}

fn speed(numbers: &mut Numbers) -> (u64, u64) {
    match numbers.below(20) {
        0 => numbers.pick(&ODD_SPEEDS),
        1..=3 => (0, 0),
        _ => fair_speed(numbers),
    }
}

fn task_speed(numbers: &mut Numbers, judged: (u64, u64)) -> (u64, u64) {
    match judged {
        (0, 0) if numbers.once_in(8) => (0, 0),
        (0, 0) => fair_speed(numbers),
        named => named,
    }
}

pub fn fair_speed(numbers: &mut Numbers) -> (u64, u64) {
    match numbers.below(10) {
        0 => (31, 31),
        1 => (2, 2),
        2 | 3 => (1, 1),
        4 => (1, numbers.between(1, 31)),
        5..=7 => {
            let q = numbers.between(1, 6);
            (numbers.between(q.div_ceil(2), q), q)
        }
        _ => {
            let q = numbers.between(1, 31);
            (numbers.between(1, q), q)
        }
    }
}

fn task(numbers: &mut Numbers) -> usize {
    match numbers.below(40) {
        0 => usize::MAX,
        1 => 1 << 32,
        2 => 32,
        3 => 31,
        4..=7 => numbers.index(8),
        8..=20 => numbers.index(2),
        _ => 0,
    }
}

fn tick(numbers: &mut Numbers) -> u64 {
    match numbers.below(24) {
        0 => numbers.pick(&[LARGEST_X - 1, LARGEST_X, LARGEST_X + 1]),
        1 => numbers.pick(&[u64::MAX, 1 << 32, 1 << 63, 2_000_000]),
        2 | 3 => numbers.below(LARGEST_X + 1),
        4..=7 => numbers.below(50_000),
        8..=15 => numbers.below(1_000),
        _ => numbers.below(60),
    }
}

fn words(numbers: &mut Numbers) -> Words {
    match numbers.below(8) {
        0 => Words::Count(0),
        1 => Words::Count(numbers.index(200)),
        2 | 3 => Words::BeyondPairs(-1),
        4 | 5 => Words::BeyondPairs(0),
        6 => Words::BeyondPairs(1),
        _ => Words::BeyondPairs(numbers.between(2, 20) as isize),
    }
}

impl Call {
    /// A call in range, with the processors and the speed given.
    pub fn fair(numbers: &mut Numbers, m: u64, (p, q): (u64, u64)) -> Call {
        let (task_p, task_q) = task_speed(numbers, (p, q));
        Call {
            m,
            p,
            q,
            task_p,
            task_q,
            ..random(numbers)
        }
    }

    /// The processors and the speed to make tasks for: the call's own, where they are in range, and
    /// the least that 0/0 may stand for.
    pub fn rate(&self) -> (u64, u64, u64) {
        let m = if (1..=16).contains(&self.m) {
            self.m
        } else {
            1
        };
        match (self.p, self.q) {
            (0, 0) => (m, m, 2 * m - 1),
            (p, q) if 1 <= p && p <= q && q <= 31 => (m, p, q),
            _ => (m, 1, 1),
        }
    }

    /// Often moves x to where the demand of the task asked for turns: a release or a deadline.
    pub fn aim(&mut self, numbers: &mut Numbers, drafts: &[Draft]) {
        let (_, p, _) = self.rate();
        let Some(draft) = drafts.get(self.task) else {
            return;
        };
        if numbers.once_in(2) && self.x <= LARGEST_X {
            let (period, deadline) = (p * u64::from(draft.period), p * u64::from(draft.deadline));
            let turn = period * numbers.below(4) + numbers.pick(&[0, deadline, deadline / 2]);
            self.x = (turn + numbers.below(5)).saturating_sub(2);
        }
    }
}
