//! The speed that 0/0 stands for, in plain Rust.

use crate::answer::Call;
use crate::read::Task;

const MOST_Q: u64 = 31;

impl Call {
    /// Whether processors and speed are in range; 0/0 is.
    pub fn in_range(self) -> bool {
        let Call { m, p, q } = self;
        let speed = (p, q) == (0, 0) || (1 <= p && p <= q && q <= MOST_Q);
        speed && (1..=16).contains(&m)
    }

    /// The call with the speed that it is judged at.
    pub fn named(self, tasks: &[Task]) -> Call {
        if self.q > 0 {
            return self;
        }
        let (p, q) = at_least(densest(tasks, self.m));
        Call { p, q, ..self }
    }
}

/// The largest of m/(2m-1) and every length/deadline.
fn densest(tasks: &[Task], m: u64) -> (u64, u64) {
    let larger = |(a, b): (u64, u64), task: &Task| match task.length * b > a * task.deadline {
        true => (task.length, task.deadline),
        false => (a, b),
    };
    tasks.iter().fold((m, 2 * m - 1), larger)
}

/// The smallest speed of at least a/b, in lowest terms: the first q that has it. Where a/b is above
/// 1 it is 1/1, at which the first task whose length exceeds its deadline is the first dense one.
fn at_least((a, b): (u64, u64)) -> (u64, u64) {
    let mut smallest = (1, 1);
    for q in 2..=MOST_Q {
        let p = (a * q).div_ceil(b);
        if p * smallest.1 < smallest.0 * q {
            smallest = (p, q);
        }
    }
    smallest
}
