//! Speeds: those there are, and the one that 0/0 stands for, found by trying them all.

use crate::curve::figures;
use crate::records::Task;
use std::cmp::Ordering;

pub const LARGEST_Q: u64 = 31;

/// p/q, with 1 <= p <= q <= 31; it is not reduced.
#[derive(Clone, Copy, Debug, PartialEq, Eq)]
pub struct Speed {
    pub p: u64,
    pub q: u64,
}

impl Speed {
    pub fn in_range(p: u64, q: u64) -> Option<Speed> {
        let fits = 1 <= p && p <= q && q <= LARGEST_Q;
        fits.then_some(Speed { p, q })
    }

    pub fn all() -> impl Iterator<Item = Speed> {
        (1..=LARGEST_Q).flat_map(|q| (1..=q).map(move |p| Speed { p, q }))
    }

    /// How p/q compares with a/b.
    pub fn compared(self, (a, b): (u64, u64)) -> Ordering {
        (self.p * b).cmp(&(a * self.q))
    }
}

/// The ratio that 0/0 stands for at least, on m processors.
pub fn least_speed(m: u64) -> (u64, u64) {
    (m, 2 * m - 1)
}

/// The ratio that a speed must reach for the task to fit its deadline.
pub fn density(task: &Task) -> (u64, u64) {
    (figures(task).length, task.deadline)
}

/// Request 6; document 01 has m/(2m-1). The smallest speed that is at least that and at least every
/// length/deadline, if there is one. Of equal ones that with the smallest q is in lowest terms.
pub fn default_speed(tasks: &[Task], m: u64) -> Option<Speed> {
    let mut ratios: Vec<(u64, u64)> = tasks.iter().map(density).collect();
    ratios.push(least_speed(m));
    let fits = |speed: &Speed| ratios.iter().all(|ratio| speed.compared(*ratio).is_ge());
    let order = |one: &Speed, other: &Speed| {
        let by_value = one.compared((other.p, other.q));
        by_value.then(one.q.cmp(&other.q))
    };
    Speed::all().filter(fits).min_by(order)
}
