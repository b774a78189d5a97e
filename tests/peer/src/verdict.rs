//! Demand, overruns, the common cycle, and the verdict on a set that was read.

use crate::curve::{figures, remaining_demand};
use crate::records::Task;
use crate::speed::{default_speed, Speed};

const LONGEST_CYCLE: u64 = 50_000;
/// Up to this many ticks in a cycle, the search goes on for two cycles more and must find nothing new.
const SHORT_CYCLE: u64 = 3_000;

#[derive(Clone, Copy, Debug, PartialEq, Eq)]
pub enum Verdict {
    LongCycle,
    Dense {
        place: usize,
    },
    Overrun {
        speed: Speed,
        x: u64,
        w: u64,
        excess: u64,
        /// Beyond the longest period.
        late: bool,
    },
    /// `met`: at some tick above 0 the demand is equal to the bound.
    Accepted {
        speed: Speed,
        met: bool,
    },
}

/// Whether the longest way through the task alone misses the deadline at this speed.
pub fn is_dense(task: &Task, speed: Speed) -> bool {
    speed.q * figures(task).length > speed.p * task.deadline
}

/// What demand needs to know of a task, in ticks and units of work.
pub struct Row {
    period: u64,
    deadline: u64,
    volume: u64,
    rdem: Vec<u64>,
}

impl Row {
    pub fn of(task: &Task, speed: Speed) -> Row {
        Row {
            period: speed.p * task.period,
            deadline: speed.p * task.deadline,
            volume: speed.q * figures(task).volume,
            rdem: remaining_demand(task, speed.q),
        }
    }

    /// The demand at tick x, as document 01 words it.
    pub fn demand(&self, x: u64) -> u64 {
        self.volume * (x / self.period) + self.part(x % self.period)
    }

    /// The part of the demand that is no whole period; `r` is below the period.
    fn part(&self, r: u64) -> u64 {
        if r >= self.deadline {
            return self.volume;
        }
        let left = (self.deadline - r) as usize;
        self.rdem.get(left).copied().unwrap_or(0)
    }
}

/// A row with its place in the walk over ticks, which spares the divisions.
struct Walk<'a> {
    row: &'a Row,
    whole: u64,
    r: u64,
}

impl Walk<'_> {
    fn here(&self) -> u64 {
        self.whole + self.row.part(self.r)
    }

    fn step(&mut self) {
        self.r += 1;
        if self.r == self.row.period {
            self.r = 0;
            self.whole += self.row.volume;
        }
    }
}

pub fn greatest_divisor(a: u64, b: u64) -> u64 {
    match b {
        0 => a,
        _ => greatest_divisor(b, a % b),
    }
}

/// The common cycle, unless it is over 50,000. It never falls, so the first multiple over that decides;
/// one factor is at most 50,000 and the other 10,000, so no product overflows.
pub fn common_cycle(periods: impl Iterator<Item = u64>) -> Option<u64> {
    let mut cycle = 1;
    for period in periods {
        cycle = cycle / greatest_divisor(cycle, period) * period;
        if cycle > LONGEST_CYCLE {
            return None;
        }
    }
    Some(cycle)
}

/// The first task that is dense at the speed named; where none is, the first whose length exceeds
/// its deadline.
fn first_dense(tasks: &[Task], named: Option<Speed>) -> Option<&Task> {
    tasks.iter().find(|task| match named {
        Some(speed) => is_dense(task, speed),
        None => figures(task).length > task.deadline,
    })
}

/// At the speed named; where none is, at the default speed.
pub fn judge(tasks: &[Task], m: u64, named: Option<Speed>) -> Verdict {
    let Some(cycle) = common_cycle(tasks.iter().map(|task| task.period)) else {
        return Verdict::LongCycle;
    };
    if let Some(task) = first_dense(tasks, named) {
        return Verdict::Dense { place: task.place };
    }
    let speed = named.or_else(|| default_speed(tasks, m));
    let speed = speed.expect("1/1 is fast enough where no length exceeds its deadline");
    let rows: Vec<Row> = tasks.iter().map(|task| Row::of(task, speed)).collect();
    let rate = m * speed.q - (m - 1) * speed.p;
    let ticks = speed.p * cycle;
    let verdict = search(&rows, speed, rate, ticks);
    if matches!(verdict, Verdict::Accepted { .. }) && ticks <= SHORT_CYCLE {
        let further = search(&rows, speed, rate, 3 * ticks);
        let nothing_new = matches!(further, Verdict::Accepted { .. });
        assert!(nothing_new, "an overrun beyond the cycle");
    }
    verdict
}

/// The first of the ticks 0 to `last` that overruns: p·W(x) > rate·x.
fn search(rows: &[Row], speed: Speed, rate: u64, last: u64) -> Verdict {
    let p = speed.p;
    let start = |row| Walk {
        row,
        whole: 0,
        r: 0,
    };
    let mut walks: Vec<Walk> = rows.iter().map(start).collect();
    let mut met = false;
    for x in 0..=last {
        let w: u64 = walks.iter().map(Walk::here).sum();
        let bound = rate * x;
        if p * w > bound {
            let again: u64 = rows.iter().map(|row| row.demand(x)).sum();
            assert_eq!(w, again, "the walk over ticks differs from the demand");
            let excess = p * w - bound;
            let late = rows.iter().all(|row| row.period < x);
            return Verdict::Overrun {
                speed,
                x,
                w,
                excess,
                late,
            };
        }
        met |= x > 0 && p * w == bound;
        walks.iter_mut().for_each(Walk::step);
    }
    Verdict::Accepted { speed, met }
}
