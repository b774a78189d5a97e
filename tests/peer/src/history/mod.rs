//! Histories of a task (request 12), and the work that they run inside an interval.
//!
//! A history is a list of releases in order, each at a whole tick and with a way through the choices,
//! at least a period apart. Where number 8 spares the task, what a history runs inside an interval of
//! x ticks is at most the demand at x, and some history reaches it.

mod check;
mod every;
mod random;
mod running;
mod theorem;
mod trial;
mod worked;

pub use check::{check, Histories};
pub use worked::check_x;

use crate::records::Task;
use crate::speed::Speed;
use running::Running;

/// A task at a speed at which number 8 spares it; period, deadline and length are in ticks.
#[derive(Clone, Copy)]
struct Spared<'a> {
    task: &'a Task,
    speed: Speed,
    period: u64,
    deadline: u64,
    length: u64,
}

struct Release {
    tick: u64,
    /// Who is present.
    way: Vec<bool>,
}

/// From a to a + x.
#[derive(Clone, Copy)]
struct Interval {
    a: u64,
    x: u64,
}

impl Interval {
    /// Both ends belong to it.
    fn holds(self, moment: u64) -> bool {
        self.a <= moment && moment <= self.a + self.x
    }

    /// Whether the tick that begins at this moment passes inside.
    fn holds_tick(self, tick: u64) -> bool {
        self.a <= tick && tick < self.a + self.x
    }
}

impl<'a> Spared<'a> {
    /// None if number 8 refuses the task at this speed; `length` is in time units.
    fn at(task: &'a Task, length: u64, speed: Speed) -> Option<Spared<'a>> {
        let spared = Spared {
            task,
            speed,
            period: speed.p * task.period,
            deadline: speed.p * task.deadline,
            length: speed.q * length,
        };
        (spared.length <= spared.deadline).then_some(spared)
    }

    /// Each release by itself: with no limit on processors none holds up another.
    fn work_inside(&self, history: &[Release], interval: Interval) -> u64 {
        let works = history.iter().map(|release| {
            let running = Running::of(self, &release.way);
            self.release_inside(release.tick, &running, interval)
        });
        works.sum()
    }

    /// The work of one release. It counts only if its deadline lies inside.
    fn release_inside(&self, release: u64, running: &Running, interval: Interval) -> u64 {
        if !interval.holds(release + self.deadline) {
            return 0;
        }
        let ticks = (release..).zip(&running.vertices);
        let inside = ticks.filter(|(tick, _)| interval.holds_tick(*tick));
        inside.map(|(_, vertices)| vertices).sum()
    }
}
