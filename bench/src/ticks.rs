//! The tick-by-tick judge: W at every tick of the common cycle, by the walk that takes the larger arm.

use crate::answer::{common_cycle, Answer, Call};
use crate::read::{members, Reader, Task};

/// A task in ticks and units of work.
struct Row<'a> {
    task: &'a Task,
    period: u64,
    due: u64,
    volume: u64,
    time: [u32; 64],
    end: [u32; 64],
}

impl Row<'_> {
    fn of(task: &Task, call: Call) -> Row<'_> {
        let q = call.q as u32;
        Row {
            task,
            period: call.p * task.period,
            due: call.p * task.deadline,
            volume: call.q * task.volume,
            time: task.time.map(|time| q * time),
            end: task.end.map(|end| q * end),
        }
    }

    fn remaining(&self, own: u64, y: u32) -> u64 {
        let jobs = members(own).map(|v| self.end[v].saturating_sub(y).min(self.time[v]));
        let choices = self.task.choices(own);
        let larger = choices.map(|[one, two]| self.remaining(one, y).max(self.remaining(two, y)));
        jobs.map(u64::from).sum::<u64>() + larger.sum::<u64>()
    }

    fn demand(&self, x: u64) -> u64 {
        let (whole, r) = (self.volume * (x / self.period), x % self.period);
        if r >= self.due {
            return whole + self.volume;
        }
        whole + self.remaining(self.task.top, (self.due - r) as u32)
    }
}

pub fn judge(reader: &mut Reader, set: &[u8], call: Call) -> Answer {
    if !call.in_range() {
        return Answer::refused((1, 0));
    }
    if let Err(refusal) = reader.read(set) {
        return Answer::refused(refusal);
    }
    let tasks = reader.tasks();
    let Some(cycle) = common_cycle(tasks.iter().map(|task| task.period)) else {
        return Answer::refused((7, 0));
    };
    let call = call.named(tasks);
    let dense = |task: &&Task| call.q * task.length > call.p * task.deadline;
    if let Some(task) = tasks.iter().find(dense) {
        return Answer::refused((8, task.place));
    }
    let rows: Vec<Row> = tasks.iter().map(|task| Row::of(task, call)).collect();
    for x in 0..=call.p * cycle {
        let w = rows.iter().map(|row| row.demand(x)).sum();
        if call.p * w > call.bound() * x {
            return Answer::overrun(call, x, w);
        }
    }
    Answer::accepted(call)
}
