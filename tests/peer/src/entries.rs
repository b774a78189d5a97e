//! The four entries: whole answers, with the order of the refusals. Each takes what was read of the
//! set (refusals 2 to 5), which comes after number 1 and before all the others.

use crate::curve::{figures as figures_of, remaining_demand};
use crate::records::{refuse, Reading, Refusal, Task};
use crate::speed::Speed;
use crate::verdict::{is_dense, judge as judge_tasks, Row, Verdict};

const LARGEST_X: u64 = 1_550_000;

#[derive(Clone, Copy, Debug, PartialEq, Eq)]
pub struct Judged {
    pub number: u64,
    pub place: u64,
    pub x: u64,
    pub w: u64,
    /// The speed used.
    pub p: u64,
    pub q: u64,
}

#[derive(Clone, Copy, Debug, PartialEq, Eq)]
pub struct Figured {
    pub number: u64,
    pub place: u64,
    pub length: u64,
    pub volume: u64,
}

#[derive(Clone, Copy, Debug, PartialEq, Eq)]
pub struct Demanded {
    pub number: u64,
    pub place: u64,
    pub work: u64,
}

#[derive(Clone, Copy, Debug, PartialEq, Eq)]
pub struct Layered {
    pub number: u64,
    pub place: u64,
    pub pairs: u64,
}

pub type Pair = (u32, u32);

fn speed_in_range(p: u64, q: u64) -> Result<Speed, Refusal> {
    Speed::in_range(p, q).map_or_else(|| refuse(1, 0), Ok)
}

/// None for 0/0, which is for judge only.
fn judge_speed(m: u64, p: u64, q: u64) -> Result<Option<Speed>, Refusal> {
    if !(1..=16).contains(&m) {
        return refuse(1, 0);
    }
    match (p, q) {
        (0, 0) => Ok(None),
        _ => speed_in_range(p, q).map(Some),
    }
}

fn task_of(reading: &Reading, number: usize) -> Result<&Task, Refusal> {
    match reading {
        Err(refusal) => Err(*refusal),
        Ok(tasks) => tasks.get(number).map_or_else(|| refuse(6, 0), Ok),
    }
}

/// The verdict behind judge's answer.
pub fn verdict(reading: &Reading, m: u64, p: u64, q: u64) -> Result<Verdict, Refusal> {
    let named = judge_speed(m, p, q)?;
    let tasks = reading.as_ref().map_err(|refusal| *refusal)?;
    Ok(judge_tasks(tasks, m, named))
}

pub fn judge(verdict: Result<Verdict, Refusal>) -> Judged {
    let [number, place, x, w, p, q] = match verdict {
        Err(refusal) => [refusal.number, refusal.place, 0, 0, 0, 0],
        Ok(Verdict::LongCycle) => [7, 0, 0, 0, 0, 0],
        Ok(Verdict::Dense { place }) => [8, place as u64, 0, 0, 0, 0],
        Ok(Verdict::Overrun { speed, x, w, .. }) => [9, 0, x, w, speed.p, speed.q],
        Ok(Verdict::Accepted { speed, .. }) => [0, 0, 0, 0, speed.p, speed.q],
    };
    Judged {
        number,
        place,
        x,
        w,
        p,
        q,
    }
}

pub fn figures(reading: &Reading, task: usize) -> Figured {
    match task_of(reading, task).map(figures_of) {
        Ok(figures) => Figured {
            number: 0,
            place: 0,
            length: figures.length,
            volume: figures.volume,
        },
        Err(refusal) => Figured {
            number: refusal.number,
            place: refusal.place,
            length: 0,
            volume: 0,
        },
    }
}

pub fn demand(reading: &Reading, task: usize, p: u64, q: u64, x: u64) -> Demanded {
    let (number, place, work) = match demand_or_refusal(reading, task, p, q, x) {
        Ok(work) => (0, 0, work),
        Err(refusal) => (refusal.number, refusal.place, 0),
    };
    Demanded {
        number,
        place,
        work,
    }
}

fn demand_or_refusal(
    reading: &Reading,
    task: usize,
    p: u64,
    q: u64,
    x: u64,
) -> Result<u64, Refusal> {
    let speed = speed_in_range(p, q)?;
    if x > LARGEST_X {
        return refuse(1, 0);
    }
    let task = task_of(reading, task)?;
    if is_dense(task, speed) {
        return refuse(8, task.place);
    }
    Ok(Row::of(task, speed).demand(x))
}

/// The pairs of a task's layers, or the refusal that comes before the lent table is looked at.
pub fn layer_pairs(reading: &Reading, task: usize, p: u64, q: u64) -> Result<Vec<Pair>, Refusal> {
    let speed = speed_in_range(p, q)?;
    let rdem = remaining_demand(task_of(reading, task)?, speed.q);
    let mut pairs: Vec<Pair> = Vec::new();
    for tick in rdem.windows(2) {
        let width = (tick[0] - tick[1]) as u32;
        match pairs.last_mut() {
            Some((last, duration)) if *last == width => *duration += 1,
            _ => pairs.push((width, 1)),
        }
    }
    Ok(pairs)
}

/// Writes the pairs at the front of the table, if they fit.
pub fn layers(pairs: &Result<Vec<Pair>, Refusal>, table: &mut [u32]) -> Layered {
    let (number, place, pairs) = match pairs {
        Err(refusal) => (refusal.number, refusal.place, 0),
        Ok(pairs) if 2 * pairs.len() > table.len() => (10, 0, 0),
        Ok(pairs) => {
            for (at, (width, duration)) in pairs.iter().enumerate() {
                table[2 * at] = *width;
                table[2 * at + 1] = *duration;
            }
            (0, 0, pairs.len() as u64)
        }
    };
    Layered {
        number,
        place,
        pairs,
    }
}
