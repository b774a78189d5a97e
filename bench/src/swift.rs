//! The fastest exact judge we could write in plain Rust: the yardstick.
//!
//! W never falls, so p·W(t) <= bound·l clears all ticks from l to t. It goes downward from a tick past
//! which nothing can overrun. Three ways to know W, each dearer and closer than the one before: a job set
//! counts in full once its part has begun (rough); the walk over latest ends (for a few asks); the straight
//! pieces of the task, which say in addition how far down the line goes on.

use crate::answer::{common_cycle, Answer, Call};
use crate::curve::{Maker, Piece};
use crate::read::{members, Reader, Task};

/// Asks of W by the walk, before curves are made.
const WALKS: u32 = 4;
/// A rough clearing is taken if it is this part of what lies below; else a closer look pays.
const WORTH: u64 = 32;

/// Closer looks between a rough one in vain and the next.
const PAUSE: u32 = 24;

/// A task in ticks and units of work.
#[derive(Clone, Copy)]
struct Row {
    period: u64,
    due: u64,
    /// Ticks of a period before any work is due.
    idle: u64,
    volume: u64,
    /// 2^40 / period, rounded up: x / period is a product and a shift, for x below 2^21.
    inverse: u64,
    /// Its pieces, once they are made: from and count.
    curve: (u32, u32),
}

/// Value at a tick, slope and run of the line that ends there.
#[derive(Clone, Copy)]
struct Line {
    value: u64,
    slope: u64,
    run: u64,
}

pub struct Swift {
    reader: Reader,
    rows: Vec<Row>,
    pieces: Vec<Piece>,
    maker: Maker,
    call: Call,
    bound: u64,
    walks: u32,
}

impl Row {
    fn of(task: &Task, call: Call) -> Row {
        let period = call.p * task.period;
        let due = call.p * task.deadline;
        Row {
            period,
            due,
            idle: due - call.q * task.length,
            volume: call.q * task.volume,
            inverse: (1 << 40) / period + 1,
            curve: (0, 0),
        }
    }

    fn whole(&self, x: u64) -> u64 {
        (x * self.inverse) >> 40
    }
}

impl Swift {
    pub fn new() -> Swift {
        Swift {
            reader: Reader::new(),
            rows: Vec::new(),
            pieces: Vec::new(),
            maker: Maker::default(),
            call: Call { m: 1, p: 1, q: 1 },
            bound: 1,
            walks: 0,
        }
    }

    /// Reading alone.
    pub fn read(&mut self, set: &[u8]) -> usize {
        self.reader
            .read(set)
            .map_or(0, |()| self.reader.tasks().len())
    }

    pub fn judge(&mut self, set: &[u8], call: Call) -> Answer {
        if !call.in_range() {
            return Answer::refused((1, 0));
        }
        if let Err(refusal) = self.reader.read(set) {
            return Answer::refused(refusal);
        }
        let tasks = self.reader.tasks();
        let Some(cycle) = common_cycle(tasks.iter().map(|task| task.period)) else {
            return Answer::refused((7, 0));
        };
        let call = call.named(tasks);
        let dense = |task: &&Task| call.q * task.length > call.p * task.deadline;
        if let Some(task) = tasks.iter().find(dense) {
            return Answer::refused((8, task.place));
        }
        self.rows.clear();
        self.rows
            .extend(tasks.iter().map(|task| Row::of(task, call)));
        self.pieces.clear();
        (self.call, self.bound, self.walks) = (call, call.bound(), 0);
        match self.search(cycle) {
            Some(x) => Answer::overrun(call, x, self.exact(x)),
            None => Answer::accepted(call),
        }
    }

    /// The first tick that overruns.
    fn search(&mut self, cycle: u64) -> Option<u64> {
        let last = self.call.p * cycle;
        let mut over = match self.stop(cycle) {
            Some(stop) => self.down(0, stop.min(last))?,
            None => last,
        };
        let idle = self.rows.iter().map(|row| row.idle).min().unwrap_or(0);
        let mut fine = idle.min(over - 1);
        let mut block = (over - fine) / 16 + 1;
        // Nothing up to `fine` overruns, `over` does. Blocks grow while they are clear, and halve where not.
        while fine + 1 < over {
            let top = (fine + block).min(over - 1);
            match self.down(fine, top) {
                None => (fine, block) = (top, 2 * block),
                Some(t) => (over, block) = (t, (t - fine) / 2 + 1),
            }
        }
        Some(over)
    }

    /// A tick past which nothing can overrun, from a straight line above the demand of each task; none
    /// where the cycle as a whole holds too much.
    fn stop(&self, cycle: u64) -> Option<u64> {
        let (mut used, mut early) = (0, 0);
        for row in &self.rows {
            let each = row.volume * (self.call.p * cycle / row.period);
            used += each;
            early += each * (row.period - row.idle);
        }
        match (self.bound * cycle).checked_sub(used)? {
            0 => Some(u64::MAX),
            free => Some(early / free),
        }
    }

    /// A tick that overruns, above `fine` and up to t; none if there is none.
    fn down(&mut self, fine: u64, mut t: u64) -> Option<u64> {
        let mut close = 0;
        while t > fine {
            let clear = match close {
                0 => self.cleared(self.rough(t)),
                _ => u64::MAX,
            };
            if clear <= t && (t - clear) * WORTH >= t - fine {
                t = clear.saturating_sub(1);
                continue;
            }
            // Where a rough look was in vain, the next ones would be, too.
            close = if close == 0 { PAUSE } else { close - 1 };
            if self.walks < WALKS {
                self.walks += 1;
                let clear = self.cleared(self.exact(t));
                if clear > t {
                    return Some(t);
                }
                t = clear.saturating_sub(1);
            } else {
                match self.along(fine, t) {
                    Ok(below) => t = below,
                    Err(over) => return Some(over),
                }
            }
        }
        None
    }

    /// The lowest tick that demand w clears.
    fn cleared(&self, w: u64) -> u64 {
        (self.call.p * w).div_ceil(self.bound)
    }

    /// Not below W at tick t.
    fn rough(&self, t: u64) -> u64 {
        let each = |row: &Row| {
            let k = row.whole(t);
            let begun = t - k * row.period > row.idle;
            row.volume * (k + u64::from(begun))
        };
        self.rows.iter().map(each).sum()
    }

    /// W at tick t.
    fn exact(&self, t: u64) -> u64 {
        let each = |(i, row): (usize, &Row)| {
            let k = row.whole(t);
            let r = t - k * row.period;
            row.volume * k + self.part(i, row, r)
        };
        self.rows.iter().enumerate().map(each).sum()
    }

    /// The part of a task's demand that is no whole period.
    fn part(&self, i: usize, row: &Row, r: u64) -> u64 {
        if r <= row.idle {
            return 0;
        }
        if r >= row.due {
            return row.volume;
        }
        let task = &self.reader.tasks()[i];
        remaining(task, self.call.q as u32, task.top, (row.due - r) as u32)
    }

    /// Clears the line that ends at t and what W at its lower end clears; else a tick that overruns.
    fn along(&mut self, fine: u64, t: u64) -> Result<u64, u64> {
        let line = self.line(t);
        let run = line.run.min(t - fine);
        let rise = (self.call.p * line.slope) as i64 - self.bound as i64;
        let over = (self.call.p * line.value) as i64 - (self.bound * t) as i64;
        if over > 0 {
            // The lowest tick of the line that still overruns.
            let down = match rise {
                1.. => run.min(((over - 1) / rise) as u64),
                _ => run,
            };
            return Err(t - down);
        }
        let low = t - run;
        if over - rise * run as i64 > 0 {
            return Err(low);
        }
        let clear = self.cleared(line.value - line.slope * run);
        Ok(clear.min(low).saturating_sub(1))
    }

    /// The sum of the lines that end at t, which is above 0; it makes the curves that it needs.
    fn line(&mut self, t: u64) -> Line {
        let (mut value, mut slope, mut run) = (0, 0, t);
        for i in 0..self.rows.len() {
            let row = self.rows[i];
            let k = row.whole(t - 1);
            let r = t - k * row.period;
            value += k * row.volume;
            if r > row.due {
                value += row.volume;
                run = run.min(r - row.due);
            } else if r <= row.idle {
                run = run.min(r);
            } else {
                let piece = self.piece(i, r as u32);
                let along = r - u64::from(piece.from);
                value += piece.value + u64::from(piece.slope) * along;
                slope += u64::from(piece.slope);
                run = run.min(along);
            }
        }
        Line { value, slope, run }
    }

    /// The last piece of task i that begins below r.
    fn piece(&mut self, i: usize, r: u32) -> Piece {
        if self.rows[i].curve.1 == 0 {
            self.make(i);
        }
        let (from, count) = self.rows[i].curve;
        let pieces = &self.pieces[from as usize..(from + count) as usize];
        let (mut at, mut left) = (0, pieces.len());
        while left > 1 {
            let half = left / 2;
            at += if pieces[at + half].from < r { half } else { 0 };
            left -= half;
        }
        pieces[at]
    }

    #[cold]
    fn make(&mut self, i: usize) {
        let from = self.pieces.len();
        let task = &self.reader.tasks()[i];
        let Call { p, q, .. } = self.call;
        self.maker.pieces(task, p, q, &mut self.pieces);
        let count = self.pieces.len() - from;
        self.rows[i].curve = (from as u32, count as u32);
    }
}

/// Remaining work at y ticks before the deadline, by the walk.
fn remaining(task: &Task, q: u32, own: u64, y: u32) -> u64 {
    let jobs = members(own).map(|v| (q * task.end[v]).saturating_sub(y).min(q * task.time[v]));
    let choices = task.choices(own);
    let larger =
        choices.map(|[one, two]| remaining(task, q, one, y).max(remaining(task, q, two, y)));
    jobs.map(u64::from).sum::<u64>() + larger.sum::<u64>()
}
