//! From bytes to tasks in plain Rust, with every check of document 01, as fast as it gets.
//!
//! Edges stand in rising order of (from, to), so when an edge is read its `from` has all its edges in:
//! latest ends come out of the same pass.

use crate::answer::Refusal;
use crate::arms::{bit, Links};

const MOST_TASKS: usize = 32;
pub const MOST_TIME: u64 = 10_000;

type Record = [u8; 16];

/// A task's tables. Only entries of its own vertices, and rows of its own starts, mean anything.
#[derive(Clone)]
pub struct Task {
    pub place: usize,
    pub deadline: u64,
    pub period: u64,
    pub time: [u32; 64],
    /// Latest ends, in time units.
    pub end: [u32; 64],
    pub starts: u64,
    /// For each start, the vertices of its two arms that are in no choice further inside.
    pub own: [[u64; 2]; 64],
    /// The vertices that are in no arm.
    pub top: u64,
    pub length: u64,
    pub volume: u64,
}

const BLANK: Task = Task {
    place: 0,
    deadline: 0,
    period: 0,
    time: [0; 64],
    end: [0; 64],
    starts: 0,
    own: [[0; 2]; 64],
    top: 0,
    length: 0,
    volume: 0,
};

/// The tables are kept between calls, so that a call clears no more than it reads.
pub struct Reader {
    tasks: Vec<Task>,
    count: usize,
    links: Links,
}

impl Reader {
    pub fn new() -> Reader {
        Reader {
            tasks: vec![BLANK; MOST_TASKS],
            count: 0,
            links: Links::new(),
        }
    }

    pub fn tasks(&self) -> &[Task] {
        &self.tasks[..self.count]
    }

    /// Records from the left; a graph is judged behind its last record.
    pub fn read(&mut self, set: &[u8]) -> Result<(), Refusal> {
        self.count = 0;
        let (records, rest) = set.as_chunks::<16>();
        if !rest.is_empty() {
            return Err((2, 0));
        }
        let mut at = 0;
        while at < records.len() {
            if self.count == MOST_TASKS {
                return Err((if records[at][0] == 1 { 5 } else { 3 }, at));
            }
            at = read_task(records, at, &mut self.tasks[self.count], &mut self.links)?;
            self.count += 1;
        }
        Ok(())
    }
}

/// The record as two words: kind, A, B, C; and D, E.
fn words(record: &Record) -> (u64, u64) {
    let all = u128::from_le_bytes(*record);
    (all as u64, (all >> 64) as u64)
}

/// Up to `count` records from `from` on; fewer where the set ends.
fn due(records: &[Record], from: usize, count: usize) -> &[Record] {
    &records[from..(from + count).min(records.len())]
}

/// Reads the task at `at`, and says where the next one begins.
fn read_task(
    records: &[Record],
    at: usize,
    task: &mut Task,
    links: &mut Links,
) -> Result<usize, Refusal> {
    let (low, high) = words(&records[at]);
    let (mill, n, deadline) = (low >> 8 & 0xff, low >> 16 & 0xffff, low >> 32);
    let (period, edges) = (high & 0xffff_ffff, (high >> 32) as usize);
    let counts = (1..=40).contains(&mill) && (1..=64).contains(&n) && edges <= 256;
    let dates = (1..=10_000).contains(&period) && (1..=period).contains(&deadline);
    if low & 0xff != 1 || !counts || !dates {
        return Err((3, at));
    }
    (task.place, task.deadline, task.period) = (at, deadline, period);
    let n = n as usize;
    read_vertices(records, at + 1, n, task, links)?;
    read_edges(records, at + 1 + n, edges, task, links)?;
    if !links.judge(task) {
        return Err((4, at));
    }
    Ok(at + 1 + n + edges)
}

fn read_vertices(
    records: &[Record],
    from: usize,
    n: usize,
    task: &mut Task,
    links: &mut Links,
) -> Result<(), Refusal> {
    links.clear(n);
    let there = due(records, from, n);
    for (v, record) in there.iter().enumerate().take(64) {
        let (low, high) = words(record);
        let time = low >> 32;
        if low & 0xff != 2 || high != 0 || time > MOST_TIME {
            return Err((3, from + v));
        }
        task.time[v] = time as u32;
        task.end[v] = time as u32;
        let (role, mate) = (low >> 8 & 0xff, (low >> 16 & 0xffff) as usize);
        if low & 0xffff_ff00 != 0 && !links.pair(v, role, mate) {
            return Err((3, from + v));
        }
    }
    if there.len() < n {
        return Err((3, records.len()));
    }
    Ok(())
}

fn read_edges(
    records: &[Record],
    from: usize,
    count: usize,
    task: &mut Task,
    links: &mut Links,
) -> Result<(), Refusal> {
    let there = due(records, from.min(records.len()), count);
    let n = links.n as u64;
    // One more than the key of the last edge: the next key is not below it.
    let mut least = 0;
    let (mut left, mut entered) = (0, 0);
    for (number, record) in there.iter().enumerate() {
        let (low, v) = words(record);
        let u = low >> 32;
        let key = u << 6 | (v & 63);
        if low & 0xffff_ffff != 3 || u >= v || v >= n || key < least {
            return Err((3, from + number));
        }
        least = key + 1;
        // Both are below n; the compiler knows it from the mask.
        let (u, v) = (u as usize & 63, v as usize & 63);
        left |= bit(u);
        entered |= bit(v);
        links.join(u, v);
        task.end[v] = task.end[v].max(task.end[u] + task.time[v]);
    }
    (links.left, links.entered) = (left, entered);
    if there.len() < count {
        return Err((3, records.len()));
    }
    Ok(())
}

/// The members of a vertex set, from the lowest up.
pub fn members(mut set: u64) -> impl Iterator<Item = usize> {
    std::iter::from_fn(move || {
        let v = set.trailing_zeros() as usize;
        set &= set.wrapping_sub(1);
        (v < 64).then_some(v)
    })
}

impl Task {
    /// The arms of the choices that start among `own`.
    pub fn choices(&self, own: u64) -> impl Iterator<Item = [u64; 2]> + '_ {
        members(own & self.starts).map(|s| self.own[s])
    }

    pub fn whole(n: usize) -> u64 {
        bit(n - 1) | (bit(n - 1) - 1)
    }
}
