//! From bytes to tasks, or to the first refusal of 2 to 5.

use crate::graph::Graph;
use sets::record::{Record, EDGE, RECORD, TASK, VERTEX};

pub const MOST_TASKS: usize = 32;
/// Request 2; document 01 has 1,000.
pub const LONGEST_JOB: u32 = 10_000;

#[derive(Clone, Copy, Debug, PartialEq, Eq)]
pub struct Refusal {
    pub number: u64,
    pub place: u64,
}

pub fn refuse<T>(number: u64, place: usize) -> Result<T, Refusal> {
    let place = place as u64;
    Err(Refusal { number, place })
}

#[derive(Clone, Copy, Debug, PartialEq, Eq)]
pub enum Role {
    Plain,
    Start,
    End,
}

#[derive(Clone, Copy, Debug)]
pub struct Vertex {
    pub role: Role,
    pub mate: usize,
    pub time: u64,
}

pub struct Task {
    /// The number of its task record.
    pub place: usize,
    pub deadline: u64,
    pub period: u64,
    pub vertices: Vec<Vertex>,
    pub graph: Graph,
}

/// What is read of a set: all its tasks, or why not.
pub type Reading = Result<Vec<Task>, Refusal>;

fn is_task(record: &Record) -> bool {
    record.kind == TASK
        && (1..=40).contains(&record.a)
        && (1..=64).contains(&record.b)
        && (1..=10_000).contains(&record.d)
        && (1..=record.d).contains(&record.c)
        && record.e <= 256
}

/// Whether this may be vertex `number` of `n`.
fn is_vertex(record: &Record, number: usize, n: usize) -> bool {
    let mate = usize::from(record.b);
    let mate_fits = match record.a {
        0 => mate == 0,
        1 => number < mate && mate < n,
        2 => mate < number,
        _ => false,
    };
    let unused = (record.d, record.e) == (0, 0);
    record.kind == VERTEX && mate_fits && record.c <= LONGEST_JOB && unused
}

fn is_edge(record: &Record, n: usize) -> bool {
    record.kind == EDGE
        && (record.a, record.b, record.e) == (0, 0, 0)
        && record.c < record.d
        && (record.d as usize) < n
}

fn vertex(record: &Record) -> Vertex {
    let role = match record.a {
        1 => Role::Start,
        2 => Role::End,
        _ => Role::Plain,
    };
    Vertex {
        role,
        mate: usize::from(record.b),
        time: u64::from(record.c),
    }
}

/// Records from the left; a graph is judged after its last record, before the next is looked at.
pub fn read(set: &[u8]) -> Reading {
    let (records, rest) = set.as_chunks::<RECORD>();
    if !rest.is_empty() {
        return refuse(2, 0);
    }
    let records: Vec<Record> = records.iter().map(Record::from_bytes).collect();
    let mut tasks = Vec::new();
    let mut at = 0;
    while at < records.len() {
        // A 33rd task needs kind 1 only; its other fields are not looked at.
        if tasks.len() == MOST_TASKS && records[at].kind == TASK {
            return refuse(5, at);
        }
        if tasks.len() == MOST_TASKS {
            return refuse(3, at);
        }
        let (task, next) = read_task(&records, at)?;
        tasks.push(task);
        at = next;
    }
    Ok(tasks)
}

/// The task whose first record is at `at`, and where the next one begins.
fn read_task(records: &[Record], at: usize) -> Result<(Task, usize), Refusal> {
    let head = records[at];
    if !is_task(&head) {
        return refuse(3, at);
    }
    let n = usize::from(head.b);
    let vertices = read_vertices(records, at + 1, n)?;
    let edges = read_edges(records, at + 1 + n, head.e as usize, n)?;
    let next = at + 1 + n + edges.len();
    let Some(graph) = Graph::of(&vertices, &edges) else {
        return refuse(4, at);
    };
    let task = Task {
        place: at,
        deadline: u64::from(head.c),
        period: u64::from(head.d),
        vertices,
        graph,
    };
    Ok((task, next))
}

fn read_vertices(records: &[Record], from: usize, n: usize) -> Result<Vec<Vertex>, Refusal> {
    let mut vertices = Vec::new();
    for number in 0..n {
        let record = due(records, from + number)?;
        if !is_vertex(record, number, n) {
            return refuse(3, from + number);
        }
        vertices.push(vertex(record));
    }
    Ok(vertices)
}

fn read_edges(
    records: &[Record],
    from: usize,
    count: usize,
    n: usize,
) -> Result<Vec<(usize, usize)>, Refusal> {
    let mut edges = Vec::new();
    for number in 0..count {
        let record = due(records, from + number)?;
        let edge = (record.c as usize, record.d as usize);
        let rises = edges.last().is_none_or(|last| *last < edge);
        if !is_edge(record, n) || !rises {
            return refuse(3, from + number);
        }
        edges.push(edge);
    }
    Ok(edges)
}

/// The record that is due at `at`; where the set ends before it, its number is the count of records.
fn due(records: &[Record], at: usize) -> Result<&Record, Refusal> {
    match records.get(at) {
        Some(record) => Ok(record),
        None => refuse(3, records.len()),
    }
}
