//! From the bytes of a set to its listing, which makes the same bytes.

mod drafts;
mod edges;

use crate::draft::{Draft, DraftVertex, END, PLAIN, START};
use crate::fault::Fault;
use crate::form::{put, ENDS, STARTS, TASK, TASKS, VERTEX, VERTICES};
use drafts::drafts_of;
use edges::put_edges;
use std::slice::Chunks;

/// So many in a row are said in one line or as a range; fewer are easier to read one by one.
const MANY: usize = 3;

/// In front of a line that belongs to the task above it.
const INDENT: &str = "  ";

pub fn of(set: &[u8]) -> Result<String, Fault> {
    let mut text = String::new();
    let mut number = 0;
    for same in drafts_of(set)?.chunk_by(|one, other| one == other) {
        put_task(&mut text, number, &same[0]);
        let next = number + same.len() as u64;
        if same.len() > 1 {
            put_line(&mut text, TASKS, [number + 1, next - 1, number]);
        }
        number = next;
    }
    Ok(text)
}

fn put_line<const N: usize>(text: &mut String, form: &str, numbers: [u64; N]) {
    put(text, form, numbers);
    text.push('\n');
}

fn put_task(text: &mut String, number: u64, draft: &Draft) {
    let (deadline, period) = (draft.deadline.into(), draft.period.into());
    put_line(text, TASK, [number, draft.mill.into(), deadline, period]);
    put_vertices(text, &draft.vertices);
    put_edges(text, &draft.edges);
}

fn put_vertices(text: &mut String, vertices: &[DraftVertex]) {
    let alike = |one: &DraftVertex, other: &DraftVertex| one == other && one.role == PLAIN;
    let mut number = 0;
    for part in vertices.chunk_by(alike).flat_map(parts) {
        let next = number + part.len() as u64;
        *text += INDENT;
        match part {
            [one] => put_vertex(text, number, *one),
            _ => put_line(text, VERTICES, [number, next - 1, part[0].time.into()]),
        }
        number = next;
    }
}

/// A long run as it is, a short one taken apart.
fn parts<T>(run: &[T]) -> Chunks<'_, T> {
    run.chunks(if run.len() < MANY { 1 } else { run.len() })
}

fn put_vertex(text: &mut String, number: u64, vertex: DraftVertex) {
    let (time, mate) = (vertex.time.into(), vertex.mate.into());
    match vertex.role {
        START => put_line(text, STARTS, [number, time, mate]),
        END => put_line(text, ENDS, [number, time, mate]),
        _ => put_line(text, VERTEX, [number, time]),
    }
}
