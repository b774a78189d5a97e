//! The lines of a task's edges, in the order of the records.

use super::{parts, INDENT, MANY};
use crate::form::{put, EDGES, EDGES_OF_ALL, TO, TO_ALL, TO_NEXT};

/// Edges of neighbouring records that leave the same vertex.
struct Fan {
    from: u32,
    to: Vec<u32>,
}

impl Fan {
    fn leads_on(&self) -> bool {
        matches!(self.to[..], [to] if self.from.checked_add(1) == Some(to))
    }
}

pub fn put_edges(text: &mut String, edges: &[(u32, u32)]) {
    let fan = |edges: &[(u32, u32)]| Fan {
        from: edges[0].0,
        to: edges.iter().map(|edge| edge.1).collect(),
    };
    let fans = edges.chunk_by(|one, other| one.0 == other.0).map(fan);
    let fans: Vec<Fan> = fans.collect();
    let mut rest = &fans[..];
    while !rest.is_empty() {
        *text += INDENT;
        let count = put_fans(text, rest);
        text.push('\n');
        rest = &rest[count..];
    }
}

/// Writes one line, for as many fans as it can say; how many these are.
fn put_fans(text: &mut String, fans: &[Fan]) -> usize {
    let Fan { from, to } = &fans[0];
    let first = u64::from(*from);
    let on = in_a_row(fans, Fan::leads_on);
    let same = in_a_row(fans, |fan| fan.to == *to);
    // At most one of them is above 1: the next of two vertices is not the same.
    let count = on.max(same);
    if count < MANY {
        put(text, EDGES, [first]);
        put_to(text, to);
        return 1;
    }
    put(text, EDGES_OF_ALL, [first, first + count as u64 - 1]);
    match on < same {
        true => put_to(text, to),
        false => *text += TO_NEXT,
    }
    count
}

/// How many fans, from the first on, leave vertices one after the other and are alike.
fn in_a_row(fans: &[Fan], alike: impl Fn(&Fan) -> bool) -> usize {
    let row = fans.iter().zip(u64::from(fans[0].from)..);
    row.take_while(|(fan, number)| u64::from(fan.from) == *number && alike(fan))
        .count()
}

fn put_to(text: &mut String, to: &[u32]) {
    let runs = to.chunk_by(|one, other| one.checked_add(1) == Some(*other));
    let mut gap = "";
    for part in runs.flat_map(parts) {
        *text += gap;
        gap = " ";
        let (first, last) = (part[0].into(), part[part.len() - 1].into());
        match part.len() {
            1 => put(text, TO, [first]),
            _ => put(text, TO_ALL, [first, last]),
        }
    }
}
