//! A line of edges: from one vertex or several, to the next vertex or to numbers and ranges.

use super::not_understood;
use super::number::range;
use crate::form::{take, EDGES, EDGES_OF_ALL, TO, TO_ALL, TO_NEXT};
use std::ops::RangeInclusive;

type Range = RangeInclusive<u32>;

pub struct Edges {
    from: Range,
    to: To,
}

enum To {
    Next,
    These(Vec<Range>),
}

impl Edges {
    pub fn read(line: &str) -> Result<Edges, String> {
        let (from, text) = take_range([EDGES_OF_ALL, EDGES], line)?;
        if text != TO_NEXT {
            let to = To::These(read_ranges(text)?);
            return Ok(Edges { from, to });
        }
        let last = *from.end();
        match last.checked_add(1) {
            Some(_) => Ok(Edges { from, to: To::Next }),
            None => Err(format!("vertex {last} has no next: at most {last}")),
        }
    }

    pub fn count(&self) -> usize {
        let from = size(&self.from);
        match &self.to {
            To::Next => from,
            To::These(ranges) => {
                let to = ranges.iter().map(size).fold(0, usize::saturating_add);
                from.saturating_mul(to)
            }
        }
    }

    /// All edges, in the order of the line. There may be too many to ask for: see `count`.
    pub fn pairs(&self) -> Vec<(u32, u32)> {
        let mut pairs = Vec::new();
        for from in self.from.clone() {
            match &self.to {
                To::Next => pairs.push((from, from + 1)),
                To::These(ranges) => {
                    let to = ranges.iter().cloned().flatten();
                    pairs.extend(to.map(|to| (from, to)));
                }
            }
        }
        pairs
    }
}

fn size(range: &Range) -> usize {
    let behind = range.end() - range.start();
    (behind as usize).saturating_add(1)
}

/// At least one number or range, with a space between two.
fn read_ranges(text: &str) -> Result<Vec<Range>, String> {
    let (range, mut rest) = take_range([TO_ALL, TO], text)?;
    let mut ranges = vec![range];
    while !rest.is_empty() {
        let behind = rest.strip_prefix(' ').ok_or_else(edges_not_understood)?;
        let (range, more) = take_range([TO_ALL, TO], behind)?;
        ranges.push(range);
        rest = more;
    }
    Ok(ranges)
}

/// A range by the first form or a number by the second, and what follows.
fn take_range<'a>([all, one]: [&str; 2], text: &'a str) -> Result<(Range, &'a str), String> {
    let single = || take(one, text).map(|([number], rest)| ([number, number], rest));
    let found = take(all, text).or_else(single);
    let (ends, rest) = found.ok_or_else(edges_not_understood)?;
    Ok((range(ends)?, rest))
}

fn edges_not_understood() -> String {
    let line = not_understood("an edges", &[EDGES, EDGES_OF_ALL]);
    format!("{line}, with numbers, ranges \"V to W\" or \"{TO_NEXT}\" behind the colon")
}
