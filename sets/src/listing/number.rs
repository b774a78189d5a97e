//! The numbers of a line, from their digits.

use std::fmt::Display;
use std::ops::RangeInclusive;
use std::str::FromStr;

/// A number that fits its field.
pub fn within<T: FromStr + Display>(name: &str, digits: &str, most: T) -> Result<T, String> {
    let number = digits.parse();
    number.map_err(|_| format!("{name} {digits}: at most {most}"))
}

/// Two vertices of edges, and all between them.
pub fn range([first, last]: [&str; 2]) -> Result<RangeInclusive<u32>, String> {
    let end = |digits| within("vertex", digits, u32::MAX);
    let range = end(first)?..=end(last)?;
    match range.is_empty() {
        true => Err(falls(first, last)),
        false => Ok(range),
    }
}

/// How many tasks or vertices a line numbers. They come in order, so the first is the one due.
pub fn count(name: &str, due: usize, [first, last]: [&str; 2]) -> Result<usize, String> {
    if first.parse() != Ok(due) {
        return Err(format!("{name} {due} is due here, not {name} {first}"));
    }
    // What is beyond all numbers is beyond every limit as well.
    let last_number = last.parse().unwrap_or(usize::MAX);
    let behind = last_number.checked_sub(due);
    let behind = behind.ok_or_else(|| falls(first, last))?;
    Ok(behind.saturating_add(1))
}

fn falls(first: &str, last: &str) -> String {
    format!("{first} to {last} is no range, since it falls")
}
