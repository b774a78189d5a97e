//! The forms of the lines. Each is spelled once: lines are read by it and written by it, and a line
//! that is not understood is told it. A capital letter stands for a number, dots for what follows.

pub const TASK: &str = "task N: mill M, deadline D, period P";
pub const TASKS: &str = "tasks A to B: as task N";

pub const VERTEX: &str = "vertex V: time T";
pub const STARTS: &str = "vertex V: time T, starts the choice that ends at E";
pub const ENDS: &str = "vertex V: time T, ends the choice that starts at S";
pub const VERTICES: &str = "vertices A to B: time T";

pub const EDGES: &str = "edges U: ...";
pub const EDGES_OF_ALL: &str = "edges A to B: ...";
pub const TO: &str = "V...";
pub const TO_ALL: &str = "V to W...";
pub const TO_NEXT: &str = "the next";

pub const FIGURES: &str = "figures of task T: ...";
pub const LAYERS: &str = "layers of task T at P/Q: ...";
pub const LAYERS_INTO: &str = "layers of task T at P/Q into W words: ...";
pub const DEMAND: &str = "demand of task T at P/Q, tick X: ...";
pub const JUDGE: &str = "judge on M processors at P/Q: ...";
pub const JUDGE_ALONE: &str = "judge on M processor at P/Q: ...";

const DOTS: &str = "...";

/// What stands between the numbers of a form.
fn pieces(form: &str) -> impl Iterator<Item = &str> {
    let form = form.strip_suffix(DOTS).unwrap_or(form);
    form.split(|letter: char| letter.is_ascii_uppercase())
}

/// The digits of the numbers in a text of this form, and what stands for the dots.
pub fn take<'a, const N: usize>(form: &str, text: &'a str) -> Option<([&'a str; N], &'a str)> {
    let mut pieces = pieces(form);
    let mut rest = text.strip_prefix(pieces.next()?)?;
    let mut numbers = [""; N];
    for (number, piece) in numbers.iter_mut().zip(pieces) {
        (*number, rest) = take_digits(rest)?;
        rest = rest.strip_prefix(piece)?;
    }
    let whole = rest.is_empty() || form.ends_with(DOTS);
    whole.then_some((numbers, rest))
}

fn take_digits(text: &str) -> Option<(&str, &str)> {
    let count = text.bytes().take_while(u8::is_ascii_digit).count();
    let (digits, rest) = text.split_at(count);
    (!digits.is_empty()).then_some((digits, rest))
}

/// Writes a form with its numbers, up to the dots.
pub fn put<const N: usize>(text: &mut String, form: &str, numbers: [u64; N]) {
    let mut pieces = pieces(form);
    text.extend(pieces.next());
    for (number, piece) in numbers.iter().zip(pieces) {
        *text += &number.to_string();
        *text += piece;
    }
}
