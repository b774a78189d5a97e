//! A listing: from its lines to the drafts of its tasks, and to what the entries answer for them.

mod answer;
mod edges;
mod number;
mod tasks;

pub use answer::{Answer, Question};

use crate::draft::{set_of, Draft};
use crate::fault::{Fault, Place};
use crate::form::take;
use tasks::Tasks;

pub struct Listing {
    pub drafts: Vec<Draft>,
    pub answers: Vec<Answer>,
}

impl Listing {
    pub fn set(&self) -> Vec<u8> {
        set_of(&self.drafts)
    }
}

pub fn read(text: &str) -> Result<Listing, Fault> {
    let (mut tasks, mut answers) = (Tasks::default(), Vec::new());
    for (number, line) in lines(text) {
        let added = match first_word(&line) {
            "task" => tasks.add_task(&line),
            "tasks" => tasks.add_same(&line),
            "vertex" => tasks.add_vertex(&line),
            "vertices" => tasks.add_vertices(&line),
            "edges" => tasks.add_edges(&line),
            _ => answer::read(number, &line).map(|answer| answers.push(answer)),
        };
        let place = Place::Line(number);
        added.map_err(|what| Fault { place, what })?;
    }
    let drafts = tasks.drafts;
    Ok(Listing { drafts, answers })
}

/// The lines with their numbers, without comments, blank lines and doubled spaces.
fn lines(text: &str) -> impl Iterator<Item = (usize, String)> + '_ {
    let bare = |line: &str| {
        let said = line.split('#').next().unwrap_or("");
        said.split_whitespace().collect::<Vec<&str>>().join(" ")
    };
    let numbered = (1..).zip(text.lines().map(bare));
    numbered.filter(|(_, line)| !line.is_empty())
}

fn first_word(line: &str) -> &str {
    line.split(' ').next().unwrap_or("")
}

/// The fault of a line that begins as these forms do and reads like none of them.
fn not_understood(kind: &str, forms: &[&str]) -> String {
    let quoted: Vec<String> = forms.iter().map(|form| format!("\"{form}\"")).collect();
    format!("not understood; {kind} line reads {}", quoted.join(" or "))
}

/// The digits of the numbers in a line that has one form only, and what stands for its dots.
fn take_line<'a, const N: usize>(
    kind: &str,
    form: &str,
    line: &'a str,
) -> Result<([&'a str; N], &'a str), String> {
    take(form, line).ok_or_else(|| not_understood(kind, &[form]))
}
