//! The lines that say what an entry answers for the set.

use super::number::within;
use super::{first_word, not_understood, take_line};
use crate::form::{take, DEMAND, FIGURES, JUDGE, JUDGE_ALONE, LAYERS, LAYERS_INTO};

pub struct Answer {
    /// The number of its line.
    pub line: usize,
    pub question: Question,
    /// What stands behind the question.
    pub said: String,
}

#[derive(Clone, Copy, PartialEq, Eq)]
pub enum Question {
    Figures {
        task: u64,
    },
    Layers {
        task: u64,
        p: u64,
        q: u64,
        /// How many words are lent, where the line says it.
        words: Option<u64>,
    },
    Demand {
        task: u64,
        p: u64,
        q: u64,
        x: u64,
    },
    Judge {
        m: u64,
        p: u64,
        q: u64,
    },
}

const NO_LINE: &str = "not understood; a line begins with task, tasks, vertex, vertices or edges, \
    and an answer line with figures, layers, demand or judge";

pub fn read(number: usize, line: &str) -> Result<Answer, String> {
    let (question, said) = match first_word(line) {
        "figures" => figures(line),
        "layers" => layers(line),
        "demand" => demand(line),
        "judge" => judge(line),
        _ => Err(NO_LINE.to_string()),
    }?;
    Ok(Answer {
        line: number,
        question,
        said: said.to_string(),
    })
}

type Asked<'a> = Result<(Question, &'a str), String>;

fn figures(line: &str) -> Asked<'_> {
    let (digits, said) = take_line("a figures", FIGURES, line)?;
    let [task] = numbers(digits)?;
    Ok((Question::Figures { task }, said))
}

fn layers(line: &str) -> Asked<'_> {
    if let Some((digits, said)) = take(LAYERS, line) {
        let ([task, p, q], words) = (numbers(digits)?, None);
        return Ok((Question::Layers { task, p, q, words }, said));
    }
    let found = take(LAYERS_INTO, line);
    let (digits, said) = found.ok_or_else(|| not_understood("a layers", &[LAYERS, LAYERS_INTO]))?;
    let [task, p, q, words] = numbers(digits)?;
    let words = Some(words);
    Ok((Question::Layers { task, p, q, words }, said))
}

fn demand(line: &str) -> Asked<'_> {
    let (digits, said) = take_line("a demand", DEMAND, line)?;
    let [task, p, q, x] = numbers(digits)?;
    Ok((Question::Demand { task, p, q, x }, said))
}

fn judge(line: &str) -> Asked<'_> {
    let alone = take(JUDGE_ALONE, line);
    let (digits, said) = alone.map_or_else(|| take_line("a judge", JUDGE, line), Ok)?;
    let [m, p, q] = numbers(digits)?;
    Ok((Question::Judge { m, p, q }, said))
}

fn numbers<const N: usize>(digits: [&str; N]) -> Result<[u64; N], String> {
    let mut numbers = [0; N];
    for (number, digits) in numbers.iter_mut().zip(digits) {
        *number = within("number", digits, u64::MAX)?;
    }
    Ok(numbers)
}
