//! Histories of a task of one input: some at random, then all of them if the task is small, and else
//! the one of the theorem.

use super::every::Ways;
use super::trial::{Asked, Trial};
use super::{random, theorem, Interval};
use crate::compare::Disagreement;
use crate::generate::Input;
use crate::numbers::Numbers;
use crate::records::read;
use crate::run::Counts;
use crate::speed::Speed;

/// Keeps the numbers of the histories apart from those of the inputs.
const SALT: u64 = 0x6869_7374_6f72_6965;
/// Of each task.
const RANDOM_HISTORIES: u64 = 8;
const THEOREM_INTERVALS: u64 = 6;
/// How long the intervals of all histories get.
const MOST_PERIODS: u64 = 3;

/// What was tried so far.
#[derive(Default)]
pub struct Histories {
    pub tasks: u64,
    pub random: u64,
    /// Random ones whose work inside is as much as the demand, and above 0.
    pub reached: u64,
    pub small_tasks: u64,
    /// Intervals with the largest of all histories of a small task.
    pub largest: u64,
    pub other_tasks: u64,
    pub theorem: u64,
}

impl Counts for Histories {
    fn add(&mut self, other: &Histories) {
        self.tasks += other.tasks;
        self.random += other.random;
        self.reached += other.reached;
        self.small_tasks += other.small_tasks;
        self.largest += other.largest;
        self.other_tasks += other.other_tasks;
        self.theorem += other.theorem;
    }
}

/// Nothing is tried where the set is not readable, or the task drawn has no work or is not spared.
pub fn check(
    input: &Input,
    (seed, index): (u64, u64),
    histories: &mut Histories,
) -> Result<(), Disagreement> {
    let mut numbers = Numbers::new(seed ^ SALT, index);
    let tasks = read(&input.set).unwrap_or_default();
    if tasks.is_empty() {
        return Ok(());
    }
    let number = numbers.index(tasks.len());
    let (_, p, q) = input.call.rate();
    let Some(spared) = random::spared(&mut numbers, &tasks[number], Speed { p, q }) else {
        return Ok(());
    };
    histories.tasks += 1;
    let asked = Asked::new(&input.set, number, spared);
    check_random(&asked, &mut numbers, histories)?;
    match Ways::of(spared) {
        Some(ways) => check_largest(&asked, &ways, &mut numbers, histories),
        None => check_theorem(&asked, &mut numbers, histories),
    }
}

fn check_random(
    asked: &Asked,
    numbers: &mut Numbers,
    histories: &mut Histories,
) -> Result<(), Disagreement> {
    for _ in 0..RANDOM_HISTORIES {
        let history = random::history(numbers, &asked.spared);
        let interval = random::interval(numbers, &asked.spared, &history);
        let trial = asked.run(history, interval);
        let reaches = asked.reaches("a random history", &trial)?;
        histories.random += 1;
        histories.reached += u64::from(reaches && trial.work > 0);
    }
    Ok(())
}

fn check_largest(
    asked: &Asked,
    ways: &Ways,
    numbers: &mut Numbers,
    histories: &mut Histories,
) -> Result<(), Disagreement> {
    histories.small_tasks += 1;
    let a = asked.spared.deadline + numbers.below(3);
    for x in 0..=MOST_PERIODS * asked.spared.period {
        let interval = Interval { a, x };
        let (work, history) = ways.largest(interval);
        let trial = Trial {
            history,
            interval,
            work,
        };
        asked.must_reach("the largest of all histories", &trial)?;
        histories.largest += 1;
    }
    Ok(())
}

fn check_theorem(
    asked: &Asked,
    numbers: &mut Numbers,
    histories: &mut Histories,
) -> Result<(), Disagreement> {
    histories.other_tasks += 1;
    for _ in 0..THEOREM_INTERVALS {
        let a = asked.spared.deadline + numbers.below(asked.spared.period);
        let x = random::ticks(numbers, &asked.spared);
        let interval = Interval { a, x };
        let trial = asked.run(theorem::history(&asked.spared, interval), interval);
        asked.must_reach("the history of the theorem", &trial)?;
        histories.theorem += 1;
    }
    Ok(())
}
