//! The three judges on each kind of set: first that they agree, then how long they take.

use crate::answer::Answer;
use crate::clock::{keep, median, medians, once, shown, times, LONG};
use crate::linked;
use crate::read::Reader;
use crate::sets::{Kind, Set};
use crate::swift::Swift;
use crate::ticks;
use std::time::{Duration, Instant};

/// How much time to spend.
#[derive(Clone, Copy)]
pub struct Effort {
    /// On each judge and set.
    pub budget: Duration,
    /// A kind takes no further set once it took this long, but always its first.
    pub patience: Duration,
    /// Large sets that the tick-by-tick judge is asked about.
    pub large_by_ticks: usize,
}

/// Medians over the sets of a kind, in seconds.
pub struct Row {
    pub proved: f64,
    pub swift: f64,
    pub ticks: f64,
    /// Tick by tick to proved, both over the sets that had both.
    pub speedup: f64,
    /// The largest ratio of one set, proved to swift.
    pub worst: f64,
    /// The least ratio of one set, tick by tick to proved.
    pub least: f64,
    pub sets: usize,
    pub by_ticks: usize,
}

/// The times of one set; a judge that was not asked has none.
struct Times {
    proved: f64,
    swift: f64,
    ticks: Option<f64>,
}

const FIRST_SETS: usize = 1;

pub fn row(kind: &Kind, effort: Effort) -> Row {
    let begin = Instant::now();
    let (mut taken, mut swift) = (Vec::new(), Swift::new());
    for (i, set) in kind.sets.iter().enumerate() {
        if i >= FIRST_SETS && begin.elapsed() > effort.patience {
            break;
        }
        let by_ticks = !kind.is_large() || i < effort.large_by_ticks;
        taken.push(time(kind, set, effort.budget, by_ticks, &mut swift));
    }
    let over = |f: fn(&Times) -> f64| median(taken.iter().map(f).collect());
    let ticks: Vec<f64> = taken.iter().filter_map(|t| t.ticks).collect();
    let beside_ticks = taken.iter().filter(|t| t.ticks.is_some());
    let proved_there = median(beside_ticks.map(|t| t.proved).collect());
    let speedups = taken.iter().filter_map(|t| Some(t.ticks? / t.proved));
    Row {
        proved: over(|t| t.proved),
        swift: over(|t| t.swift),
        by_ticks: ticks.len(),
        speedup: median(ticks.clone()) / proved_there,
        ticks: median(ticks),
        worst: taken.iter().map(|t| t.proved / t.swift).fold(0.0, f64::max),
        least: speedups.fold(f64::NAN, f64::min),
        sets: taken.len(),
    }
}

/// The answers must agree in every field, or no time means anything.
fn time(kind: &Kind, set: &Set, budget: Duration, by_ticks: bool, swift: &mut Swift) -> Times {
    let Set { bytes, call } = set;
    let mut found = Answer::default();
    let proved = once(&mut || found = linked::judge(bytes, *call));
    let agree = |other: Answer, name| assert_eq!(found, other, "{name} on {}", kind.name);
    agree(swift.judge(bytes, *call), "swift differs");
    let mut reader = Reader::new();
    let ticks = by_ticks.then(|| {
        let mut answer = Answer::default();
        let first = once(&mut || answer = ticks::judge(&mut reader, bytes, *call));
        agree(answer, "tick by tick differs");
        first
    });
    let mut by_swift = || keep(swift.judge(bytes, *call));
    let mut by_proof = || keep(linked::judge(bytes, *call));
    let mut each_tick = || keep(ticks::judge(&mut reader, bytes, *call));
    let one = |call: &mut dyn FnMut(), first: Duration| match first > LONG {
        true => first.as_secs_f64(),
        false => medians(&mut [call], budget)[0],
    };
    let ticks = ticks.map(|first| one(&mut each_tick, first));
    let both = match proved > LONG {
        true => vec![
            proved.as_secs_f64(),
            medians(&mut [&mut by_swift], budget)[0],
        ],
        false => medians(&mut [&mut by_proof, &mut by_swift], budget),
    };
    Times {
        proved: both[0],
        swift: both[1],
        ticks,
    }
}

pub fn head() {
    println!(
        "Bytes to answer, medians over the sets of a kind. Timed: sets (of these also by ticks)."
    );
    println!();
    println!(
        "| sets | timed | proved | fast Rust | tick by tick | ticks / proved (least) | proved / fast (worst) |"
    );
    println!("|---|---|---|---|---|---|---|");
}

/// Each line as soon as it is known.
pub fn line(kind: &Kind, row: &Row) {
    println!(
        "| {} | {} ({}) | {} | {} | {} | {} ({}) | {} ({}) |",
        kind.name,
        row.sets,
        row.by_ticks,
        shown(row.proved),
        shown(row.swift),
        shown(row.ticks),
        times(row.speedup),
        times(row.least),
        times(row.proved / row.swift),
        times(row.worst)
    );
}
