//! Random tasks whose times, deadlines and periods suit the call, so that verdicts are reached.

use super::call::Call;
use super::shape::Shape;
use crate::numbers::Numbers;
use crate::records::{read, Task, LONGEST_JOB};
use sets::draft::{set_of, Draft};

/// What the tasks of a set have in common.
pub struct Plan {
    m: u64,
    p: u64,
    q: u64,
    /// All periods divide it.
    pub cycle: u64,
    pub tasks: u64,
    /// Whether the tasks are made to leave the rack some room.
    pub light: bool,
    pub room: u64,
    /// How job times are drawn.
    pub times: fn(&mut Numbers, &mut Draft),
}

const CYCLES: [u64; 16] = [1, 2, 5, 6, 12, 20, 24, 30, 36, 48, 60, 72, 84, 96, 120, 240];

impl Plan {
    pub fn random(numbers: &mut Numbers, call: &Call) -> Plan {
        let (m, p, q) = call.rate();
        let mut cycle = numbers.pick(&CYCLES);
        if p <= 4 && numbers.once_in(6) {
            cycle *= numbers.pick(&[2, 7, 10, 25]);
        }
        Plan {
            m,
            p,
            q,
            cycle,
            tasks: numbers.pick(&[1, 1, 1, 1, 2, 2, 2, 3, 3, 4, 6]),
            light: !numbers.once_in(3),
            room: numbers.pick(&[1, 4, 6, 8, 10, 14, 20]),
            times: set_times,
        }
    }

    pub fn drafts(&self, numbers: &mut Numbers) -> Vec<Draft> {
        (0..self.tasks).map(|_| self.draft(numbers)).collect()
    }

    fn draft(&self, numbers: &mut Numbers) -> Draft {
        let (depth, full) = (numbers.pick(&[0, 1, 2, 3, 6]), numbers.once_in(4));
        let shape = Shape::random(numbers, self.room as usize, depth, full);
        self.fitted(numbers, &shape)
    }

    /// A task of this shape. Its times are halved until it has a chance to fit.
    pub fn fitted(&self, numbers: &mut Numbers, shape: &Shape) -> Draft {
        let spread = numbers.pick(&[2, 6, 20, 1_000]);
        let mut draft = shape.draft(numbers, spread);
        (self.times)(numbers, &mut draft);
        let (mut need, mut least) = self.needs(&draft);
        while need.max(least) > longest_period(self.cycle) && !numbers.once_in(40) {
            draft
                .vertices
                .iter_mut()
                .for_each(|vertex| vertex.time /= 2);
            (need, least) = self.needs(&draft);
        }
        draft.period = self.period(numbers, need.max(least)) as u32;
        draft.deadline = deadline(numbers, need, u64::from(draft.period)) as u32;
        draft
    }

    /// The shortest deadline that is not dense, and the shortest period of a fair share of the rack.
    fn needs(&self, draft: &Draft) -> (u64, u64) {
        let figures = crate::curve::figures(&task_of(draft));
        let need = (self.q * figures.length).div_ceil(self.p);
        let rate = self.m * self.q - (self.m - 1) * self.p;
        let share = (figures.volume * self.tasks * self.q).div_ceil(rate);
        (need, if self.light { share } else { 0 })
    }

    /// A divisor of the cycle, mostly one of at least `least`.
    fn period(&self, numbers: &mut Numbers, least: u64) -> u64 {
        let divisors = divisors(self.cycle);
        let fit: Vec<u64> = divisors
            .iter()
            .copied()
            .filter(|one| *one >= least)
            .collect();
        if fit.is_empty() || numbers.once_in(30) {
            return numbers.pick(&divisors);
        }
        numbers.pick(&fit)
    }
}

fn longest_period(cycle: u64) -> u64 {
    cycle.min(10_000)
}

/// Those that may be periods.
pub fn divisors(cycle: u64) -> Vec<u64> {
    (1..=longest_period(cycle))
        .filter(|one| cycle.is_multiple_of(*one))
        .collect()
}

fn deadline(numbers: &mut Numbers, need: u64, period: u64) -> u64 {
    let least = need.clamp(1, period);
    match numbers.below(6) {
        0 => least,
        1 | 2 => period,
        3 if numbers.once_in(4) => numbers.between(1, period),
        _ => numbers.between(least, period),
    }
}

/// Zeros, small times, or times up to the largest.
pub fn set_times(numbers: &mut Numbers, draft: &mut Draft) {
    let most = numbers.pick(&[0, 1, 2, 3, 3, 5, 8, 8, 20, 50, 1_000, LONGEST_JOB.into()]);
    let zeros = numbers.pick(&[2, 4, 4, 10, 1_000]);
    for vertex in &mut draft.vertices {
        let time = numbers.between(0, most) as u32;
        vertex.time = if numbers.once_in(zeros) && most < 1_000 {
            0
        } else {
            time
        };
    }
}

/// Times about the longest, about the longest before request 2, and anywhere in the range; many zeros,
/// so that the long ones have a chance to fit.
pub fn set_long_times(numbers: &mut Numbers, draft: &mut Draft) {
    for vertex in &mut draft.vertices {
        vertex.time = match numbers.below(4) {
            0 => numbers.pick(&[1, 999, 1_000, 1_001, LONGEST_JOB - 1, LONGEST_JOB]),
            1 => numbers.between(0, LONGEST_JOB.into()) as u32,
            _ => 0,
        };
    }
}

/// The task that the reader makes of a draft, which must keep the graph rules; its deadline and period
/// may not be set yet.
pub fn task_of(draft: &Draft) -> Task {
    let mut whole = draft.clone();
    whole.mill = 1;
    (whole.deadline, whole.period) = (1, 1);
    let tasks = read(&set_of(&[whole])).expect("the draft keeps the rules");
    tasks.into_iter().next().expect("one task")
}
