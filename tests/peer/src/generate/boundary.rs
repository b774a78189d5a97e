//! Sets on each side of a line: the bound on demand, the density of a task, the longest cycle.

use super::call::{fair_speed, Call};
use super::shape::Shape;
use super::tasks::{divisors, set_times, task_of, Plan};
use super::Made;
use crate::entries::{judge, verdict};
use crate::numbers::Numbers;
use crate::records::{read, LONGEST_JOB};
use crate::verdict::greatest_divisor;
use sets::draft::{set_of, Draft};

/// Single jobs that ask for exactly the bound at their deadline, or one time unit more or less.
///
/// With a deadline of q·d and the rate c = m·q - (m-1)·p, jobs of c·d in all demand q·c·d units at
/// tick p·q·d, and p times that is the bound c·(p·q·d).
pub fn exact_bound(numbers: &mut Numbers) -> Made {
    let (p, q) = fair_speed(numbers);
    let m = numbers.between(1, 16);
    let rate = m * q - (m - 1) * p;
    let d = numbers.between(1, 1 + 120 / rate.max(p));
    let mut left = (rate * d + numbers.below(3)).saturating_sub(1);
    let deadline = q * d;
    let period = deadline * numbers.pick(&[1, 1, 2, 3]);
    let mut drafts = Vec::new();
    // A job longer than p·d would be dense, so the jobs are shared out.
    while left > 0 && drafts.len() < 32 {
        let time = numbers.between(left.min(p * d).div_ceil(2), left.min(p * d));
        drafts.push(Draft::job(time as u32, deadline as u32, period as u32));
        left -= time;
    }
    (set_of(&drafts), Call::fair(numbers, m, (p, q)))
}

/// Single jobs due at the ends of their periods that ask for all of a common cycle at full speed, or for one
/// time unit more or less. One too many overruns at the very end of the cycle H and not before: by
/// tick x the jobs ask for at most x + x/H, in whole units.
pub fn full_cycle(numbers: &mut Numbers) -> Made {
    let off = numbers.below(3);
    let jobs = if numbers.once_in(2) {
        once_in_cycle(numbers, off)
    } else {
        coprime(numbers, off)
    };
    let job = |&(time, period): &(u64, u64)| Draft::job(time as u32, period as u32, period as u32);
    let drafts: Vec<Draft> = jobs.iter().map(job).collect();
    let m = numbers.between(1, 16);
    let speed = numbers.pick(&[1, 1, 2, 3, 7]);
    let mut call = Call::fair(numbers, m, (speed, speed));
    call.aim(numbers, &drafts);
    (set_of(&drafts), call)
}

/// Times and periods, filled up with jobs that come once in the cycle.
fn once_in_cycle(numbers: &mut Numbers, off: u64) -> Vec<(u64, u64)> {
    let cycle = numbers.pick(&[6, 12, 20, 24, 30, 36, 48, 60, 120, 240]);
    let divisors = divisors(cycle);
    let mut left = cycle + off - 1;
    let mut jobs = Vec::new();
    for _ in 0..numbers.between(1, 4) {
        let period = numbers.pick(&divisors[..divisors.len() - 1]);
        let time = numbers.between(0, (left * period / cycle).min(period));
        jobs.push((time, period));
        left -= time * (cycle / period);
    }
    while left > 0 {
        jobs.push((left.min(cycle), cycle));
        left -= left.min(cycle);
    }
    jobs
}

/// Times and periods of two jobs, so that the end of the cycle is beyond both periods.
fn coprime(numbers: &mut Numbers, off: u64) -> Vec<(u64, u64)> {
    const PERIODS: [(u64, u64); 9] = [
        (2, 3),
        (3, 4),
        (3, 5),
        (5, 6),
        (4, 7),
        (7, 9),
        (9, 10),
        (11, 12),
        (16, 15),
    ];
    let (one, other) = numbers.pick(&PERIODS);
    let all = one * other + off - 1;
    let fits = |time: &u64| (all - time * other).is_multiple_of(one);
    // As the periods have no common divisor, one of these leaves a whole number for the other job.
    let time = (0..one).find(fits).unwrap_or(0);
    vec![(time, one), ((all - time * other) / one, other)]
}

/// The longest time of one job with which a random set is still accepted, or one more.
pub fn straddled_bound(numbers: &mut Numbers) -> Made {
    let mut call = super::call::random(numbers);
    let (m, p, q) = call.rate();
    (call.m, call.p, call.q) = (m, p, q);
    let mut plan = Plan::random(numbers, &call);
    plan.cycle = plan.cycle.min(60);
    plan.room = plan.room.min(8);
    plan.light = true;
    let mut drafts = plan.drafts(numbers);
    let task = numbers.index(drafts.len());
    let vertex = numbers.index(drafts[task].vertices.len());
    let (mut accepted, mut refused) = (0, LONGEST_JOB);
    while refused - accepted > 1 {
        let middle = (accepted + refused) / 2;
        drafts[task].vertices[vertex].time = middle;
        match judge(verdict(&read(&set_of(&drafts)), m, p, q)).number {
            0 => accepted = middle,
            _ => refused = middle,
        }
    }
    drafts[task].vertices[vertex].time = numbers.pick(&[accepted, refused]);
    call.aim(numbers, &drafts);
    (set_of(&drafts), call)
}

/// A task whose q·length is exactly p·deadline, or one off; its first job is longer by `more`.
fn as_dense_as(numbers: &mut Numbers, (p, q): (u64, u64), more: u32) -> Draft {
    let room = numbers.between(1, 16);
    let shape = Shape::random(numbers, room as usize, 3, false);
    let mut draft = shape.draft(numbers, 8);
    set_times(numbers, &mut draft);
    draft
        .vertices
        .iter_mut()
        .for_each(|vertex| vertex.time %= 60);
    let off = numbers.below(3);
    // A longer first job makes the whole task longer by as much.
    draft.vertices[0].time += more;
    for _ in 0..p {
        let ticks = q * crate::curve::figures(&task_of(&draft)).length + off;
        if ticks > p && (ticks - 1).is_multiple_of(p) {
            draft.deadline = ((ticks - 1) / p) as u32;
            break;
        }
        draft.vertices[0].time += 1;
    }
    draft.deadline = draft.deadline.clamp(1, 10_000);
    draft.period = draft.deadline;
    draft
}

/// A task as dense as the speed of its call, behind others that take no time.
pub fn density(numbers: &mut Numbers) -> Made {
    let (m, speed) = (numbers.between(1, 16), fair_speed(numbers));
    let mut drafts = vec![Draft::job(0, 1, 1); numbers.index(3)];
    drafts.push(as_dense_as(numbers, speed, 0));
    let mut call = Call::fair(numbers, m, speed);
    call.task = drafts.len() - 1;
    call.aim(numbers, &drafts);
    (set_of(&drafts), call)
}

/// No speed is named, and tasks as dense as some speed may decide which one it is: the longer they
/// are, the more often it is the next above. One period keeps the common cycle short.
pub fn default_speed(numbers: &mut Numbers) -> Made {
    let m = numbers.between(1, 16);
    let tasks = numbers.pick(&[0, 1, 1, 1, 1, 2, 2, 3]);
    let mut drafts = Vec::new();
    for _ in 0..tasks {
        let (speed, more) = (upper_speed(numbers), numbers.pick(&[0, 0, 30, 300]));
        drafts.push(as_dense_as(numbers, speed, more));
    }
    let period = drafts.iter().map(|draft| draft.deadline).max().unwrap_or(1);
    drafts.iter_mut().for_each(|draft| draft.period = period);
    let mut call = Call::fair(numbers, m, (0, 0));
    call.aim(numbers, &drafts);
    (set_of(&drafts), call)
}

/// From a half up, where m/(2m-1) is; in lowest terms, since else no length could be one off.
fn upper_speed(numbers: &mut Numbers) -> (u64, u64) {
    let most = numbers.pick(&[1, 31, 31, 31]);
    let q = numbers.between(1, most);
    let p = numbers.between(q.div_ceil(2), q);
    let divisor = greatest_divisor(p, q);
    (p / divisor, q / divisor)
}

/// Cycles on both sides of 50,000, each with two periods that make it.
const CYCLES: [(u64, u64, u64); 8] = [
    (49_995, 9_999, 5),
    (49_998, 8_333, 6),
    (50_000, 10_000, 6_250),
    (50_000, 10_000, 3_125),
    (50_000, 3_125, 80),
    (50_001, 7_143, 7),
    (50_002, 2_174, 23),
    (50_004, 5_556, 27),
];

/// Jobs of little work whose periods have a common cycle of about 50,000; sometimes one of them is dense.
pub fn long_cycle(numbers: &mut Numbers) -> Made {
    let (cycle, one, other) = numbers.pick(&CYCLES);
    let mut drafts = vec![light_job(numbers, one), light_job(numbers, other)];
    for _ in 0..numbers.below(3) {
        let period = numbers.pick(&divisors(cycle));
        drafts.push(light_job(numbers, period));
    }
    if numbers.once_in(8) {
        drafts.push(Draft::job(2, 1, numbers.pick(&[1, 1, 7, 9_999])));
    }
    let at = numbers.index(drafts.len());
    drafts.swap(0, at);
    let m = numbers.between(1, 16);
    let speed = numbers.pick(&[(1, 1), (1, 2), (1, 1), (2, 3), (1, 31), (0, 0)]);
    let mut call = Call::fair(numbers, m, speed);
    call.aim(numbers, &drafts);
    (set_of(&drafts), call)
}

fn light_job(numbers: &mut Numbers, period: u64) -> Draft {
    let deadline = numbers.between(period.div_ceil(2), period);
    let time = numbers.below(1 + (deadline / 40).min(20));
    Draft::job(time as u32, deadline as u32, period as u32)
}

/// As many ticks as a judge may have to go through: 31 times 50,000; now and then with all 32 tasks.
pub fn most_ticks(numbers: &mut Numbers) -> Made {
    let mut drafts = vec![Draft::job(1, 9_000, 10_000), Draft::job(1, 6_000, 6_250)];
    let more = if numbers.once_in(10) {
        30
    } else {
        numbers.below(3)
    };
    for _ in 0..more {
        let period = numbers.pick(&[625, 1_000, 5_000, 10_000]);
        drafts.push(Draft::job(numbers.below(4) as u32, period, period));
    }
    let m = numbers.between(1, 16);
    let mut call = Call::fair(numbers, m, (31, 31));
    call.x = numbers.between(1_500_000, 1_550_001);
    (set_of(&drafts), call)
}
