//! The sets that are timed, kind by kind.

use crate::answer::Call;
use crate::draft::Draft;
use crate::draw::Draw;
use crate::shape::Shape;
use crate::swift::Swift;
use ::sets::draft::set_of;

pub struct Set {
    pub bytes: Vec<u8>,
    pub call: Call,
}

pub struct Kind {
    pub name: &'static str,
    pub sets: Vec<Set>,
}

impl Kind {
    /// Whether ticks one by one take seconds on each of its sets.
    pub fn is_large(&self) -> bool {
        !self.name.starts_with("typical")
    }
}

/// At p = q the bound is q, whatever m is: W(x) within x.
pub const FULL: Call = Call { m: 4, p: 31, q: 31 };
pub const LONGEST_CYCLE: u64 = 50_000;

pub fn encode(drafts: &[Draft], call: Call) -> Set {
    let tasks: Vec<_> = drafts.iter().map(Draft::task).collect();
    let bytes = set_of(&tasks);
    Set { bytes, call }
}

/// What tasks of n vertices are to be drawn.
#[derive(Clone, Copy)]
pub struct Plan<'a> {
    pub tasks: usize,
    pub n: usize,
    pub periods: &'a [u64],
    pub call: Call,
    /// Percent of the bound.
    pub load: u64,
    /// The least deadline, percent of the period.
    pub tight: u64,
}

/// Tasks that share the load; the periods go round, so that all of them occur.
pub fn spread(draw: &mut Draw, plan: Plan) -> Set {
    let Call { p, q, .. } = plan.call;
    // Volume per period of all tasks together, in millionths: bound / q.
    let all = plan.call.bound() * plan.load * 10_000 / q;
    let shares = draw.split(all, plan.tasks);
    let mut drafts = Vec::new();
    for (i, share) in shares.iter().enumerate() {
        let period = plan.periods[i % plan.periods.len()];
        let volume = (share * period / 1_000_000).max(1);
        let depth = if plan.n > 30 { 5 } else { 2 };
        let shape = Shape::nested(draw, plan.n, depth, plan.n / 4);
        let mut draft = Draft::new(shape, period);
        // What does not fit into this graph is left out.
        draft.grow(draw, volume, (p * period / q * 9 / 10).max(1));
        let (length, _) = draft.figures();
        let least = (q * length).div_ceil(p).max(period * plan.tight / 100);
        draft.deadline = draw.between(least.max(1), period);
        drafts.push(draft);
    }
    encode(&drafts, plan.call)
}

const TYPICAL_PERIODS: [u64; 10] = [
    10_000, 500, 2_000, 1_250, 5_000, 400, 2_500, 1_000, 625, 250,
];
pub const LARGE_PERIODS: [u64; 5] = [10_000, 6_250, 5_000, 3_125, 2_500];

/// Speeds 2/3 to 16/31, ten tasks of twenty vertices.
fn typical(draw: &mut Draw, m: u64, load: u64, tight: u64) -> Set {
    let call = Call {
        m,
        p: m,
        q: 2 * m - 1,
    };
    let plan = Plan {
        tasks: 10,
        n: 20,
        periods: &TYPICAL_PERIODS,
        call,
        load,
        tight,
    };
    spread(draw, plan)
}

fn large(draw: &mut Draw, load: u64, tight: u64) -> Set {
    let plan = Plan {
        tasks: 32,
        n: 64,
        periods: &LARGE_PERIODS,
        call: FULL,
        load,
        tight,
    };
    spread(draw, plan)
}

#[derive(Clone, Copy)]
pub struct Group {
    pub period: u64,
    pub volume: u64,
    pub tasks: usize,
}

/// Groups of tasks of n vertices; at p = q they are at the bound if volume / period sums up to 1.
pub fn grouped(draw: &mut Draw, n: usize, groups: &[Group]) -> Vec<Draft> {
    let drafts = groups.iter().flat_map(|part| group(draw, *part, n, false));
    drafts.collect()
}

/// Tasks of one period. Their deadlines follow one another, so that at each of them the demand of the
/// group meets its share of the bound (or is less than a time unit away): no rough look can clear much.
fn group(draw: &mut Draw, part: Group, n: usize, odd: bool) -> Vec<Draft> {
    let Group {
        period,
        volume,
        tasks,
    } = part;
    let (mut drafts, mut sum) = (Vec::new(), 0);
    for share in draw.split(volume, tasks) {
        sum += share;
        let deadline = (period * sum).div_ceil(volume);
        let mut draft = match odd {
            true => crossing(draw, period, share),
            false => exact(draw, n, period, share, share),
        };
        draft.deadline = deadline;
        drafts.push(draft);
    }
    drafts
}

/// Eight choices whose arms cross inside ticks: three jobs of a against one of c, where 3a - c is odd.
fn crossing(draw: &mut Draw, period: u64, volume: u64) -> Draft {
    let mut draft = Draft::new(Shape::crossings(8), period);
    let a = volume / 24;
    for start in (0..64).step_by(8) {
        let c = (a + 1 + draw.between(0, a)) | 1;
        let c = if a.is_multiple_of(2) { c } else { c + 1 };
        for job in start + 2..start + 5 {
            draft.times[job] = a;
        }
        draft.times[start + 6] = c.min(3 * a);
    }
    // A start may have time of its own; it is there in every way.
    draft.times[0] = volume - draft.figures().1;
    draft
}

/// Exactly the bound over the cycle: a group of period 10,000, and the others beside it. What they hold
/// in the cycle is a multiple of 5, so that the first group can hold the rest, five times.
fn at_bound(draw: &mut Draw, odd: bool) -> Vec<Draft> {
    let (others, mut drafts) = (draw.between(1, 3) as usize, Vec::new());
    let mut free = LONGEST_CYCLE;
    for &period in [6_250, 5_000, 2_500][..others].iter() {
        let (tasks, volume) = (draw.between(1, 6) as usize, 5 * draw.between(60, 120));
        free -= volume * (LONGEST_CYCLE / period);
        let part = Group {
            period,
            volume,
            tasks,
        };
        drafts.extend(group(draw, part, 64, odd));
    }
    let rest = Group {
        period: 10_000,
        volume: free / 5,
        tasks: 32 - drafts.len(),
    };
    drafts.extend(group(draw, rest, 64, odd));
    drafts
}

/// One unit more than the bound in the last task.
fn just_over(draw: &mut Draw) -> Set {
    let mut drafts = at_bound(draw, false);
    let last = drafts.last_mut().expect("32 tasks");
    last.times[0] += 1;
    encode(&drafts, FULL)
}

/// Thirty-one tasks of short periods and one of 6,250 that holds the rest of the bound exactly.
fn short(draw: &mut Draw, call: Call, periods: &[u64]) -> Set {
    let whole = call.bound() * LONGEST_CYCLE / call.q;
    let each = |period: u64| ((whole / 31 * period + LONGEST_CYCLE / 2) / LONGEST_CYCLE).max(1);
    let most = 6_250 * call.p / call.q;
    let (picked, rest) = loop {
        let picked: Vec<u64> = (0..31).map(|_| draw.pick(periods)).collect();
        let held: u64 = picked.iter().map(|&t| each(t) * (LONGEST_CYCLE / t)).sum();
        let free = whole.saturating_sub(held);
        if free.is_multiple_of(8) && (1..most).contains(&(free / 8)) {
            break (picked, free / 8);
        }
    };
    let mut drafts = Vec::new();
    for period in picked {
        drafts.push(exact(
            draw,
            64,
            period,
            each(period),
            call.p * period / call.q,
        ));
    }
    drafts.push(exact(draw, 64, 6_250, rest, most));
    encode(&drafts, call)
}

/// A task that takes half of speed 1/1 in periods of 2, and a few long ones that are due together too
/// soon: the overrun is some thousand ticks away, and half as many periods end before it.
fn soon(draw: &mut Draw) -> Set {
    let call = Call { m: 4, p: 1, q: 1 };
    let mut half = Draft::new(Shape::nested(draw, 1, 0, 0), 2);
    half.times[0] = 1;
    let (mut drafts, deadline) = (vec![half], draw.between(3_000, 6_000));
    for _ in 0..draw.between(4, 6) {
        let jobs = draw.between(1, 4) as usize;
        let mut long = Draft::new(Shape::nested(draw, jobs, 0, 0), 10_000);
        long.grow(draw, 900, 1_000);
        long.deadline = deadline;
        drafts.push(long);
    }
    encode(&drafts, call)
}

/// A task of n vertices with exactly this volume.
fn exact(draw: &mut Draw, n: usize, period: u64, volume: u64, longest: u64) -> Draft {
    loop {
        let mut draft = Draft::new(Shape::nested(draw, n, 5, n / 4), period);
        if draft.grow(draw, volume, longest) {
            return draft;
        }
    }
}

/// Draws until a set has the wanted answer; `draw` is told how often it was asked before.
fn until(mut draw: impl FnMut(u64) -> Set, wanted: impl Fn(u64, u64) -> bool) -> Set {
    let mut swift = Swift::new();
    let mut tries = 0;
    loop {
        let set = draw(tries);
        tries += 1;
        let answer = swift.judge(&set.bytes, set.call);
        if wanted(answer.number, answer.x) {
            return set;
        }
    }
}

/// `count` sets of a kind, each from its own seed and with the wanted answer.
fn kind(
    name: &'static str,
    count: u64,
    make: impl Fn(&mut Draw, u64, u64) -> Set,
    wanted: impl Fn(u64, u64) -> bool,
) -> Kind {
    let set = |i| {
        let mut draw = Draw::new(1_000 * name.len() as u64 + i);
        until(|tries| make(&mut draw, i, tries), &wanted)
    };
    Kind {
        name,
        sets: (0..count).map(set).collect(),
    }
}

fn accepted(number: u64, _: u64) -> bool {
    number == 0
}

fn overrun(number: u64, _: u64) -> bool {
    number == 9
}

/// Past the middle of the cycle.
fn late(number: u64, x: u64) -> bool {
    number == 9 && 2 * x > FULL.p * LONGEST_CYCLE
}

pub fn kinds() -> Vec<Kind> {
    let mut kinds = Vec::from(typical_kinds());
    kinds.extend(large_kinds());
    kinds.extend(adversarial_kinds());
    kinds
}

fn typical_kinds() -> [Kind; 2] {
    let moderate = |d: &mut Draw, i, _| typical(d, 2 + i, 30 + 2 * i, 60);
    let heavy = |d: &mut Draw, i, more| typical(d, 2 + i, 60 + 3 * i + 5 * more, 30);
    [
        kind("typical, accepted", 15, moderate, accepted),
        kind("typical, overrun", 15, heavy, overrun),
    ]
}

fn large_kinds() -> [Kind; 4] {
    let half = |d: &mut Draw, _, _| large(d, 50, 60);
    let bound = |d: &mut Draw, _, _| encode(&at_bound(d, false), FULL);
    let over = |d: &mut Draw, i, _| large(d, 120 + 5 * i, 40);
    [
        kind("largest, half load", 9, half, accepted),
        kind("largest, at the bound", 9, bound, accepted),
        kind("overloaded, early", 9, over, overrun),
        kind("overloaded, late", 9, |d, _, _| just_over(d), late),
    ]
}

fn adversarial_kinds() -> [Kind; 4] {
    let half = Call {
        m: 16,
        p: 15,
        q: 30,
    };
    let full_speed = |d: &mut Draw, _, _| short(d, FULL, &[25, 40, 40, 50]);
    let half_speed = move |d: &mut Draw, _, _| short(d, half, &[16, 20, 25, 40, 50]);
    let odd = |d: &mut Draw, _, _| encode(&at_bound(d, true), FULL);
    [
        kind("short periods, p = q", 9, full_speed, accepted),
        kind("short periods, 15/30", 9, half_speed, accepted),
        kind("crossings inside ticks", 9, odd, accepted),
        kind("overrun soon, short periods", 9, |d, _, _| soon(d), overrun),
    ]
}
