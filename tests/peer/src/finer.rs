//! Finer grids (request 12): with each tick cut into n equal parts the speed is n·p/n·q, and judge
//! gives the same number at it, with 8 for the same task. With 9 the first tick that overruns may
//! come before ours.

use crate::compare::{same, Disagreement};
use crate::entries::{self, Judged};
use crate::generate::Input;
use crate::library;
use crate::numbers::Numbers;
use crate::records::{read, Reading};
use crate::run::Counts;
use crate::speed::{Speed, LARGEST_Q};
use crate::verdict::common_cycle;

/// Keeps the numbers of the grids apart from those of the inputs.
const SALT: u64 = 0x6669_6e65_7267_7269;
/// Ticks of a finer cycle beyond which a set is left, so that one input costs no more than moments.
const MOST_TICKS: u64 = 20_000;

/// What was tried so far.
#[derive(Default)]
pub struct Grids {
    /// Sets by the number given.
    pub numbers: [u64; 10],
    /// Sets that overrun first between two ticks of ours.
    pub between: u64,
}

impl Counts for Grids {
    fn add(&mut self, other: &Grids) {
        for (mine, more) in self.numbers.iter_mut().zip(other.numbers) {
            *mine += more;
        }
        self.between += other.between;
    }
}

/// A speed, and the number of parts that its ticks are cut into.
struct Cut {
    speed: Speed,
    n: u64,
}

impl Cut {
    /// The speed given, unless it has no finer one in range.
    fn random(numbers: &mut Numbers, given: Speed) -> Cut {
        let coarse = |speed: &Speed| 2 * speed.q <= LARGEST_Q;
        let others: Vec<Speed> = Speed::all().filter(coarse).collect();
        let other = numbers.pick(&others);
        let speed = if coarse(&given) { given } else { other };
        Cut {
            speed,
            n: numbers.between(2, LARGEST_Q / speed.q),
        }
    }

    fn finer(&self) -> Speed {
        Speed {
            p: self.n * self.speed.p,
            q: self.n * self.speed.q,
        }
    }
}

pub fn check(
    input: &Input,
    (seed, index): (u64, u64),
    grids: &mut Grids,
) -> Result<(), Disagreement> {
    let (m, p, q) = input.call.rate();
    let cut = Cut::random(&mut Numbers::new(seed ^ SALT, index), Speed { p, q });
    let reading = read(&input.set);
    if !is_short(&reading, cut.finer()) {
        return Ok(());
    }
    let ours = judged(&input.set, &reading, m, cut.speed)?;
    let finer = judged(&input.set, &reading, m, cut.finer())?;
    if (ours.number, ours.place) != (finer.number, finer.place) {
        return Err(disagreement(m, &cut, ours, finer));
    }
    grids.numbers[ours.number as usize] += 1;
    grids.between += u64::from(!finer.x.is_multiple_of(cut.n));
    Ok(())
}

/// Whether the set is readable and its cycle short, or so long that judge looks at no tick.
fn is_short(reading: &Reading, speed: Speed) -> bool {
    let Ok(tasks) = reading else {
        return false;
    };
    let cycle = common_cycle(tasks.iter().map(|task| task.period));
    cycle.is_none_or(|cycle| speed.p * cycle <= MOST_TICKS)
}

/// The library's answer, which must be the peer's.
fn judged(set: &[u8], reading: &Reading, m: u64, speed: Speed) -> Result<Judged, Disagreement> {
    let Speed { p, q } = speed;
    let peer = entries::judge(entries::verdict(reading, m, p, q));
    let text = format!("m {m}, speed {p}/{q}");
    same("judge", &text, peer, library::judge(set, m, p, q))?;
    Ok(peer)
}

fn disagreement(m: u64, cut: &Cut, ours: Judged, finer: Judged) -> Disagreement {
    let (Speed { p, q }, fine) = (cut.speed, cut.finer());
    Disagreement {
        entry: "judge on a finer grid".to_string(),
        call: format!("m {m}, speed {p}/{q} and then {}/{}", fine.p, fine.q),
        peer: "one number and place for both".to_string(),
        library: format!("{ours:?} and then {finer:?}"),
    }
}
