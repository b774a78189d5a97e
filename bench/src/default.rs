//! What it costs to name no speed: a call at 0/0, beside the same call with the speed that 0/0
//! stood for. Both search the same ticks.

use crate::answer::{Answer, Call};
use crate::clock::{keep, median, medians, shown, times};
use crate::linked;
use crate::sets::{Kind, Set};
use crate::swift::Swift;
use std::time::Duration;

const SETS: usize = 5;

/// Seconds of the call that names the speed, and of the one at 0/0.
fn both(set: &Set, budget: Duration) -> [f64; 2] {
    let (bytes, m) = (&set.bytes, set.call.m);
    let unnamed = Call { m, p: 0, q: 0 };
    let found = linked::judge(bytes, unnamed);
    assert_ne!(found.q, 0, "no length of ours exceeds its deadline");
    let (p, q) = (found.p, found.q);
    let named = Call { m, p, q };
    let agree = |other: Answer, name| assert_eq!(found, other, "{name} at 0/0");
    agree(linked::judge(bytes, named), "the named call differs");
    agree(Swift::new().judge(bytes, unnamed), "swift differs");
    let mut by_name = || keep(linked::judge(bytes, named));
    let mut by_default = || keep(linked::judge(bytes, unnamed));
    let found = medians(&mut [&mut by_name, &mut by_default], budget);
    [found[0], found[1]]
}

pub fn print(kinds: &[Kind], budget: Duration) {
    println!("A call at 0/0 beside one that names the speed it stood for: medians.");
    println!();
    println!("| sets | named | 0/0 | difference | 0/0 / named |");
    println!("|---|---|---|---|---|");
    for kind in kinds {
        let sets = kind.sets.iter().take(SETS);
        let found: Vec<[f64; 2]> = sets.map(|set| both(set, budget)).collect();
        let over = |f: fn(&[f64; 2]) -> f64| median(found.iter().map(f).collect());
        println!(
            "| {} | {} | {} | {:.0} ns | {} |",
            kind.name,
            shown(over(|times| times[0])),
            shown(over(|times| times[1])),
            over(|times| times[1] - times[0]) * 1e9,
            times(over(|times| times[1] / times[0]))
        );
    }
    println!();
}
