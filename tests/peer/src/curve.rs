//! Length, volume and remaining demand of a task: by listing where the ways are few, by latest ends
//! always; where both are worked out they must agree.

use crate::latest::{self, Block};
use crate::realization::{realizations, Realization};
use crate::records::Task;

const FEW_WAYS: usize = 256;
/// Ways times ticks beyond which the list is left, so that one input costs no more than moments.
const MOST_TICKS_LISTED: u64 = 6_000_000;

#[derive(Clone, Copy, Debug, PartialEq, Eq)]
pub struct Figures {
    pub length: u64,
    pub volume: u64,
}

/// In time units.
pub fn figures(task: &Task) -> Figures {
    let by_latest = Figures {
        length: latest::length(task),
        volume: Block::of(task).remaining(1, 0),
    };
    if let Some(all) = realizations(task, FEW_WAYS) {
        let listed = Figures {
            length: all.iter().map(Realization::length).max().unwrap_or(0),
            volume: all.iter().map(|one| one.volume(task)).max().unwrap_or(0),
        };
        assert_eq!(listed, by_latest, "the two methods differ on the figures");
    }
    by_latest
}

/// rdem at each tick from 0 to q·length; it is 0 from there on.
pub fn remaining_demand(task: &Task, q: u64) -> Vec<u64> {
    let ticks = q * latest::length(task);
    let block = Block::of(task);
    let by_latest: Vec<u64> = (0..=ticks).map(|x| block.remaining(q, x)).collect();
    if let Some(listed) = listed_demand(task, q, ticks) {
        assert!(
            listed == by_latest,
            "the two methods differ on remaining demand"
        );
    }
    by_latest
}

fn listed_demand(task: &Task, q: u64, ticks: u64) -> Option<Vec<u64>> {
    let most = (MOST_TICKS_LISTED / (ticks + 1)).min(FEW_WAYS as u64);
    if most == 0 {
        return None;
    }
    let mut largest = vec![0; ticks as usize + 1];
    for one in realizations(task, most as usize)? {
        let remaining = one.remaining(task, q, ticks as usize);
        for (most, here) in largest.iter_mut().zip(remaining) {
            *most = here.max(*most);
        }
    }
    Some(largest)
}
