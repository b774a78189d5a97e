//! What layers cost, by the ticks of a task and by its pairs.

use crate::clock::{keep, medians, shown};
use crate::draft::Draft;
use crate::draw::Draw;
use crate::linked;
use crate::read::MOST_TIME;
use crate::sets::{encode, FULL};
use crate::shape::Shape;
use std::time::Duration;

const PERIOD: u64 = 10_000;

fn line(draft: &Draft, budget: Duration) {
    let set = encode(std::slice::from_ref(draft), FULL).bytes;
    let mut table = vec![0; 1 << 17];
    let [number, pairs] = linked::layers(&set, 0, FULL.p, FULL.q, &mut table);
    assert_eq!(number, 0, "the table has room");
    let length = linked::figures(&set, 0)[1];
    let mut reading = || keep(linked::figures(&set, 99));
    let mut layers = || keep(linked::layers(&set, 0, FULL.p, FULL.q, &mut table));
    let found = medians(&mut [&mut reading, &mut layers], budget);
    println!(
        "| {} | {} | {pairs} | {} | {} |",
        draft.times.len(),
        FULL.q * length,
        shown(found[0]),
        shown(found[1])
    );
}

fn head(what: &str) {
    println!("{what}");
    println!();
    println!("| vertices | ticks | pairs | reading | layers |");
    println!("|---|---|---|---|---|");
}

pub fn print(budget: Duration) {
    let mut draw = Draw::new(5);
    let mut base = Draft::new(Shape::nested(&mut draw, 64, 5, 16), PERIOD);
    base.times
        .iter_mut()
        .for_each(|time| *time = draw.between(1, 9));
    head("Layers of one graph, job times scaled (ticks grow, pairs hardly do), q = 31:");
    for factor in [1, 10, 100, 1_000, 1_111] {
        let mut longer = base.clone();
        longer.times.iter_mut().for_each(|time| *time *= factor);
        line(&longer, budget);
    }
    head("\nLayers of the longest jobs, in the same graph and one after the other, q = 31:");
    for shape in [base.shape, Shape::chain(64)] {
        let mut longest = Draft::new(shape, PERIOD);
        longest.times.fill(MOST_TIME);
        line(&longest, budget);
    }
    head("\nLayers of choices in a row that cross inside ticks (pairs grow, ticks hardly do), q = 31:");
    for choices in [1, 2, 4, 8] {
        let mut draft = Draft::new(Shape::crossings(choices), PERIOD);
        let wide = 160 / choices as u64;
        for start in (0..8 * choices).step_by(8) {
            draft.times[start + 2..start + 5].fill(wide);
            draft.times[start + 6] = wide + wide / 2 + 1;
        }
        line(&draft, budget);
    }
    println!();
}
