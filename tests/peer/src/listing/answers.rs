//! What the peer, the library and the programs answer to a line's question, in the words of a listing.

use crate::entries::{self, Demanded, Figured, Judged, Layered};
use crate::lent::Lent;
use crate::library;
use crate::program::{judged_line, Feed, PROGRAMS};
use crate::records::Reading;

fn refused(number: u64, place: u64) -> String {
    format!("refused {number} at {place}")
}

pub fn figures(set: &[u8], reading: &Reading, task: usize) -> Vec<String> {
    let text = |answer: Figured| match answer.number {
        0 => format!("length {}, volume {}", answer.length, answer.volume),
        number => refused(number, answer.place),
    };
    let (peer, library) = (
        entries::figures(reading, task),
        library::figures(set, task).0,
    );
    vec![text(peer), text(library)]
}

pub fn demand(
    set: &[u8],
    reading: &Reading,
    task: usize,
    (p, q): (u64, u64),
    x: u64,
) -> Vec<String> {
    let text = |answer: Demanded| match answer.number {
        0 => answer.work.to_string(),
        number => refused(number, answer.place),
    };
    let peer = entries::demand(reading, task, p, q, x);
    vec![text(peer), text(library::demand(set, task, p, q, x).0)]
}

pub fn layers(
    set: &[u8],
    reading: &Reading,
    task: usize,
    (p, q): (u64, u64),
    words: usize,
) -> Vec<String> {
    let (mut own, mut lent) = (Lent::new(words, 1), Lent::new(words, 1));
    let pairs = entries::layer_pairs(reading, task, p, q);
    let peer = entries::layers(&pairs, own.table());
    let (library, _) = library::layers(set, task, p, q, &mut lent);
    vec![
        layers_text(peer, own.table()),
        layers_text(library, lent.table()),
    ]
}

fn layers_text(answer: Layered, table: &[u32]) -> String {
    match (answer.number, answer.pairs) {
        (0, 0) => "none".to_string(),
        (0, pairs) => {
            let pairs = table.chunks(2).take(pairs as usize);
            let texts: Vec<String> = pairs
                .map(|pair| format!("({},{})", pair[0], pair[1]))
                .collect();
            texts.join(" ")
        }
        (number, _) => refused(number, answer.place),
    }
}

pub fn judge(set: &[u8], reading: &Reading, [m, p, q]: [u64; 3]) -> Result<Vec<String>, String> {
    let peer = entries::judge(entries::verdict(reading, m, p, q));
    let (library, _) = library::judge(set, m, p, q);
    let mut bytes = Vec::new();
    for number in [m, p, q] {
        bytes.push(u8::try_from(number).map_err(|_| format!("{number} is no byte"))?);
    }
    bytes.extend(set);
    // For a set that is longer than a program takes this is `too long` or 11, for 0/0 the answer at
    // m/(2m-1), and else the answer in the listing.
    let feed = Feed { bytes, piece: 0 };
    for program in PROGRAMS {
        let (name, due) = (program.name(), program.line(&feed.bytes));
        let shown = program.printed(&feed).map_err(|error| error.to_string())?;
        if shown != due {
            return Err(format!("{name} prints {shown:?}, and not {due:?}"));
        }
    }
    Ok(vec![judge_text(peer, (p, q)), judge_text(library, (p, q))])
}

/// Number, place, x and W, and the speed used, where the call does not name it. A refusal has none.
fn judge_text(answer: Judged, asked: (u64, u64)) -> String {
    let named = match answer.number {
        0 | 9 => asked,
        _ => (0, 0),
    };
    let line = judged_line(answer).trim_end().to_string();
    match (answer.p, answer.q) {
        used if used == named => line,
        (p, q) => format!("{line} at {p}/{q}"),
    }
}
