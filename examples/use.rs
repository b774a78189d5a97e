//! The rack test from Rust: all calls, on the set whose file is named.
//!
//!     rustc --edition 2024 -L target/staticlib -l static=rack examples/use.rs -o target/use_rs
//!     target/use_rs examples/x.set

#[path = "../include/rack.rs"]
mod rack;

use rack::{Number, Upload, Verdict};

/// Prints what a verdict says; false where the set was refused.
fn print_verdict(call: &str, verdict: Verdict) -> bool {
    match verdict.number {
        Number::Ok => println!("{call}: accepted"),
        Number::Overrun => println!("{call}: {} ticks may carry {} units", verdict.x, verdict.w),
        refused => {
            println!("refused, {refused:?} at record {}", verdict.place);
            return false;
        }
    }
    true
}

/// Hands in the set as a poor link does, in parts that end anywhere.
fn upload_in_parts(set: &[u8], part_len: usize) -> Verdict {
    let mut room = [0; 65_536];
    let mut upload = Upload::begin();
    for part in set.chunks(part_len) {
        upload.part(&mut room, part);
    }
    upload.close(&room, 2, 1, 1)
}

fn main() {
    let name = std::env::args().nth(1).expect("usage: use_rs SET");
    let set = std::fs::read(name).expect("the set is read");

    let verdict = rack::judge(&set, 2, 1, 1);
    if !print_verdict("judge on 2 processors at 1/1", verdict) {
        std::process::exit(1);
    }

    // With 0/0 the library picks the speed and names it: there is one, since no task was dense.
    let verdict = rack::judge(&set, 2, 0, 0);
    println!(
        "judge on 2 processors at 0/0: the speed is {}/{}",
        verdict.p, verdict.q
    );

    let figures = rack::figures(&set, 0);
    println!(
        "figures of task 0: length {}, volume {}",
        figures.length, figures.volume
    );

    let demand = rack::demand(&set, 0, 1, 1, 65);
    if demand.number == Number::Ok {
        println!("demand of task 0 at 1/1, tick 65: {}", demand.work);
    }

    let mut table = [0; 512];
    let layers = rack::layers(&set, 0, 1, 1, &mut table);
    print!("layers of task 0 at 1/1:");
    for pair in table.chunks(2).take(layers.pairs as usize) {
        print!(" ({},{})", pair[0], pair[1]);
    }
    println!();

    let verdict = upload_in_parts(&set, 7);
    print_verdict(
        "upload in parts of 7 bytes, judged on 2 processors at 1/1",
        verdict,
    );
}
