//! How deep a call of the proved judge goes on the stack.
//!
//! The system gives a thread's stack page by page, as it is used, and says which pages are there. A fresh
//! thread makes one call; the lowest page that is there afterwards shows how deep it went, to 4,096 bytes.
//! Looking needs some stack as well, so a thread that only looks is shown beside it. Each thread asks for
//! more than the one before, or it could be handed a used stack.

use crate::clock::keep;
use crate::linked;
use crate::phases::dense;
use crate::sets::Kind;
use std::fs::File;
use std::io::{Read, Seek, SeekFrom};

const PAGE: usize = 4_096;
const STACK: usize = 512 * 1_024;

/// The mapping that holds an address: from, to.
fn mapping(address: usize) -> Option<(usize, usize)> {
    let maps = std::fs::read_to_string("/proc/self/maps").ok()?;
    maps.lines().find_map(|line| {
        let (from, rest) = line.split_once('-')?;
        let from = usize::from_str_radix(from, 16).ok()?;
        let to = usize::from_str_radix(rest.split(' ').next()?, 16).ok()?;
        (from..to).contains(&address).then_some((from, to))
    })
}

/// The lowest page that is there, of the mapping that holds an address.
fn lowest(address: usize) -> Option<usize> {
    let (from, to) = mapping(address)?;
    let mut pages = File::open("/proc/self/pagemap").ok()?;
    pages.seek(SeekFrom::Start((from / PAGE * 8) as u64)).ok()?;
    let mut entries = vec![0; (to - from) / PAGE * 8];
    pages.read_exact(&mut entries).ok()?;
    let there = |entry: &[u8]| entry[7] & 0x80 != 0;
    let first = entries.chunks_exact(8).position(there)?;
    Some(from + first * PAGE)
}

/// Bytes of stack below this frame that a call used, on a stack of this size.
fn used(size: usize, call: impl FnOnce() + Send) -> Option<usize> {
    let deep = move || {
        let here = 0_u8;
        let address = std::ptr::from_ref(&here) as usize;
        call();
        Some(address - lowest(address)?)
    };
    std::thread::scope(|scope| {
        let thread = std::thread::Builder::new().stack_size(size);
        thread.spawn_scoped(scope, deep).ok()?.join().ok()?
    })
}

/// A quick look stops behind the tables, which hold the library's arrays.
pub fn print(kinds: &[Kind], quick: bool) {
    let Some(looking) = used(STACK, || ()) else {
        println!("Stack: this system does not say which pages of a stack are used.\n");
        return;
    };
    println!(
        "Stack of one call, in KiB, the looking alone {}:",
        looking / 1_024
    );
    println!();
    println!("| sets | stack |");
    println!("|---|---|");
    for (i, kind) in kinds.iter().enumerate() {
        let set = &kind.sets[0];
        let bytes = if quick { dense(set) } else { set.bytes.clone() };
        let call = || keep(linked::judge(&bytes, set.call));
        let deep = used(STACK + (i + 1) * 2 * PAGE, call).unwrap_or(0);
        println!("| {} | {} |", kind.name, deep / 1_024);
    }
    println!();
}
