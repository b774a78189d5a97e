//! Calls of the archive on another processor than x86-64: through the bridge, which runs under the
//! emulator of the toolchain. Each thread has a bridge of its own.

use crate::lent::{Lent, LentUpload, GUARD};
use crate::library::{Reply, Request};
use crate::machine;
use std::cell::RefCell;
use std::io::{self, Read, Write};
use std::process::{Child, ChildStdin, ChildStdout, Stdio};

struct Bridge {
    child: Child,
    requests: Option<ChildStdin>,
    replies: ChildStdout,
}

thread_local! {
    static BRIDGE: RefCell<Option<Bridge>> = const { RefCell::new(None) };
}

pub fn call(request: &Request, lent: &mut Lent) -> Reply {
    let mut memory = to_bytes(&lent.memory, u32::to_le_bytes);
    let reply = pass(request, &mut memory, 4 * GUARD);
    for (word, bytes) in lent.memory.iter_mut().zip(memory.as_chunks().0) {
        *word = u32::from_le_bytes(*bytes);
    }
    reply
}

/// The words of the three uploads go in front of the room and its guards.
pub fn call_upload(request: &Request, lent: &mut LentUpload) -> Reply {
    let mut memory = to_bytes(lent.uploads.as_flattened(), u64::to_le_bytes);
    let words = memory.len();
    memory.extend(&lent.memory);
    let reply = pass(request, &mut memory, lent.guard);
    let (words, room) = memory.split_at(words);
    let uploads = lent.uploads.as_flattened_mut();
    for (word, bytes) in uploads.iter_mut().zip(words.as_chunks().0) {
        *word = u64::from_le_bytes(*bytes);
    }
    lent.memory.copy_from_slice(room);
    reply
}

fn to_bytes<W: Copy, const N: usize>(words: &[W], bytes: fn(W) -> [u8; N]) -> Vec<u8> {
    words.iter().flat_map(|word| bytes(*word)).collect()
}

fn pass(request: &Request, memory: &mut [u8], guard: usize) -> Reply {
    BRIDGE.with_borrow_mut(|bridge| {
        let bridge = bridge.get_or_insert_with(Bridge::start);
        let reply = bridge.pass(request, memory, guard);
        reply.expect("the bridge answers")
    })
}

impl Bridge {
    fn start() -> Bridge {
        let mut child = machine::static_program(env!("PEER_BRIDGE").as_ref())
            .stdin(Stdio::piped())
            .stdout(Stdio::piped())
            .spawn()
            .expect("the bridge starts");
        let requests = child.stdin.take();
        let replies = child.stdout.take().expect("asked for a pipe");
        Bridge {
            child,
            requests,
            replies,
        }
    }

    /// The layout is that of the structures in `bridge.c`.
    fn pass(&mut self, request: &Request, memory: &mut [u8], guard: usize) -> io::Result<Reply> {
        let [a, b, c, d] = request.numbers;
        let (len, lent) = (request.set.len() as u64, memory.len() as u64);
        let head = [request.entry as u64, len, a, b, c, d, lent, guard as u64];
        let mut bytes = to_bytes(&head, u64::to_le_bytes);
        bytes.extend(request.set);
        bytes.extend(&*memory);
        self.requests
            .as_mut()
            .expect("open until the end")
            .write_all(&bytes)?;
        let mut answer = [0; 7 * 8];
        self.replies.read_exact(&mut answer)?;
        self.replies.read_exact(memory)?;
        let mut words = [0; 7];
        for (word, bytes) in words.iter_mut().zip(answer.as_chunks().0) {
            *word = u64::from_le_bytes(*bytes);
        }
        let [number, fields @ .., kept] = words;
        Ok(Reply {
            number,
            fields,
            kept: kept == 1,
        })
    }
}

impl Drop for Bridge {
    /// The end of its input ends the bridge.
    fn drop(&mut self) {
        drop(self.requests.take());
        let _ = self.child.wait();
    }
}
