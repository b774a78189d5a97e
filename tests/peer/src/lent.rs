//! Memory to lend to the library, with guards around it.

pub const GUARD: usize = 8;

/// A table with guard words before and behind it.
#[derive(Clone, PartialEq, Eq)]
pub struct Lent {
    pub memory: Vec<u32>,
}

impl Lent {
    /// Filled with words that change along the table.
    pub fn new(words: usize, mut first: u32) -> Lent {
        let fill = |_| {
            first = first.wrapping_mul(0x9e37_79b1).wrapping_add(0x7f4a_7c15);
            first
        };
        let memory = (0..words + 2 * GUARD).map(fill).collect();
        Lent { memory }
    }

    pub fn table(&mut self) -> &mut [u32] {
        let end = self.memory.len() - GUARD;
        &mut self.memory[GUARD..end]
    }
}

/// The words of an upload: held, over and closed.
pub type Words = [u64; 3];

const ROOM_GUARDS: usize = 16;

/// An upload and its room, each with guards before and behind it.
#[derive(Clone, PartialEq, Eq)]
pub struct LentUpload {
    /// The second is lent, the others are its guards.
    pub uploads: [Words; 3],
    /// The room between its guards.
    pub memory: Vec<u8>,
    /// How many bytes at each side of the room.
    pub guard: usize,
}

impl LentUpload {
    /// An upload of any words, with this room at an address of any remainder by 16.
    pub fn new(room: &[u8], first: u64) -> LentUpload {
        let mut word = first;
        let mut fill = || {
            word = word
                .wrapping_mul(0x9e37_79b9_7f4a_7c15)
                .wrapping_add(0x7f4a_7c15);
            word
        };
        let uploads = [0; 3].map(|_| [0; 3].map(|_| fill()));
        let guard = ROOM_GUARDS + (fill() >> 60) as usize;
        let mut guards = || {
            (0..guard)
                .map(|_| (fill() >> 56) as u8)
                .collect::<Vec<u8>>()
        };
        let memory = [guards(), room.to_vec(), guards()].concat();
        LentUpload {
            uploads,
            memory,
            guard,
        }
    }

    pub fn words(&mut self) -> &mut Words {
        &mut self.uploads[1]
    }

    pub fn room(&mut self) -> &mut [u8] {
        let end = self.memory.len() - self.guard;
        &mut self.memory[self.guard..end]
    }

    /// Another room in place of this one.
    pub fn set_room(&mut self, room: &[u8]) {
        let end = self.memory.len() - self.guard;
        self.memory.splice(self.guard..end, room.iter().copied());
    }
}
