//! A record of 16 bytes: the kind, then the fields A to E, little-endian.

pub const RECORD: usize = 16;
pub const TASK: u8 = 1;
pub const VERTEX: u8 = 2;
pub const EDGE: u8 = 3;

#[derive(Clone, Copy, Default)]
pub struct Record {
    pub kind: u8,
    pub a: u8,
    pub b: u16,
    pub c: u32,
    pub d: u32,
    pub e: u32,
}

impl Record {
    pub fn from_bytes(bytes: &[u8; RECORD]) -> Record {
        let long = |at: usize| {
            u32::from_le_bytes([bytes[at], bytes[at + 1], bytes[at + 2], bytes[at + 3]])
        };
        Record {
            kind: bytes[0],
            a: bytes[1],
            b: u16::from_le_bytes([bytes[2], bytes[3]]),
            c: long(4),
            d: long(8),
            e: long(12),
        }
    }

    pub fn to_bytes(self) -> [u8; RECORD] {
        let mut bytes = [0; RECORD];
        bytes[0] = self.kind;
        bytes[1] = self.a;
        bytes[2..4].copy_from_slice(&self.b.to_le_bytes());
        bytes[4..8].copy_from_slice(&self.c.to_le_bytes());
        bytes[8..12].copy_from_slice(&self.d.to_le_bytes());
        bytes[12..16].copy_from_slice(&self.e.to_le_bytes());
        bytes
    }
}
