//! Tasks to be written as records. A draft need not be readable.

use crate::record::{Record, EDGE, TASK, VERTEX};

/// The most vertices that a task record can count.
pub const MOST_VERTICES: usize = u16::MAX as usize;

pub const PLAIN: u8 = 0;
pub const START: u8 = 1;
pub const END: u8 = 2;

/// A task with at most `MOST_VERTICES` vertices.
#[derive(Clone, Default, PartialEq, Eq)]
pub struct Draft {
    pub mill: u8,
    pub deadline: u32,
    pub period: u32,
    pub vertices: Vec<DraftVertex>,
    pub edges: Vec<(u32, u32)>,
}

#[derive(Clone, Copy, Default, PartialEq, Eq)]
pub struct DraftVertex {
    pub role: u8,
    pub mate: u16,
    pub time: u32,
}

impl Draft {
    pub fn records(&self) -> Vec<Record> {
        let mut records = vec![Record {
            kind: TASK,
            a: self.mill,
            b: self.vertices.len() as u16,
            c: self.deadline,
            d: self.period,
            e: self.edges.len() as u32,
        }];
        records.extend(self.vertices.iter().map(|vertex| Record {
            kind: VERTEX,
            a: vertex.role,
            b: vertex.mate,
            c: vertex.time,
            ..Record::default()
        }));
        records.extend(self.edges.iter().map(|edge| Record {
            kind: EDGE,
            c: edge.0,
            d: edge.1,
            ..Record::default()
        }));
        records
    }

    /// A single job.
    pub fn job(time: u32, deadline: u32, period: u32) -> Draft {
        Draft::chain(1, time, deadline, period)
    }

    /// `n` jobs of one time, one after the other.
    pub fn chain(n: u32, time: u32, deadline: u32, period: u32) -> Draft {
        let vertex = DraftVertex {
            time,
            ..DraftVertex::default()
        };
        Draft {
            mill: 1,
            deadline,
            period,
            vertices: vec![vertex; n as usize],
            edges: (1..n).map(|to| (to - 1, to)).collect(),
        }
    }

    /// Edges in the order that the records need.
    pub fn tidy(&mut self) {
        self.edges.sort_unstable();
        self.edges.dedup();
    }
}

pub fn records_of(drafts: &[Draft]) -> Vec<Record> {
    drafts.iter().flat_map(Draft::records).collect()
}

pub fn bytes_of(records: &[Record]) -> Vec<u8> {
    records
        .iter()
        .flat_map(|record| record.to_bytes())
        .collect()
}

pub fn set_of(drafts: &[Draft]) -> Vec<u8> {
    bytes_of(&records_of(drafts))
}
