//! A task in the making, and its bytes.

use crate::draw::Draw;
use crate::read::{Reader, MOST_TIME};
use crate::shape::{Shape, Vertex};
use ::sets::draft::{set_of, Draft as Task, DraftVertex};
use ::sets::record::{Record, RECORD};

#[derive(Clone)]
pub struct Draft {
    pub shape: Shape,
    pub times: Vec<u64>,
    pub deadline: u64,
    pub period: u64,
}

impl Draft {
    /// Jobs of time 0; the deadline is the period.
    pub fn new(shape: Shape, period: u64) -> Draft {
        let times = vec![0; shape.vertices.len()];
        Draft {
            shape,
            times,
            deadline: period,
            period,
        }
    }

    /// The task that this is, of mill 1.
    pub fn task(&self) -> Task {
        let vertices = self.shape.vertices.iter().zip(&self.times);
        let vertex = |(vertex, time): (&Vertex, &u64)| DraftVertex {
            role: vertex.role,
            mate: vertex.mate as u16,
            time: *time as u32,
        };
        let edges = self.shape.edges.iter();
        Task {
            mill: 1,
            deadline: self.deadline as u32,
            period: self.period as u32,
            vertices: vertices.map(vertex).collect(),
            edges: edges.map(|edge| (edge.0 as u32, edge.1 as u32)).collect(),
        }
    }

    fn set(&self) -> Vec<u8> {
        set_of(&[self.task()])
    }

    /// Length and volume.
    pub fn figures(&self) -> (u64, u64) {
        figures(&mut Reader::new(), &self.set())
    }

    /// Adds time to jobs here and there, as long as the volume is at most this and the length at most
    /// `longest`. Vertex 0 is always there, so it takes what is left over if it can; true if it did.
    pub fn grow(&mut self, draw: &mut Draw, volume: u64, longest: u64) -> bool {
        let (mut reader, mut set) = (Reader::new(), self.set());
        let n = self.times.len();
        let step = volume.div_ceil(2 * n as u64);
        for _ in 0..8 * n {
            let v = draw.index(n);
            // Of many sizes, so that few jobs end together.
            let more = (self.times[v] + draw.between(1, 2 * step)).min(MOST_TIME);
            put_time(&mut set, v, more);
            let (length, now) = figures(&mut reader, &set);
            if now <= volume && length <= longest {
                self.times[v] = more;
            }
            put_time(&mut set, v, self.times[v]);
        }
        let (length, now) = figures(&mut reader, &set);
        let missing = volume - now;
        let fits = self.times[0] + missing <= MOST_TIME && length + missing <= longest;
        if fits {
            self.times[0] += missing;
        }
        fits
    }
}

fn figures(reader: &mut Reader, set: &[u8]) -> (u64, u64) {
    reader.read(set).expect("a draft can be read");
    let task = &reader.tasks()[0];
    (task.length, task.volume)
}

/// Changes the job time of vertex v of a set of one task.
fn put_time(set: &mut [u8], v: usize, time: u64) {
    put_c(set, 1 + v, time as u32);
}

/// Changes field C of a record: the deadline of a task, the time of a vertex.
pub fn put_c(set: &mut [u8], place: usize, c: u32) {
    let record = &mut set.as_chunks_mut::<RECORD>().0[place];
    let others = Record::from_bytes(record);
    *record = Record { c, ..others }.to_bytes();
}
