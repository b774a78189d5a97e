//! Graphs with a wanted number of vertices: jobs in a row, forks with joins, and choices within choices.
//!
//! A part takes its first number before what is inside it and its last number after, so edges rise.

use crate::draw::Draw;
use ::sets::draft::{END, PLAIN, START};

const MOST_EDGES: usize = 256;

/// A vertex: its role, its mate, and the arm that it is in (0 for none).
#[derive(Clone, Copy)]
pub struct Vertex {
    pub role: u8,
    pub mate: usize,
    arm: usize,
}

#[derive(Clone)]
pub struct Shape {
    pub vertices: Vec<Vertex>,
    pub edges: Vec<(usize, usize)>,
    arms: usize,
}

/// The first and the last vertex of a part.
type Part = (usize, usize);

impl Shape {
    fn empty() -> Shape {
        Shape {
            vertices: Vec::new(),
            edges: Vec::new(),
            arms: 0,
        }
    }

    /// A graph of n vertices with choices nested up to `depth`, and some further edges inside arms.
    pub fn nested(draw: &mut Draw, n: usize, depth: usize, further: usize) -> Shape {
        let mut shape = Shape::empty();
        shape.part(draw, n, depth, 0);
        for _ in 0..further {
            shape.further_edge(draw);
        }
        shape.edges.sort_unstable();
        shape
    }

    /// n jobs one after the other.
    pub fn chain(n: usize) -> Shape {
        let mut shape = Shape::empty();
        for v in 0..n {
            shape.vertex(0);
            shape.edges.extend((v > 0).then(|| (v - 1, v)));
        }
        shape
    }

    /// Choices in a row, each of three parallel jobs or one: they cross once in a choice.
    pub fn crossings(choices: usize) -> Shape {
        let mut shape = Shape::empty();
        let mut last = None;
        for _ in 0..choices {
            let start = shape.vertex(0);
            shape.edges.extend(last.map(|before| (before, start)));
            shape.arms += 1;
            let wide = shape.wide(shape.arms);
            shape.arms += 1;
            let one = shape.vertex(shape.arms);
            last = Some(shape.close(start, [wide, (one, one)]));
        }
        shape.edges.sort_unstable();
        shape
    }

    fn wide(&mut self, arm: usize) -> Part {
        let first = self.vertex(arm);
        let jobs = [0; 3].map(|_| self.vertex(arm));
        let last = self.vertex(arm);
        let around = jobs.iter().flat_map(|&job| [(first, job), (job, last)]);
        self.edges.extend(around);
        (first, last)
    }

    fn vertex(&mut self, arm: usize) -> usize {
        self.vertices.push(Vertex {
            role: PLAIN,
            mate: 0,
            arm,
        });
        self.vertices.len() - 1
    }

    fn part(&mut self, draw: &mut Draw, room: usize, depth: usize, arm: usize) -> Part {
        let kind = draw.between(0, 9);
        match room {
            1 => {
                let job = self.vertex(arm);
                (job, job)
            }
            2 | 3 => self.row(draw, room, depth, arm),
            _ if kind < 2 => self.row(draw, room, depth, arm),
            _ if kind < 6 || depth == 0 => self.fork(draw, room, depth, arm),
            _ => self.choice(draw, room, depth, arm),
        }
    }

    fn row(&mut self, draw: &mut Draw, room: usize, depth: usize, arm: usize) -> Part {
        let front = 1 + draw.index(room - 1);
        let one = self.part(draw, front, depth, arm);
        let two = self.part(draw, room - front, depth, arm);
        self.edges.push((one.1, two.0));
        (one.0, two.1)
    }

    fn fork(&mut self, draw: &mut Draw, room: usize, depth: usize, arm: usize) -> Part {
        let first = self.vertex(arm);
        let (mut left, mut lasts) = (room - 2, Vec::new());
        while left > 0 {
            let size = (1 + draw.index(room / 2)).min(left);
            let branch = self.part(draw, size, depth, arm);
            self.edges.push((first, branch.0));
            lasts.push(branch.1);
            left -= size;
        }
        let last = self.vertex(arm);
        self.edges
            .extend(lasts.iter().map(|&before| (before, last)));
        (first, last)
    }

    fn choice(&mut self, draw: &mut Draw, room: usize, depth: usize, arm: usize) -> Part {
        let start = self.vertex(arm);
        let one = 1 + draw.index(room - 3);
        let arms = [one, room - 2 - one].map(|size| {
            self.arms += 1;
            self.part(draw, size, depth - 1, self.arms)
        });
        (start, self.close(start, arms))
    }

    /// The end of the choice that begins at `start`, in the arm of the start.
    fn close(&mut self, start: usize, arms: [Part; 2]) -> usize {
        let end = self.vertex(self.vertices[start].arm);
        for (first, last) in arms {
            self.edges.extend([(start, first), (last, end)]);
        }
        (self.vertices[start].role, self.vertices[start].mate) = (START, end);
        (self.vertices[end].role, self.vertices[end].mate) = (END, start);
        end
    }

    /// No rule forbids an edge inside one arm, save from a start or to an end.
    fn further_edge(&mut self, draw: &mut Draw) {
        let n = self.vertices.len();
        let (from, to) = (draw.index(n), draw.index(n));
        let allowed = from < to
            && self.vertices[from].arm == self.vertices[to].arm
            && self.vertices[from].role != START
            && self.vertices[to].role != END;
        let room = self.edges.len() < MOST_EDGES && !self.edges.contains(&(from, to));
        if allowed && room {
            self.edges.push((from, to));
        }
    }
}
