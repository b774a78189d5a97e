//! Random graphs that keep the rules: blocks with one first and one last vertex, put in a row, beside
//! each other, or into the arms of a choice; then numbered in a random order that the edges allow.

use crate::numbers::Numbers;
use sets::draft::{Draft, DraftVertex, END, PLAIN, START};

const MOST_EDGES: usize = 256;

#[derive(Clone, Copy)]
struct Node {
    role: u8,
    mate: usize,
    /// The innermost arm around it; 0 is none.
    arm: usize,
}

#[derive(Clone, Default)]
pub struct Shape {
    nodes: Vec<Node>,
    edges: Vec<(usize, usize)>,
    arms: usize,
}

#[derive(Clone, Copy)]
struct Block {
    first: usize,
    last: usize,
}

impl Shape {
    /// Up to `room` vertices, with choices nested up to `depth` deep; all of `room` if `full`.
    pub fn random(numbers: &mut Numbers, room: usize, depth: usize, full: bool) -> Shape {
        let mut shape = Shape::default();
        let mut last = shape.block(numbers, room, depth, 0).last;
        while full && shape.nodes.len() < room {
            let left = room - shape.nodes.len();
            let next = shape.block(numbers, left, depth, 0);
            shape.edges.push((last, next.first));
            last = next.last;
        }
        shape
    }

    /// Choices in choices, as deep as `levels`; 21 levels take 64 vertices.
    pub fn nest(levels: usize) -> Shape {
        let mut shape = Shape::default();
        shape.level(levels, 0);
        shape
    }

    /// Choices of two jobs, all beside each other: many ways, and arms that interleave.
    pub fn beside(choices: usize) -> Shape {
        let mut shape = Shape::default();
        let (fork, join) = (shape.vertex(0), shape.vertex(0));
        for _ in 0..choices {
            let inner = shape.level(1, 0);
            shape
                .edges
                .extend([(fork, inner.first), (inner.last, join)]);
        }
        shape
    }

    fn vertex(&mut self, arm: usize) -> usize {
        let (role, mate) = (PLAIN, 0);
        self.nodes.push(Node { role, mate, arm });
        self.nodes.len() - 1
    }

    fn job(&mut self, arm: usize) -> Block {
        let first = self.vertex(arm);
        Block { first, last: first }
    }

    fn block(&mut self, numbers: &mut Numbers, room: usize, depth: usize, arm: usize) -> Block {
        match numbers.below(10) {
            0..=3 if room >= 4 && depth > 0 => self.choice(numbers, room, depth, arm),
            4 | 5 if room >= 4 => self.fork(numbers, room, depth, arm),
            6..=8 if room >= 2 => self.row(numbers, room, depth, arm),
            _ => self.job(arm),
        }
    }

    fn row(&mut self, numbers: &mut Numbers, room: usize, depth: usize, arm: usize) -> Block {
        let front = numbers.between(1, room as u64 - 1) as usize;
        let one = self.block(numbers, front, depth, arm);
        let two = self.block(numbers, room - front, depth, arm);
        self.edges.push((one.last, two.first));
        Block {
            first: one.first,
            last: two.last,
        }
    }

    fn fork(&mut self, numbers: &mut Numbers, room: usize, depth: usize, arm: usize) -> Block {
        let (first, last) = (self.vertex(arm), self.vertex(arm));
        let mut left = room - 2;
        while left > 0 {
            let part = numbers.between(1, left as u64) as usize;
            let branch = self.block(numbers, part, depth, arm);
            self.edges
                .extend([(first, branch.first), (branch.last, last)]);
            left -= part;
        }
        Block { first, last }
    }

    /// A start and an end in `arm`, with nothing between them yet.
    fn pair(&mut self, arm: usize) -> Block {
        let (first, last) = (self.vertex(arm), self.vertex(arm));
        (self.nodes[first].role, self.nodes[first].mate) = (START, last);
        (self.nodes[last].role, self.nodes[last].mate) = (END, first);
        Block { first, last }
    }

    fn choice(&mut self, numbers: &mut Numbers, room: usize, depth: usize, arm: usize) -> Block {
        let pair = self.pair(arm);
        let one = numbers.between(1, room as u64 - 3) as usize;
        for room in [one, room - 2 - one] {
            self.arms += 1;
            let inner = self.block(numbers, room, depth - 1, self.arms);
            self.edges
                .extend([(pair.first, inner.first), (inner.last, pair.last)]);
        }
        pair
    }

    /// A choice with a job in one arm, and the next level in the other.
    fn level(&mut self, levels: usize, arm: usize) -> Block {
        if levels == 0 {
            return self.job(arm);
        }
        let pair = self.pair(arm);
        for levels in [0, levels - 1] {
            self.arms += 1;
            let inner = self.level(levels, self.arms);
            self.edges
                .extend([(pair.first, inner.first), (inner.last, pair.last)]);
        }
        pair
    }

    /// A random order in which each edge rises: the new number of each node.
    fn numbering(&self, numbers: &mut Numbers) -> Vec<usize> {
        let mut waits = vec![0; self.nodes.len()];
        self.edges.iter().for_each(|edge| waits[edge.1] += 1);
        let mut ready: Vec<usize> = (0..waits.len()).filter(|node| waits[*node] == 0).collect();
        let mut number = vec![0; self.nodes.len()];
        for next in 0..self.nodes.len() {
            let node = ready.swap_remove(numbers.index(ready.len()));
            number[node] = next;
            for edge in self.edges.iter().filter(|edge| edge.0 == node) {
                waits[edge.1] -= 1;
                if waits[edge.1] == 0 {
                    ready.push(edge.1);
                }
            }
        }
        number
    }

    /// The draft of a task with this graph, all times 0; once in `spread` places an extra edge inside
    /// an arm, which no rule forbids, save from a start or to an end.
    pub fn draft(&self, numbers: &mut Numbers, spread: u64) -> Draft {
        let number = self.numbering(numbers);
        let mut nodes = self.nodes.clone();
        for (node, new) in self.nodes.iter().zip(&number) {
            nodes[*new] = *node;
            nodes[*new].mate = if node.role == PLAIN {
                0
            } else {
                number[node.mate]
            };
        }
        let edges = self.edges.iter();
        let mut edges: Vec<(usize, usize)> =
            edges.map(|edge| (number[edge.0], number[edge.1])).collect();
        for to in 1..nodes.len() {
            for from in 0..to {
                let inside = nodes[from].arm == nodes[to].arm;
                let free = inside && nodes[from].role != START && nodes[to].role != END;
                let room = edges.len() < MOST_EDGES;
                if free && room && numbers.once_in(spread) && !edges.contains(&(from, to)) {
                    edges.push((from, to));
                }
            }
        }
        let mut draft = Draft {
            mill: numbers.between(1, 40) as u8,
            vertices: nodes.iter().map(draft_vertex).collect(),
            edges: edges
                .iter()
                .map(|edge| (edge.0 as u32, edge.1 as u32))
                .collect(),
            ..Draft::default()
        };
        draft.tidy();
        draft
    }
}

fn draft_vertex(node: &Node) -> DraftVertex {
    DraftVertex {
        role: node.role,
        mate: node.mate as u16,
        time: 0,
    }
}
