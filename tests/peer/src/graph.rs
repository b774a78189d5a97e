//! The graph rules G1 to G6, straight from their words: reachability by search, sets as `Vec<bool>`.

use crate::records::{Role, Vertex};

pub struct Graph {
    /// For each vertex, the vertices that its edges lead to, and those that lead to it.
    pub after: Vec<Vec<usize>>,
    pub before: Vec<Vec<usize>>,
    /// In rising order of their starts.
    pub choices: Vec<Choice>,
}

/// A construct: its start, its end, and the two sets of vertices between them.
pub struct Choice {
    pub start: usize,
    pub end: usize,
    pub arms: [Vec<bool>; 2],
}

impl Graph {
    /// The graph, unless it breaks a rule. The arms have a meaning only once G2 and G3 hold.
    pub fn of(vertices: &[Vertex], edges: &[(usize, usize)]) -> Option<Graph> {
        let n = vertices.len();
        let (mut after, mut before) = (vec![Vec::new(); n], vec![Vec::new(); n]);
        for &(from, to) in edges {
            after[from].push(to);
            before[to].push(from);
        }
        let mut graph = Graph {
            after,
            before,
            choices: Vec::new(),
        };
        if !graph.connected() || !mates_agree(vertices) || !graph.starts_and_ends_hold(vertices) {
            return None;
        }
        graph.choices = graph.choices_of(vertices);
        let holds = graph
            .choices
            .iter()
            .all(|choice| graph.arms_apart(choice) && graph.closes(choice) && graph.shut(choice));
        holds.then_some(graph)
    }

    /// G1.
    fn connected(&self) -> bool {
        let n = self.after.len();
        let entered = (1..n).all(|vertex| !self.before[vertex].is_empty());
        let left = (0..n - 1).all(|vertex| !self.after[vertex].is_empty());
        entered && left
    }

    /// G3.
    fn starts_and_ends_hold(&self, vertices: &[Vertex]) -> bool {
        (0..vertices.len()).all(|number| match vertices[number].role {
            Role::Plain => true,
            Role::Start => {
                let firsts = &self.after[number];
                firsts.len() == 2 && !firsts.contains(&vertices[number].mate)
            }
            Role::End => self.before[number].len() == 2,
        })
    }

    fn choices_of(&self, vertices: &[Vertex]) -> Vec<Choice> {
        let starts = (0..vertices.len()).filter(|number| vertices[*number].role == Role::Start);
        starts
            .map(|start| {
                let end = vertices[start].mate;
                let arms = [0, 1].map(|arm| self.reached(self.after[start][arm], end));
                Choice { start, end, arms }
            })
            .collect()
    }

    /// G4, first sentence: `first` and all that can be reached from it, short of `end`.
    fn reached(&self, first: usize, end: usize) -> Vec<bool> {
        let mut found = vec![false; self.after.len()];
        let mut open = vec![first];
        while let Some(vertex) = open.pop() {
            if vertex == end || found[vertex] {
                continue;
            }
            found[vertex] = true;
            open.extend(&self.after[vertex]);
        }
        found
    }

    /// G4, second sentence.
    fn arms_apart(&self, choice: &Choice) -> bool {
        let [one, other] = &choice.arms;
        (0..one.len()).all(|vertex| !(one[vertex] && other[vertex]))
    }

    /// G5: the only vertex of an arm without an edge inside it is the only one with an edge to the end.
    fn closes(&self, choice: &Choice) -> bool {
        choice.arms.iter().all(|arm| {
            let inside = || (0..arm.len()).filter(|vertex| arm[*vertex]);
            let last: Vec<usize> = inside()
                .filter(|vertex| !self.after[*vertex].iter().any(|to| arm[*to]))
                .collect();
            let closing: Vec<usize> = inside()
                .filter(|vertex| self.after[*vertex].contains(&choice.end))
                .collect();
            last.len() == 1 && closing == last
        })
    }

    /// G6.
    fn shut(&self, choice: &Choice) -> bool {
        choice.arms.iter().all(|arm| {
            let inside = (0..arm.len()).filter(|vertex| arm[*vertex]);
            inside
                .flat_map(|vertex| &self.before[vertex])
                .all(|from| arm[*from] || *from == choice.start)
        })
    }
}

/// G2: a mate has the other role, and names this vertex back.
fn mates_agree(vertices: &[Vertex]) -> bool {
    (0..vertices.len()).all(|number| {
        let vertex = vertices[number];
        let mate = vertices[vertex.mate];
        match vertex.role {
            Role::Plain => true,
            Role::Start => mate.role == Role::End && mate.mate == number,
            Role::End => mate.role == Role::Start && mate.mate == number,
        }
    })
}
