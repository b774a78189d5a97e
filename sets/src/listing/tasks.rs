//! The lines that make up the set: tasks, vertices and edges.

use super::edges::Edges;
use super::number::{count, within};
use super::{not_understood, take_line};
use crate::draft::{Draft, DraftVertex, END, MOST_VERTICES, PLAIN, START};
use crate::form::{take, ENDS, STARTS, TASK, TASKS, VERTEX, VERTICES};
use crate::{too_many, MOST_RECORDS};

type Added = Result<(), String>;

/// The tasks of the lines so far.
#[derive(Default)]
pub struct Tasks {
    pub drafts: Vec<Draft>,
    records: usize,
    /// Whether the last task is as another, so that it has no lines of its own.
    same: bool,
}

impl Tasks {
    pub fn add_task(&mut self, line: &str) -> Added {
        let ([number, mill, deadline, period], _) = take_line("a task", TASK, line)?;
        self.make_room(count("task", self.drafts.len(), [number, number])?)?;
        self.same = false;
        self.drafts.push(Draft {
            mill: within("mill", mill, u8::MAX)?,
            deadline: within("deadline", deadline, u32::MAX)?,
            period: within("period", period, u32::MAX)?,
            ..Draft::default()
        });
        Ok(())
    }

    /// Tasks that are the same as one before them.
    pub fn add_same(&mut self, line: &str) -> Added {
        let ([first, last, model], _) = take_line("a tasks", TASKS, line)?;
        let more = count("task", self.drafts.len(), [first, last])?;
        let place = model.parse().unwrap_or(usize::MAX);
        let above = self.drafts.get(place).cloned();
        let draft = above.ok_or_else(|| format!("no task {model} stands above this line"))?;
        let records = 1 + draft.vertices.len() + draft.edges.len();
        self.make_room(more.saturating_mul(records))?;
        self.same = true;
        self.drafts.resize(self.drafts.len() + more, draft);
        Ok(())
    }

    pub fn add_vertex(&mut self, line: &str) -> Added {
        let plain = take(VERTEX, line).map(|([v, time], _)| (v, time, PLAIN, "0"));
        let role = |form, role| take(form, line).map(|([v, time, mate], _)| (v, time, role, mate));
        let found = plain.or_else(|| role(STARTS, START));
        let found = found.or_else(|| role(ENDS, END));
        let (number, time, role, mate) =
            found.ok_or_else(|| not_understood("a vertex", &[VERTEX, STARTS, ENDS]))?;
        let vertex = DraftVertex {
            role,
            mate: within("vertex", mate, u16::MAX)?,
            time: within("time", time, u32::MAX)?,
        };
        self.put_vertices([number, number], vertex)
    }

    /// Plain vertices of one time.
    pub fn add_vertices(&mut self, line: &str) -> Added {
        let ([first, last, time], _) = take_line("a vertices", VERTICES, line)?;
        let vertex = DraftVertex {
            time: within("time", time, u32::MAX)?,
            ..DraftVertex::default()
        };
        self.put_vertices([first, last], vertex)
    }

    fn put_vertices(&mut self, ends: [&str; 2], vertex: DraftVertex) -> Added {
        let draft = self.open()?;
        if !draft.edges.is_empty() {
            return Err("a vertex stands before the edges of its task".to_string());
        }
        let due = draft.vertices.len();
        let more = count("vertex", due, ends)?;
        if more > MOST_VERTICES - due {
            return Err(format!("a task has at most {MOST_VERTICES} vertices"));
        }
        self.make_room(more)?;
        self.open()?.vertices.resize(due + more, vertex);
        Ok(())
    }

    pub fn add_edges(&mut self, line: &str) -> Added {
        let edges = Edges::read(line)?;
        self.open()?;
        self.make_room(edges.count())?;
        self.open()?.edges.extend(edges.pairs());
        Ok(())
    }

    /// The task that vertices and edges are added to.
    fn open(&mut self) -> Result<&mut Draft, String> {
        if self.same {
            return Err("tasks that are as another have no lines of their own".to_string());
        }
        let last = self.drafts.last_mut();
        last.ok_or_else(|| "no task stands above this line".to_string())
    }

    fn make_room(&mut self, more: usize) -> Added {
        self.records = self.records.saturating_add(more);
        match self.records <= MOST_RECORDS {
            true => Ok(()),
            false => Err(too_many()),
        }
    }
}
