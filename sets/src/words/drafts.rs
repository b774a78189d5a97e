//! From the records of a set to drafts, where a listing can say every field: `set_of` leads back.

use crate::draft::{Draft, DraftVertex, END, PLAIN, START};
use crate::fault::{Fault, Place};
use crate::record::{Record, EDGE, RECORD, TASK, VERTEX};
use crate::{too_many, MOST_RECORDS};

pub fn drafts_of(set: &[u8]) -> Result<Vec<Draft>, Fault> {
    let (records, rest) = set.as_chunks::<RECORD>();
    let fault = |record, what| {
        let place = Place::Record(record);
        Err(Fault { place, what })
    };
    if !rest.is_empty() {
        let what = format!("ends after {} of {RECORD} bytes", rest.len());
        return fault(records.len(), what);
    }
    if records.len() > MOST_RECORDS {
        return fault(MOST_RECORDS, too_many());
    }
    let mut reader = Reader { records, next: 0 };
    let mut drafts = Vec::new();
    while reader.next < records.len() {
        drafts.push(reader.draft()?);
    }
    Ok(drafts)
}

struct Reader<'a> {
    records: &'a [[u8; RECORD]],
    next: usize,
}

impl Reader<'_> {
    fn draft(&mut self) -> Result<Draft, Fault> {
        let head = self.take(TASK, "a task", Ok)?;
        let vertices = (0..head.b).map(|_| self.take(VERTEX, "a vertex", vertex));
        let vertices = vertices.collect::<Result<_, _>>()?;
        let edges = (0..head.e).map(|_| self.take(EDGE, "an edge", edge));
        Ok(Draft {
            mill: head.a,
            deadline: head.c,
            period: head.d,
            vertices,
            edges: edges.collect::<Result<_, _>>()?,
        })
    }

    /// What the next record says, which must be of the kind that is due.
    fn take<T>(
        &mut self,
        kind: u8,
        name: &str,
        says: impl Fn(Record) -> Result<T, String>,
    ) -> Result<T, Fault> {
        let place = Place::Record(self.next);
        let said = match self.records.get(self.next).map(Record::from_bytes) {
            Some(record) if record.kind == kind => says(record),
            Some(Record { kind, .. }) => Err(format!(
                "{name} is due here, and this record has kind {kind}"
            )),
            None => Err(format!("{name} is due here, and the set ends")),
        };
        self.next += 1;
        said.map_err(|what| Fault { place, what })
    }
}

fn vertex(record: Record) -> Result<DraftVertex, String> {
    zeros([("D", record.d), ("E", record.e)])?;
    let (role, mate, time) = (record.a, record.b, record.c);
    match role {
        PLAIN if mate != 0 => Err(format!("plain vertex with mate {mate}")),
        PLAIN | START | END => Ok(DraftVertex { role, mate, time }),
        _ => Err(format!("role {role}: at most {END}")),
    }
}

fn edge(record: Record) -> Result<(u32, u32), String> {
    let (a, b) = (record.a.into(), record.b.into());
    zeros([("A", a), ("B", b), ("E", record.e)])?;
    Ok((record.c, record.d))
}

/// Fields that a listing does not name.
fn zeros<const N: usize>(fields: [(&str, u32); N]) -> Result<(), String> {
    match fields.iter().find(|(_, number)| *number != 0) {
        Some((field, number)) => Err(format!("field {field} is {number} where 0 stands")),
        None => Ok(()),
    }
}
