//! Wrong listings, and sets that have no words: each must be told its fault in these words.

use sets::draft::bytes_of;
use sets::fault::Fault;
use sets::record::{Record, EDGE, RECORD, TASK, VERTEX};
use sets::{listing, words, MOST_RECORDS};

/// Finds one that is told otherwise.
pub fn check() -> Result<(), String> {
    for (front, lines) in [("", ALONE), (FRONT, UNDER_A_TASK)] {
        for (text, due) in lines {
            let text = format!("{front}{text}");
            let due = format!("FILE:{}: {due}", text.lines().count());
            same(&text, listing::read(&text).err(), &due)?;
        }
    }
    for (records, due) in SETS {
        check_set(&bytes_of(records), due)?;
    }
    let whole = bytes_of(&[HEAD, JOB, LINK, HEAD]);
    check_set(&whole[..52], "record 3: ends after 4 of 16 bytes")?;
    let long = vec![0; RECORD * (MOST_RECORDS + 1)];
    check_set(&long, &format!("record 1000000: {TOO_MANY}"))
}

fn check_set(set: &[u8], due: &str) -> Result<(), String> {
    let shown = format!("a set of {} bytes", set.len());
    same(&shown, words::of(set).err(), &format!("FILE: {due}"))
}

fn same(what: &str, fault: Option<Fault>, due: &str) -> Result<(), String> {
    let told = fault.map(|fault| fault.in_file("FILE"));
    match told.as_deref() == Some(due) {
        true => Ok(()),
        false => Err(format!("{what}\nis told {told:?}, and not {due:?}")),
    }
}

/// Lines, and what is wrong with the last of them.
type Lines = &'static [(&'static str, &'static str)];

const ALONE: Lines = &[
    ("vertex 0: time 4", "no task stands above this line"),
    ("# No task.\nedges 0: 1", "no task stands above this line"),
    (
        "tasks 0 to 1: as task 0",
        "no task 0 stands above this line",
    ),
];

const FRONT: &str = "# One task.\n\ntask 0: mill 1, deadline 2, period 3\n";

const TASK_LINE: &str =
    "not understood; a task line reads \"task N: mill M, deadline D, period P\"";
const VERTEX_LINE: &str = "not understood; a vertex line reads \"vertex V: time T\" \
    or \"vertex V: time T, starts the choice that ends at E\" \
    or \"vertex V: time T, ends the choice that starts at S\"";
const EDGES_LINE: &str = "not understood; an edges line reads \
    \"edges U: ...\" or \"edges A to B: ...\", \
    with numbers, ranges \"V to W\" or \"the next\" behind the colon";
const TOO_MANY: &str = "a listing makes at most 1000000 records";

/// Each kind of line, not understood; then numbers that are too large, not due or fall, lines out
/// of place, and more than there is room for.
const UNDER_A_TASK: Lines = &[
    (
        "vertx 0: time 4",
        "not understood; a line begins with task, tasks, vertex, vertices or edges, \
         and an answer line with figures, layers, demand or judge",
    ),
    ("task 1: mill 1, deadline -2, period 3", TASK_LINE),
    ("task 1: mill 1, deadline 2, period 3 4", TASK_LINE),
    (
        "tasks 1: as task 0",
        "not understood; a tasks line reads \"tasks A to B: as task N\"",
    ),
    ("vertex 0: time", VERTEX_LINE),
    ("vertex 0: time 4, starts the choice", VERTEX_LINE),
    (
        "vertices 0 1: time 4",
        "not understood; a vertices line reads \"vertices A to B: time T\"",
    ),
    ("edges 0:", EDGES_LINE),
    ("edges 0: 1, 2", EDGES_LINE),
    ("edges 0: 1 to", EDGES_LINE),
    ("edges 0: the next 2", EDGES_LINE),
    (
        "figures of task 0:",
        "not understood; a figures line reads \"figures of task T: ...\"",
    ),
    (
        "layers of task 0: none",
        "not understood; a layers line reads \"layers of task T at P/Q: ...\" \
         or \"layers of task T at P/Q into W words: ...\"",
    ),
    (
        "demand of task 0 at 1/1: 0",
        "not understood; a demand line reads \"demand of task T at P/Q, tick X: ...\"",
    ),
    (
        "judge on two processors at 1/1: 0 0 0 0",
        "not understood; a judge line reads \"judge on M processors at P/Q: ...\"",
    ),
    (
        "figures of task 18446744073709551616: refused 6 at 0",
        "number 18446744073709551616: at most 18446744073709551615",
    ),
    (
        "task 1: mill 256, deadline 2, period 3",
        "mill 256: at most 255",
    ),
    (
        "task 1: mill 1, deadline 4294967296, period 3",
        "deadline 4294967296: at most 4294967295",
    ),
    (
        "task 1: mill 1, deadline 2, period 99999999999999999999999",
        "period 99999999999999999999999: at most 4294967295",
    ),
    (
        "vertex 0: time 4294967296",
        "time 4294967296: at most 4294967295",
    ),
    (
        "vertex 0: time 4, ends the choice that starts at 65536",
        "vertex 65536: at most 65535",
    ),
    (
        "edges 0: 4294967296",
        "vertex 4294967296: at most 4294967295",
    ),
    (
        "edges 4294967294 to 4294967295: the next",
        "vertex 4294967295 has no next: at most 4294967295",
    ),
    (
        "task 2: mill 1, deadline 2, period 3",
        "task 1 is due here, not task 2",
    ),
    ("tasks 0 to 1: as task 0", "task 1 is due here, not task 0"),
    (
        "  vertex 0: time 4\n\n  vertex 2: time 4",
        "vertex 1 is due here, not vertex 2",
    ),
    (
        "vertices 1 to 2: time 4",
        "vertex 0 is due here, not vertex 1",
    ),
    (
        "tasks 1 to 0: as task 0",
        "1 to 0 is no range, since it falls",
    ),
    (
        "vertex 0: time 4\nvertices 1 to 0: time 4",
        "1 to 0 is no range, since it falls",
    ),
    ("edges 2 to 1: 3", "2 to 1 is no range, since it falls"),
    ("edges 0: 1 3 to 2", "3 to 2 is no range, since it falls"),
    (
        "tasks 1 to 2: as task 1",
        "no task 1 stands above this line",
    ),
    (
        "vertices 0 to 1: time 4\nedges 0: 1\nvertex 2: time 4",
        "a vertex stands before the edges of its task",
    ),
    (
        "tasks 1 to 2: as task 0\nedges 0: 1",
        "tasks that are as another have no lines of their own",
    ),
    (
        "vertices 0 to 65535: time 1",
        "a task has at most 65535 vertices",
    ),
    (
        "vertices 0 to 4000000000: time 1",
        "a task has at most 65535 vertices",
    ),
    ("tasks 1 to 1000000: as task 0", TOO_MANY),
    ("tasks 1 to 99999999999999999999999: as task 0", TOO_MANY),
    ("edges 0 to 999: 0 to 999", TOO_MANY),
    (
        "edges 0 to 4294967295: 0 to 4294967295 0 to 4294967295",
        TOO_MANY,
    ),
];

/// A task of one vertex and one edge, and what may follow it.
const HEAD: Record = Record {
    kind: TASK,
    b: 1,
    e: 1,
    ..JOB
};
const JOB: Record = Record {
    kind: VERTEX,
    a: 0,
    b: 0,
    c: 0,
    d: 0,
    e: 0,
};
const LINK: Record = Record { kind: EDGE, ..JOB };

const SETS: &[(&[Record], &str)] = &[
    (
        &[JOB],
        "record 0: a task is due here, and this record has kind 2",
    ),
    (
        &[HEAD, LINK],
        "record 1: a vertex is due here, and this record has kind 3",
    ),
    (
        &[HEAD, JOB, HEAD],
        "record 2: an edge is due here, and this record has kind 1",
    ),
    (&[HEAD], "record 1: a vertex is due here, and the set ends"),
    (
        &[HEAD, JOB],
        "record 2: an edge is due here, and the set ends",
    ),
    (
        &[HEAD, Record { b: 4, ..JOB }],
        "record 1: plain vertex with mate 4",
    ),
    (
        &[HEAD, Record { a: 3, ..JOB }],
        "record 1: role 3: at most 2",
    ),
    (
        &[HEAD, Record { d: 5, ..JOB }],
        "record 1: field D is 5 where 0 stands",
    ),
    (
        &[HEAD, Record { e: 6, ..JOB }],
        "record 1: field E is 6 where 0 stands",
    ),
    (
        &[HEAD, JOB, Record { a: 7, ..LINK }],
        "record 2: field A is 7 where 0 stands",
    ),
    (
        &[HEAD, JOB, Record { b: 8, ..LINK }],
        "record 2: field B is 8 where 0 stands",
    ),
    (
        &[HEAD, JOB, Record { e: 9, ..LINK }],
        "record 2: field E is 9 where 0 stands",
    ),
];
