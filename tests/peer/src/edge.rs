//! The built programs where reading and writing go wrong: a read that fails is no end of the input,
//! and gets no verdict.

use crate::machine::wait_for;
use crate::program::Program;
use sets::draft::{set_of, Draft};
use std::fs::{File, OpenOptions};
use std::io::{self, Write};
use std::os::fd::{AsRawFd, OwnedFd};
use std::os::unix::fs::OpenOptionsExt;
use std::os::unix::net::UnixStream;
use std::process::{Child, Command, Output, Stdio};
use std::time::Duration;

/// Linux's flag of a descriptor whose reads do not wait.
const NON_BLOCKING: i32 = 0o4000;

/// What a program must say: its line and nothing else, or nothing but the reason.
enum Says {
    Line(&'static str),
    Reason(&'static str),
}

/// Two jobs that are due within the first tick. One alone is accepted on one processor, and both
/// overrun: the first half of the input is a call too, with another answer.
fn halves() -> (Vec<u8>, Vec<u8>) {
    let job = set_of(&[Draft::job(1, 1, 2)]);
    ([vec![1, 1, 1], job.clone()].concat(), job)
}

/// Every case; how many there are, or what is wrong.
pub fn check(program: Program) -> Result<usize, String> {
    use Says::{Line, Reason};
    type Case = (&'static str, fn(Program) -> io::Result<Output>, Says);
    let cases: [Case; 9] = [
        ("half and then the end", half, Line("0 0 0 0\n")),
        ("a slow pipe", slow, Line("9 0 1 2\n")),
        ("nothing to read", nothing, Line("1 0 0 0\n")),
        ("an interrupted read", interrupted, Line("9 0 1 2\n")),
        ("a second half that is late", late, Reason("cannot read")),
        ("a directory", directory, Reason("cannot read")),
        ("closed input", closed_input, Reason("cannot read")),
        ("a full disk", full_disk, Reason("cannot write")),
        ("closed output", closed_output, Reason("cannot write")),
    ];
    for (name, run, says) in &cases {
        let place = format!("{} at {name}", program.name());
        let output = run(program).map_err(|error| format!("{place}: {error}"))?;
        held(&place, &output, says)?;
    }
    Ok(cases.len())
}

fn held(place: &str, output: &Output, says: &Says) -> Result<(), String> {
    let line = String::from_utf8_lossy(&output.stdout);
    let reason = String::from_utf8_lossy(&output.stderr);
    let is_held = match says {
        Says::Line(due) => line == *due && reason.is_empty(),
        Says::Reason(due) => line.is_empty() && reason.contains(due),
    };
    if is_held {
        return Ok(());
    }
    Err(format!(
        "{place}: prints {line:?}, and {reason:?} to standard error"
    ))
}

fn start(mut command: Command, input: impl Into<Stdio>) -> io::Result<Child> {
    command
        .stdin(input)
        .stdout(Stdio::piped())
        .stderr(Stdio::piped())
        .spawn()
}

fn half(program: Program) -> io::Result<Output> {
    let (reader, mut writer) = io::pipe()?;
    let child = start(program.command(), reader)?;
    writer.write_all(&halves().0)?;
    drop(writer);
    child.wait_with_output()
}

fn slow(program: Program) -> io::Result<Output> {
    let (reader, mut writer) = io::pipe()?;
    let child = start(program.command(), reader)?;
    let (first, second) = halves();
    for part in [first, second].concat().chunks(5) {
        // The program may have given up by now, and its answer tells.
        let _ = writer.write_all(part);
        wait_for(&child, &['S', 'Z'])?;
    }
    drop(writer);
    child.wait_with_output()
}

fn nothing(program: Program) -> io::Result<Output> {
    start(program.command(), Stdio::null())?.wait_with_output()
}

/// A pipe whose reads do not wait, with the second half still to come.
fn late(program: Program) -> io::Result<Output> {
    let (reader, mut writer) = io::pipe()?;
    writer.write_all(&halves().0)?;
    let again = format!("/proc/self/fd/{}", reader.as_raw_fd());
    let input = OpenOptions::new()
        .read(true)
        .custom_flags(NON_BLOCKING)
        .open(again)?;
    let output = start(program.command(), input)?.wait_with_output();
    drop(writer);
    output
}

fn directory(program: Program) -> io::Result<Output> {
    start(program.command(), File::open("/")?)?.wait_with_output()
}

/// The program behind a shell that closes or turns a descriptor, as `<&-` says.
fn behind_shell(program: Program, turned: &str) -> Command {
    let inner = program.command();
    let mut command = Command::new("sh");
    command.args(["-c", &format!("exec \"$@\" {turned}"), "sh"]);
    command.arg(inner.get_program()).args(inner.get_args());
    command
}

fn closed_input(program: Program) -> io::Result<Output> {
    start(behind_shell(program, "<&-"), Stdio::null())?.wait_with_output()
}

fn full_disk(program: Program) -> io::Result<Output> {
    start(behind_shell(program, ">/dev/full"), Stdio::null())?.wait_with_output()
}

fn closed_output(program: Program) -> io::Result<Output> {
    start(behind_shell(program, ">&-"), Stdio::null())?.wait_with_output()
}

/// On a socket with a time limit, Linux interrupts a read when the reader is stopped and goes on.
fn interrupted(program: Program) -> io::Result<Output> {
    let (input, mut writer) = UnixStream::pair()?;
    input.set_read_timeout(Some(Duration::from_secs(60)))?;
    let child = start(program.command(), OwnedFd::from(input))?;
    let (first, second) = halves();
    writer.write_all(&first)?;
    wait_for(&child, &['S'])?;
    signal(&child, "STOP")?;
    wait_for(&child, &['T'])?;
    signal(&child, "CONT")?;
    std::thread::sleep(Duration::from_millis(20));
    // As in `slow`.
    let _ = writer.write_all(&second);
    drop(writer);
    child.wait_with_output()
}

fn signal(child: &Child, name: &str) -> io::Result<()> {
    let kill = format!("kill -{name} {}", child.id());
    let status = Command::new("sh").args(["-c", &kill]).status()?;
    match status.success() {
        true => Ok(()),
        false => Err(io::Error::other(format!("{name} is not sent"))),
    }
}
