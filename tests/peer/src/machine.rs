//! How to run a program for x86-64: as it is, or behind the words that `tests/emulator` prints on this
//! processor; and what a running one does.

use std::path::Path;
use std::process::{Child, Command};
use std::sync::OnceLock;
use std::time::Duration;
use std::{fs, io};

static WORDS: OnceLock<Vec<String>> = OnceLock::new();

/// The emulator, and then its loader with the C library. Nothing on x86-64.
fn words() -> &'static [String] {
    WORDS.get_or_init(|| {
        let output = Command::new(crate::root().join("tests/emulator")).output();
        let output = output.expect("tests/emulator runs");
        assert!(output.status.success(), "tests/emulator finds no emulator");
        let text = String::from_utf8_lossy(&output.stdout).into_owned();
        text.split_whitespace().map(String::from).collect()
    })
}

/// A command that runs a program behind some words.
fn behind(words: &[String], program: &Path) -> Command {
    let Some((first, others)) = words.split_first() else {
        return Command::new(program);
    };
    let mut command = Command::new(first);
    command.args(others).arg(program);
    command
}

/// A command that runs a program with the toolchain's loader and C library.
pub fn program(program: &Path) -> Command {
    behind(words(), program)
}

/// A command that runs a program that needs no loader: the emulator is the first word.
#[cfg(not(target_arch = "x86_64"))]
pub fn static_program(program: &Path) -> Command {
    behind(&words()[..1], program)
}

/// Waits for the system to say that a program is in one of these states: it sleeps (S), is stopped
/// (T) or has ended (Z).
pub fn wait_for(child: &Child, states: &[char]) -> io::Result<()> {
    for _ in 0..2_500 {
        std::thread::sleep(Duration::from_millis(2));
        let status = fs::read_to_string(format!("/proc/{}/status", child.id()))?;
        let line = status.lines().find_map(|line| line.strip_prefix("State:"));
        if line.is_some_and(|line| line.trim().starts_with(states)) {
            return Ok(());
        }
    }
    Err(io::Error::other(format!("never came to state {states:?}")))
}
