//! A program as the words that start it, one to a line, as docs/run --words prints them.

use std::process::{Command, Stdio};

/// The command that starts a program between two pipes.
pub fn command(program: &str) -> Command {
    let mut words = program.lines();
    let mut command = Command::new(words.next().unwrap_or_default());
    command
        .args(words)
        .stdin(Stdio::piped())
        .stdout(Stdio::piped());
    command
}
