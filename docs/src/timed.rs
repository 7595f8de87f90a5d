//! A timed run of a program on a file.

use crate::program;
use std::io::Write;
use std::time::{Duration, Instant};

/// How many runs a time is the least of.
pub const RUNS: usize = 7;

/// One run on a file: how long it took, and what it printed.
pub fn run(program: &str, file: &[u8]) -> (Duration, Vec<u8>) {
    let began = Instant::now();
    let mut child = program::command(program)
        .spawn()
        .expect("the program starts");
    let mut input = child.stdin.take().expect("its input is a pipe");
    let _ = input.write_all(file);
    drop(input);
    let output = child.wait_with_output().expect("the program ends");
    (began.elapsed(), output.stdout)
}
