//! The judge: the original Rust asked one text a line, in hex, on standard input.
//! The lines it answers are described in tests/FIXED-LIST.md.

mod answer;
mod cel;
mod hex;

use std::io::{self, BufRead, Read, Write};
use std::process::ExitCode;
use std::thread;

/// The longest text answered, given the address space for its stack.
const MAX_TEXT: usize = 1 << 20;

/// The parser calls itself for each level, and printing and dropping the tree do too. Measured for
/// nothing but openers: 1,104 bytes of stack a byte of `(((..`, 864 of `[[[..`, 808 of `{:{:..`.
/// So a text of 1 MiB may touch 1.2 GB; the rest is a margin that is never touched.
const STACK_PER_BYTE: usize = 2048;

/// Where the address space is short the limit is halved, but never below this.
const LEAST_LIMIT: usize = 1 << 14;

const CHUNK: usize = 1 << 16;

fn main() -> ExitCode {
    if std::env::args_os().len() > 1 {
        eprintln!(
            "judge: takes no arguments; it reads texts in hex, one a line, on standard input"
        );
        return ExitCode::from(2);
    }
    match run(MAX_TEXT) {
        Ok(()) => ExitCode::SUCCESS,
        Err(why) => {
            eprintln!("judge: {why}");
            ExitCode::FAILURE
        }
    }
}

/// Answers everything in a thread whose stack suits texts of `limit` bytes.
fn run(limit: usize) -> Result<(), String> {
    let stack = limit * STACK_PER_BYTE;
    match thread::Builder::new()
        .stack_size(stack)
        .spawn(move || answer_all(limit))
    {
        Ok(worker) => worker
            .join()
            .unwrap_or_else(|_| Err("the Rust panicked".into())),
        Err(_) if limit > LEAST_LIMIT => run(limit / 2),
        Err(error) => Err(format!("cannot get a stack of {stack} bytes: {error}")),
    }
}

/// Answers every line; the answers before a faulty line are written all the same.
fn answer_all(limit: usize) -> Result<(), String> {
    let mut out = Vec::with_capacity(2 * CHUNK);
    let outcome = answer_lines(&mut out, limit);
    write_out(&mut out)?;
    outcome
}

fn answer_lines(out: &mut Vec<u8>, limit: usize) -> Result<(), String> {
    let mut input = io::BufReader::with_capacity(CHUNK, io::stdin().lock());
    let (mut line, mut text) = (Vec::new(), Vec::new());
    let mut number = 0u64;
    while read_line(&mut input, &mut line, 2 * limit)? {
        number += 1;
        if line.len() > 2 * limit {
            return Err(format!("line {number}: a text of over {limit} bytes"));
        }
        hex::decode(&line, &mut text).map_err(|why| format!("line {number}: {why}"))?;
        answer::write_answer(out, &text);
        out.push(b'\n');
        if out.len() >= CHUNK {
            write_out(out)?;
        }
    }
    Ok(())
}

/// Reads one line without its end; never more of it than shows that it is too long.
fn read_line(input: &mut impl BufRead, line: &mut Vec<u8>, most: usize) -> Result<bool, String> {
    line.clear();
    let read = input.take(most as u64 + 1).read_until(b'\n', line);
    let read = read.map_err(|error| format!("cannot read: {error}"))?;
    if line.last() == Some(&b'\n') {
        line.pop();
    }
    Ok(read > 0)
}

fn write_out(out: &mut Vec<u8>) -> Result<(), String> {
    let written = io::stdout().write_all(out);
    out.clear();
    written.map_err(|error| format!("cannot write: {error}"))
}
