//! A recording replayed: the original Rust in a loop beside the program `replay`, each a process of its own.

use crate::cel::ast_mapping::map_cel_ast;
use crate::cel::parser::parse_cel_expression;
use ic_http_certification::cel::{CelExpression, DefaultCelExpression};
use std::env;
use std::fs::{self, File};
use std::io::{self, BufReader, BufWriter, Read, Write};
use std::process::{Command, Stdio};
use std::time::Instant;

const RECORDS: usize = 100_000;
const ROUNDS: usize = 21;
const BUFFER: usize = 65_536;
const FILE: &str = "recording";

/// Puts a length in groups of seven bits, the lowest first, with the top bit set where another follows.
fn put_length(recording: &mut Vec<u8>, mut length: usize) {
    while length > 127 {
        recording.push((length % 128 + 128) as u8);
        length /= 128;
    }
    recording.push(length as u8);
}

/// The next record's length, or None at the end of a recording without faults.
fn next_length(input: &mut impl Read) -> io::Result<Option<usize>> {
    let mut group = [0];
    if input.read(&mut group)? == 0 {
        return Ok(None);
    }
    let mut length = usize::from(group[0] & 127);
    for place in 1..3 {
        if group[0] < 128 {
            break;
        }
        input.read_exact(&mut group)?;
        length += usize::from(group[0] & 127) << (7 * place);
    }
    Ok(Some(length))
}

/// The kind of policy that the original reads, or None where it refuses.
fn kind(body: &[u8]) -> Option<&'static str> {
    let tree = parse_cel_expression(std::str::from_utf8(body).ok()?).ok()?;
    let CelExpression::Default(policy) = map_cel_ast(&tree).ok()?;
    Some(match policy {
        DefaultCelExpression::Skip => "skip",
        DefaultCelExpression::ResponseOnly(_) => "response",
        DefaultCelExpression::Full(_) => "full",
    })
}

/// The original on a recording on standard input: a line for each record, and the counts.
pub fn replay() -> io::Result<()> {
    let mut input = BufReader::with_capacity(BUFFER, io::stdin().lock());
    let mut out = BufWriter::with_capacity(BUFFER, io::stdout().lock());
    let mut body = Vec::new();
    let (mut count, mut refused) = (0, 0);
    while let Some(length) = next_length(&mut input)? {
        body.resize(length, 0);
        input.read_exact(&mut body)?;
        let kind = kind(&body);
        writeln!(out, "{count} {}", kind.unwrap_or("none"))?;
        count += 1;
        refused += usize::from(kind.is_none());
    }
    writeln!(out, "{count} records {refused} refused")?;
    out.flush()
}

/// A program ready to run on the recording.
fn on_recording(program: &str, words: &[&str]) -> io::Result<Command> {
    let mut command = Command::new(program);
    command.args(words).stdin(File::open(FILE)?);
    Ok(command)
}

/// The counts, which are the last line.
fn counts(mut command: Command) -> io::Result<String> {
    let written = String::from_utf8(command.output()?.stdout).expect("lines of ASCII");
    Ok(written.lines().last().unwrap_or("").to_string())
}

fn seconds(mut command: Command) -> io::Result<f64> {
    let start = Instant::now();
    let status = command.stdout(Stdio::null()).status()?;
    assert!(status.success(), "a program fails: {status}");
    Ok(start.elapsed().as_secs_f64())
}

/// Times both on the texts, in turns, and prints a table with the least of many rounds.
pub fn compare(name: &str, program: &str, texts: &[String]) -> io::Result<()> {
    let mut recording = Vec::new();
    for text in texts.iter().cycle().take(RECORDS) {
        put_length(&mut recording, text.len());
        recording.extend_from_slice(text.as_bytes());
    }
    fs::write(FILE, &recording)?;
    let this = env::current_exe()?;
    let this = this.to_str().expect("a path in UTF-8");
    let original = || on_recording(this, &["replay"]);
    let ours = || on_recording(program, &[]);
    let expected = format!("{RECORDS} records 0 refused");
    assert_eq!(counts(original()?)?, expected, "the original counts otherwise");
    assert_eq!(counts(ours()?)?, expected, "the program counts otherwise");
    let (mut rust, mut here) = (f64::INFINITY, f64::INFINITY);
    for _ in 0..ROUNDS {
        rust = rust.min(seconds(original()?)?);
        here = here.min(seconds(ours()?)?);
    }
    fs::remove_file(FILE)?;
    let megabytes = recording.len() as f64 / 1e6;
    println!("| recording | the Rust, MB/s | here, MB/s | ratio |");
    println!("|---|---|---|---|");
    println!("| {name} | {:.0} | {:.0} | {:.2} |", megabytes / rust, megabytes / here, here / rust);
    Ok(())
}
