//! Checks the archive from Rust, through the wrapper crate: answers, every byte of the output and of its surroundings,
//! threads, and that the C header has the same refusals. Usage: host FOLDER HEADER, where FOLDER has the fixed list.

mod list;
mod made;

use hilladok::{canonicalise, Refusal, MOST_BYTES};
use list::Expected;
use std::process::ExitCode;
use std::sync::Barrier;

const THREADS: usize = 4;
const MARGIN: usize = 64;
const CANARY: u8 = 0xa5;
const SHOWN: usize = 20;

/// Counts what was checked, and says what failed.
#[derive(Default)]
struct Checks {
    passed: usize,
    failed: usize,
}

impl Checks {
    fn add(&mut self, result: Result<(), String>) {
        match result {
            Ok(()) => self.passed += 1,
            Err(why) => {
                self.failed += 1;
                if self.failed <= SHOWN {
                    eprintln!("host: {why}");
                }
            }
        }
    }

    fn that(&mut self, holds: bool, otherwise: String) {
        self.add(if holds { Ok(()) } else { Err(otherwise) });
    }
}

fn main() -> ExitCode {
    let arguments: Vec<String> = std::env::args().skip(1).collect();
    let [folder, header] = &arguments[..] else {
        eprintln!("host: usage: host FOLDER HEADER");
        return ExitCode::from(2);
    };
    match run(folder, header) {
        Ok(Checks { passed, failed: 0 }) => {
            println!("host: {passed} checks passed from Rust");
            ExitCode::SUCCESS
        }
        Ok(Checks { passed, failed }) => {
            eprintln!(
                "host: {failed} of {} checks failed from Rust",
                passed + failed
            );
            ExitCode::FAILURE
        }
        Err(why) => {
            eprintln!("host: {why}");
            ExitCode::from(2)
        }
    }
}

fn run(folder: &str, header: &str) -> Result<Checks, String> {
    let list = list::read(folder)?;
    let header = std::fs::read_to_string(header)
        .map_err(|error| format!("cannot read {header}: {error}"))?;
    let mut checks = Checks::default();
    made::refused()
        .iter()
        .for_each(|text| check_refused(&mut checks, text));
    for fixture in list::fixtures(&list)? {
        check_lengths(&mut checks, fixture);
        check_lengths(&mut checks, &fixture.without_blanks());
    }
    check_lengths(&mut checks, &made::longest());
    list.iter()
        .for_each(|expected| checks.add(check(expected, MOST_BYTES)));
    check_threads(&mut checks, &list);
    check_header(&mut checks, &header);
    Ok(checks)
}

/// What must come of the text with an output of so many bytes.
fn wanted(expected: &Expected, room: usize) -> Result<&[u8], Refusal> {
    let printed = expected.printed.as_deref().map_err(|refusal| *refusal)?;
    match printed.len() <= room {
        true => Ok(printed),
        false => Err(Refusal::OutputTooShort),
    }
}

/// One call, with canaries before and after the output.
fn check(expected: &Expected, room: usize) -> Result<(), String> {
    let mut memory = vec![CANARY; MARGIN + room + MARGIN];
    let answer = canonicalise(&expected.text, &mut memory[MARGIN..MARGIN + room]);
    let wanted = wanted(expected, room);
    let about = |what: String| format!("{}, output of {room} bytes: {what}", expected.label);
    let length = wanted.map(<[u8]>::len);
    if answer != length {
        return Err(about(format!("answer {answer:?}, wanted {length:?}")));
    }
    let mut image = vec![CANARY; memory.len()];
    if let Ok(printed) = wanted {
        image[MARGIN..MARGIN + printed.len()].copy_from_slice(printed);
    }
    match memory
        .iter()
        .zip(&image)
        .position(|(is, wanted)| is != wanted)
    {
        None => Ok(()),
        Some(place) if place < MARGIN => Err(about("a byte before it has changed".into())),
        Some(place) => Err(about(format!("byte {} is wrong", place - MARGIN))),
    }
}

fn check_refused(checks: &mut Checks, expected: &Expected) {
    for room in [0, 1, 63, MOST_BYTES, MOST_BYTES + 1] {
        checks.add(check(expected, room));
    }
}

fn check_lengths(checks: &mut Checks, expected: &Expected) {
    let needed = expected.printed.as_ref().map_or(0, Vec::len);
    for room in (0..=needed + 2).chain([MOST_BYTES]) {
        checks.add(check(expected, room));
    }
}

/// All threads share the texts; each starts at another one.
fn check_threads(checks: &mut Checks, list: &[Expected]) {
    let together = &Barrier::new(THREADS);
    let work = |first: usize| {
        together.wait();
        let (late, early) = list.split_at(first);
        let texts = early.iter().chain(late);
        texts
            .map(|expected| check(expected, MOST_BYTES))
            .collect::<Vec<_>>()
    };
    std::thread::scope(|scope| {
        let starts = (0..THREADS).map(|thread| thread * list.len() / THREADS);
        let threads: Vec<_> = starts
            .map(|first| scope.spawn(move || work(first)))
            .collect();
        for thread in threads {
            let results = thread
                .join()
                .unwrap_or_else(|_| vec![Err("a thread panicked".into())]);
            results.into_iter().for_each(|result| checks.add(result));
        }
    });
}

/// Each refusal of the header is the wrapper's, under the same name and number, and none is left out.
fn check_header(checks: &mut Checks, header: &str) {
    let constants: Vec<(String, u32)> = header.lines().filter_map(constant).collect();
    for (name, number) in &constants {
        let own = screaming(&format!("{:?}", Refusal::from_number(*number)));
        let otherwise = format!("the header has {name} = {number}, the wrapper {own}");
        checks.that(own == *name, otherwise);
    }
    let known = |number: &u32| Refusal::from_number(*number) != Refusal::Unknown(*number);
    for number in (0..=u16::MAX.into()).filter(known) {
        let there = constants.iter().any(|(_, other)| *other == number);
        checks.that(there, format!("the header lacks the refusal {number}"));
    }
}

/// `    HILLADOK_SYNTAX = 4,` gives SYNTAX and 4.
fn constant(line: &str) -> Option<(String, u32)> {
    let (name, number) = line.trim().strip_prefix("HILLADOK_")?.split_once(" = ")?;
    Some((name.into(), number.trim_end_matches(',').parse().ok()?))
}

/// `NotAscii` gives NOT_ASCII.
fn screaming(name: &str) -> String {
    let mut words = String::new();
    for letter in name.chars() {
        if letter.is_uppercase() && !words.is_empty() {
            words.push('_');
        }
        words.push(letter.to_ascii_uppercase());
    }
    words
}
