//! Writes texts to ask the judge, in hex, one a line.

mod damage;
mod faults;
mod fixed;
mod fixtures;
mod junk;
mod limits;
mod mix;
mod names;
mod policy;
mod rng;
mod sweep;
mod value;

use std::ffi::OsString;
use std::io::{self, Write};
use std::os::unix::ffi::OsStrExt;
use std::process::ExitCode;
use std::str::FromStr;

const USAGE: &str = "usage: texts SEED COUNT | texts all LENGTH ALPHABET | texts fixed";

const FIXTURES: usize = 11;

fn main() -> ExitCode {
    if fixtures::fixtures().len() != FIXTURES {
        eprintln!("texts: built with a fixtures.rs that has not {FIXTURES} texts");
        return ExitCode::FAILURE;
    }
    let arguments: Vec<OsString> = std::env::args_os().skip(1).collect();
    let Some(texts) = chosen(&arguments) else {
        eprintln!("{USAGE}");
        return ExitCode::from(2);
    };
    match write_all(texts) {
        Ok(()) => ExitCode::SUCCESS,
        Err(error) => {
            eprintln!("texts: cannot write: {error}");
            ExitCode::FAILURE
        }
    }
}

type Texts<'a> = Box<dyn Iterator<Item = Vec<u8>> + 'a>;

/// The texts that the arguments ask for, if they ask for any.
fn chosen(arguments: &[OsString]) -> Option<Texts<'_>> {
    match arguments {
        [word] if word == "fixed" => Some(Box::new(fixed::texts().into_iter())),
        [word, length, alphabet] if word == "all" => {
            let letters = alphabet.as_bytes();
            let sound = !letters.is_empty() && all_differ(letters);
            let sweep = sweep::Sweep::new(number(length)?, letters);
            sound.then(|| Box::new(sweep) as Texts)
        }
        [seed, count] => {
            let count = number(count)?;
            Some(Box::new(mix::Mix::new(number(seed)?).take(count)))
        }
        _ => None,
    }
}

fn number<T: FromStr>(argument: &OsString) -> Option<T> {
    let digits = argument.to_str()?;
    let all_digits = digits.bytes().all(|byte| byte.is_ascii_digit());
    all_digits.then(|| digits.parse().ok())?
}

fn all_differ(letters: &[u8]) -> bool {
    (1..letters.len()).all(|place| !letters[..place].contains(&letters[place]))
}

fn write_all(texts: Texts) -> io::Result<()> {
    let mut out = io::BufWriter::with_capacity(1 << 16, io::stdout().lock());
    let mut line = Vec::new();
    for text in texts {
        line.clear();
        for byte in text {
            line.push(b"0123456789abcdef"[byte as usize >> 4]);
            line.push(b"0123456789abcdef"[byte as usize & 15]);
        }
        line.push(b'\n');
        out.write_all(&line)?;
    }
    out.flush()
}
