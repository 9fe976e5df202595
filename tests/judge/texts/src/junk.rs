//! Names, strings, trees and rows of tokens that mean nothing in particular.

use crate::names;
use crate::rng::Rng;
use crate::value::Value;

const STRING_BYTES: &[u8] = b"abcXYZ-019ETagCookie";
const IDENTIFIER_BYTES: &[u8] = b"abz_AZ09";
const KNOWN_STRINGS: [&str; 6] = ["ETag", "Cache-Control", "Set-Cookie", "foo", "-", "0"];

/// The letters of the short texts: each opener and closer, and one of each other class.
pub const LETTERS: &[u8] = b"[\"](){}a:, -_\\";

const MARKS: [&str; 14] = [
    "(", ")", "[", "]", "{", "}", ":", ",", "\"", "\"\"", "\"a\"", " ", "\n", "{}",
];

pub fn string(rng: &mut Rng) -> String {
    if rng.one_in(3) {
        return rng.pick(&KNOWN_STRINGS).to_string();
    }
    let length = *rng.pick(&[0, 1, 2, 3, 5, 8, 13]);
    run(rng, STRING_BYTES, length)
}

/// A name that the mapping knows, or another, or none.
pub fn identifier(rng: &mut Rng) -> String {
    match rng.below(4) {
        0 | 1 => rng.pick(&names::ALL).to_string(),
        2 => String::new(),
        _ => {
            let length = rng.between(1, 6);
            run(rng, IDENTIFIER_BYTES, length)
        }
    }
}

fn run(rng: &mut Rng, bytes: &[u8], length: usize) -> String {
    (0..length).map(|_| *rng.pick(bytes) as char).collect()
}

/// A tree with at most this many levels of containers.
pub fn value(rng: &mut Rng, levels: usize) -> Value {
    let kind = if levels == 0 { 0 } else { rng.below(4) };
    match kind {
        0 => Value::Text(string(rng)),
        1 => Value::Array(values(rng, levels - 1)),
        2 => Value::Function(identifier(rng), values(rng, levels - 1)),
        _ => Value::Object(identifier(rng), entries(rng, levels - 1)),
    }
}

fn values(rng: &mut Rng, levels: usize) -> Vec<Value> {
    let count = *rng.pick(&[0, 1, 1, 2, 3]);
    (0..count).map(|_| value(rng, levels)).collect()
}

fn entries(rng: &mut Rng, levels: usize) -> Vec<(String, Value)> {
    let values = values(rng, levels);
    values
        .into_iter()
        .map(|value| (identifier(rng), value))
        .collect()
}

/// A text over few letters, so that many are nearly legal.
pub fn letters(rng: &mut Rng) -> Vec<u8> {
    let length = rng.between(0, 9);
    (0..length).map(|_| *rng.pick(LETTERS)).collect()
}

/// Names and marks in any order, often after the beginning of a policy.
pub fn tokens(rng: &mut Rng) -> Vec<u8> {
    let beginnings = [
        "",
        "",
        "default_certification(",
        "default_certification(ValidationArgs{",
    ];
    let mut text = rng.pick(&beginnings).as_bytes().to_vec();
    for _ in 0..rng.between(1, 12) {
        match rng.below(3) {
            0 => text.extend_from_slice(identifier(rng).as_bytes()),
            _ => text.extend_from_slice(rng.pick(&MARKS).as_bytes()),
        }
    }
    text
}
