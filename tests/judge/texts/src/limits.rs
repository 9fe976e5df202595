//! Texts at the limits of depth, nodes and bytes, and one or two past them.

use crate::names;
use crate::policy::{self, Form};
use crate::rng::Rng;
use crate::value::Value;

pub const MAX_BYTES: usize = 8192;
pub const MAX_DEPTH: usize = 32;
pub const MAX_NODES: usize = 256;

const LEVELS: [(&str, &str); 5] = [
    ("[", "]"),
    ("(", ")"),
    ("{:", "}"),
    ("f(\"\",", ")"),
    (" Empty { a : ", "\n}"),
];

pub fn text(rng: &mut Rng) -> Vec<u8> {
    match rng.below(8) {
        0..=3 => deep(rng),
        4 | 5 => wide(rng),
        6 => long(rng),
        _ => long_string(rng),
    }
}

/// This many `[` and as many `]`.
pub fn nested(levels: usize) -> Vec<u8> {
    let mut text = vec![b'['; levels];
    text.resize(2 * levels, b']');
    text
}

/// An array of this many empty strings.
pub fn row(strings: usize) -> Value {
    Value::strings(&vec![String::new(); strings])
}

/// ResponseOnly with a single string of this many bytes; `nothing` stands for the request part.
pub fn one_string(length: usize, nothing: Value) -> Vec<u8> {
    let lists = [vec![], vec![], vec!["x".repeat(length)]];
    policy::policy((Form::ResponseOnly, names::INCLUSIONS), &lists, nothing).plain()
}

fn deep(rng: &mut Rng) -> Vec<u8> {
    let levels = *rng.pick(&[8, 29, 30, 31, 32, 33, 34]);
    let (mut text, mut closers) = (Vec::new(), Vec::new());
    if rng.one_in(3) {
        text.extend_from_slice(b"default_certification(ValidationArgs{no_certification:");
        closers = vec![")", "}"];
    }
    let only = rng.below(2 * LEVELS.len());
    while closers.len() < levels {
        let (opener, closer) = LEVELS.get(only).unwrap_or_else(|| rng.pick(&LEVELS));
        text.extend_from_slice(opener.as_bytes());
        closers.push(closer);
    }
    text.extend_from_slice(rng.pick(&["\"\"", "\"a \"", "[]", "{}"]).as_bytes());
    let left_open = if rng.one_in(4) { rng.below(3) } else { 0 };
    for closer in closers[left_open..].iter().rev() {
        text.extend_from_slice(closer.as_bytes());
    }
    text
}

fn wide(rng: &mut Rng) -> Vec<u8> {
    let nodes = *rng.pick(&[255, 256, 257, 258]);
    let tree = match rng.below(4) {
        0 => row(nodes - 1),
        1 => Value::Function("f".into(), vec![Value::Array(vec![]); nodes - 1]),
        2 => Value::Object("".into(), vec![("a".into(), policy::empty()); nodes - 1]),
        _ => wide_policy(rng, nodes),
    };
    tree.plain()
}

/// A policy of this many nodes, most of them in its lists.
fn wide_policy(rng: &mut Rng, nodes: usize) -> Value {
    let shape = *rng.pick(&policy::SHAPES[1..]);
    let bare = policy::policy(shape, &Default::default(), policy::empty()).size();
    let mut left = nodes - bare;
    let mut lists: policy::Lists = Default::default();
    if let Form::Full = shape.0 {
        for list in &mut lists[..2] {
            *list = vec!["a".into(); rng.below(left)];
            left -= list.len();
        }
    }
    lists[2] = vec!["b".into(); left];
    policy::policy(shape, &lists, policy::empty())
}

/// A policy with a row of blanks, to the limit of bytes or nearly so.
fn long(rng: &mut Rng) -> Vec<u8> {
    let mut text = policy::random_policy(rng).plain();
    let length = rng.between(MAX_BYTES - 2, MAX_BYTES + 2);
    let place = *rng.pick(&[0, text.len() / 2, text.len() - 1, text.len()]);
    let blanks = vec![*rng.pick(b" \t\n\r"); length - text.len()];
    text.splice(place..place, blanks);
    text
}

fn long_string(rng: &mut Rng) -> Vec<u8> {
    let nothing = if rng.one_in(2) {
        policy::empty()
    } else {
        Value::Text(String::new())
    };
    one_string(rng.between(7984, 7993), nothing)
}

/// Whether the text is surely within all limits. Counts as if nothing were refused before its end.
pub fn surely_within(text: &[u8]) -> bool {
    let (mut open, mut deepest, mut openers, mut quotes) = (0usize, 0, 0, 0usize);
    for byte in text {
        match byte {
            b'{' | b'(' | b'[' => {
                open += 1;
                openers += 1;
                deepest = deepest.max(open);
            }
            b'}' | b')' | b']' => open = open.saturating_sub(1),
            b'"' => quotes += 1,
            _ => {}
        }
    }
    let nodes = openers + quotes.div_ceil(2);
    text.is_ascii() && text.len() <= MAX_BYTES && deepest <= MAX_DEPTH && nodes <= MAX_NODES
}
