//! Damage to a text's bytes, and bytes put behind it.

use crate::rng::Rng;

/// The bytes that matter to the grammar and their neighbours in the code table.
const ODD_BYTES: &[u8] = b" \t\n\r\"[](){}:,_-\\aZzA09/@^`~.;'!\0\x08\x0b\x0c\x0e\x1f\x7f";

const WIDE_CHARACTERS: [&str; 8] = [
    "é",
    "ı",
    "日",
    "\u{a0}",
    "\u{2028}",
    "\u{141}",
    "😀",
    "\u{10030}",
];

const TAILS: [&str; 10] = [
    " ",
    "\n",
    ")",
    "\"",
    "x",
    "[",
    ",",
    "\0",
    "default_certification()",
    " // \\ é",
];

/// One to three damages.
pub fn damage(rng: &mut Rng, text: &mut Vec<u8>) {
    for _ in 0..*rng.pick(&[1, 1, 1, 2, 3]) {
        if text.is_empty() {
            return text.push(*rng.pick(ODD_BYTES));
        }
        let place = place(rng, text);
        hurt(rng, text, place);
    }
}

/// Half of the time not inside a name, for there the grammar has least to say.
fn place(rng: &mut Rng, text: &[u8]) -> usize {
    let mut place = rng.below(text.len());
    if rng.one_in(2) {
        while place > 0 && text[place].is_ascii_alphanumeric() {
            place -= 1;
        }
    }
    place
}

fn hurt(rng: &mut Rng, text: &mut Vec<u8>, place: usize) {
    match rng.below(8) {
        0 | 1 => {
            text.remove(place);
        }
        2 => text.insert(place, text[place]),
        3 => text[place] = *rng.pick(ODD_BYTES),
        4 | 5 => text.insert(place + rng.below(2), *rng.pick(ODD_BYTES)),
        6 => text.truncate(place),
        _ => swap_or_repeat(rng, text, place),
    }
}

fn swap_or_repeat(rng: &mut Rng, text: &mut Vec<u8>, place: usize) {
    let end = (place + rng.between(1, 12)).min(text.len());
    match rng.below(3) {
        0 => text[place..end].reverse(),
        1 => {
            text.drain(place..end);
        }
        _ => {
            let copy = text[place..end].to_vec();
            text.splice(end..end, copy);
        }
    }
}

/// A character or a lone byte outside ASCII, somewhere.
pub fn widen(rng: &mut Rng, text: &mut Vec<u8>) {
    let place = rng.between(0, text.len());
    if rng.one_in(4) {
        text.insert(place, rng.between(128, 255) as u8);
    } else {
        let wide = rng.pick(&WIDE_CHARACTERS).bytes();
        text.splice(place..place, wide);
    }
}

pub fn add_tail(rng: &mut Rng, text: &mut Vec<u8>) {
    for _ in 0..rng.between(1, 3) {
        text.extend_from_slice(rng.pick(&TAILS).as_bytes());
    }
}
