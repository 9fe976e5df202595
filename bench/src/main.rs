//! Read, map and print: the original Rust and the archive, on the same texts, in turns. Then a recording: the original and the program
//! `replay`. `bench PROGRAM` prints both tables; `bench replay`, which it calls, is the original on a recording.

mod cel;
mod replay;

use cel::ast_mapping::map_cel_ast;
use cel::parser::parse_cel_expression;
use std::env;
use std::hint::black_box;
use std::io;
use std::time::Instant;

#[link(name = "hilladok", kind = "static")]
extern "C" {
    fn hilladok_canonicalise(text: *const u8, length: usize, out: *mut u8, room: usize) -> u32;
}

const ROUNDS: usize = 4001;
const NANOSECONDS_A_ROUND: u128 = 200_000;
const REFUSED: u32 = 65_536;

/// What the original prints, or None where it refuses.
fn original(text: &str) -> Option<String> {
    let tree = parse_cel_expression(text).ok()?;
    let policy = map_cel_ast(&tree).ok()?;
    Some(ic_http_certification::create_cel_expr(&policy))
}

fn ours(text: &[u8], out: &mut [u8]) -> u32 {
    // SAFETY: both pointers come from slices of the lengths given.
    unsafe { hilladok_canonicalise(text.as_ptr(), text.len(), out.as_mut_ptr(), out.len()) }
}

fn fixtures() -> Vec<String> {
    let source = include_str!("../fixtures.rs");
    let pieces = source.split("r#\"").skip(1);
    pieces.map(|piece| piece.split("\"#").next().unwrap().to_string()).collect()
}

fn without_blanks(text: &str) -> String {
    text.chars().filter(|c| !c.is_whitespace()).collect()
}

fn many_headers(count: usize) -> String {
    let names: Vec<String> = (0..count).map(|i| format!("\"X-Header-{i:03}\"")).collect();
    format!(
        "default_certification(ValidationArgs{{certification:Certification{{request_certification:RequestCertification{{\
         certified_request_headers:[],certified_query_parameters:[]}},response_certification:ResponseCertification{{\
         certified_response_headers:ResponseHeaderList{{headers:[{}]}}}}}}}})",
        names.join(",")
    )
}

fn levels(count: usize) -> String {
    let inner = count - 2;
    format!(
        "default_certification(ValidationArgs{{no_certification:{}{}}})",
        "[".repeat(inner),
        "]".repeat(inner)
    )
}

/// How many calls fill a round.
fn calls_a_round(call: &mut dyn FnMut()) -> usize {
    let mut calls = 1;
    loop {
        let start = Instant::now();
        (0..calls).for_each(|_| call());
        if start.elapsed().as_nanos() > NANOSECONDS_A_ROUND || calls > 1 << 20 {
            return calls;
        }
        calls *= 2;
    }
}

/// Nanoseconds of one call, of each of the two, the least of many rounds. The rounds are made in turns, so that both meet the
/// machine's quiet moments.
fn least(first: &mut dyn FnMut(), second: &mut dyn FnMut()) -> (f64, f64) {
    let calls = (calls_a_round(first), calls_a_round(second));
    let round = |call: &mut dyn FnMut(), calls: usize| {
        let start = Instant::now();
        (0..calls).for_each(|_| call());
        start.elapsed().as_nanos() as f64 / calls as f64
    };
    (0..ROUNDS).fold((f64::INFINITY, f64::INFINITY), |least, _| {
        (least.0.min(round(first, calls.0)), least.1.min(round(second, calls.1)))
    })
}

fn compare(name: &str, texts: &[String]) {
    let mut out = vec![0u8; 8192];
    for text in texts {
        let expected = original(text).expect("the original takes the text");
        let length = ours(text.as_bytes(), &mut out);
        assert!(length < REFUSED, "{name} is refused: {length}");
        assert_eq!(&out[..length as usize], expected.as_bytes(), "{name} prints otherwise");
    }
    let mut originals = || texts.iter().for_each(|text| drop(black_box(original(black_box(text)))));
    let mut archives = || {
        texts.iter().for_each(|text| {
            black_box(ours(black_box(text.as_bytes()), &mut out));
        })
    };
    let per = texts.len() as f64;
    let (rust, here) = least(&mut originals, &mut archives);
    println!("| {name} | {:.0} | {:.0} | {:.2} |", rust / per, here / per, here / rust);
}

fn tables(program: &str) -> io::Result<()> {
    let spaced = fixtures();
    let plain: Vec<String> = spaced.iter().map(|text| without_blanks(text)).collect();
    println!("| text | the Rust, ns | here, ns | ratio |");
    println!("|---|---|---|---|");
    compare("the eleven fixtures, a text", &plain);
    compare("the same with their blanks", &spaced);
    compare("247 headers", &[many_headers(247)]);
    compare("32 levels", &[levels(32)]);
    println!();
    replay::compare("100,000 fixtures with their blanks", program, &spaced)
}

fn main() -> io::Result<()> {
    match env::args().nth(1).as_deref() {
        Some("replay") => replay::replay(),
        Some(program) => tables(program),
        None => panic!("no program to time"),
    }
}
