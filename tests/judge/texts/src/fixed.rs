//! The texts of the fixed list: all within the limits, none twice, always the same.

use crate::faults;
use crate::fixtures;
use crate::limits;
use crate::mix::Mix;
use crate::policy;
use crate::rng::Rng;
use crate::sweep::Sweep;
use crate::value::Value;
use std::collections::HashSet;

const COUNT: usize = 4000;
const SEED: u64 = 1;

/// Texts of the mix longer than this would make the list large and say little more.
const MOST_BYTES_OF_MIX: usize = 400;

/// Short cases of SPEC.md, and neighbours of theirs.
const CASES: [&str; 44] = [
    "",
    "a",
    "f()",
    "{}",
    "default_certification()",
    r#"["a",]"#,
    r#"[""," x"]"#,
    r#"["_"]"#,
    r#"["abc  "]"#,
    "default_certification(ValidationArgs{no_certification:Empty{}})",
    r#"default_certification(ValidationArgs{no_certification:""})"#,
    r#""""#,
    r#""  ""#,
    r#"" "a"#,
    r#""a"#,
    r#""a b""#,
    r#""\"""#,
    r#""\n""#,
    r#""a\\""#,
    "[,]",
    r#"[,""]"#,
    r#"["",,""]"#,
    "(,)",
    "{,}",
    "{:}",
    r#"{:""}"#,
    r#"{:"",}"#,
    r#"{a:"",a:[]}"#,
    r#"{a_:""}"#,
    r#"{a-:""}"#,
    r#"{"a":""}"#,
    "a-b()",
    "a_b()",
    "_()",
    "0{}",
    r#"a"""#,
    "a[]",
    "a []",
    "a ()",
    " \t\n\ra \t\n\r{ \t\n\r}",
    "\u{b}\"\"",
    "\u{c}\"\"",
    "default_certification(ValidationArgs{no_certification:x})",
    "default_certification ( ValidationArgs { no_certification : [ ] } , , )",
];

pub fn texts() -> Vec<Vec<u8>> {
    let mut list = List::default();
    list.add_all(CASES.map(|case| case.as_bytes().to_vec()));
    let fixtures = fixtures::fixtures();
    list.add_all(fixtures.iter().map(|text| text.as_bytes().to_vec()));
    list.add_all(fixtures.iter().map(|text| fixtures::without_blanks(text)));
    list.add_all(at_the_limits());
    list.add_all(Sweep::new(3, b"[\"]{a:, "));
    list.add_all(faulty_policies());
    let short = |text: &Vec<u8>| text.len() <= MOST_BYTES_OF_MIX;
    list.add_all(Mix::new(SEED).filter(short));
    list.texts
}

#[derive(Default)]
struct List {
    texts: Vec<Vec<u8>>,
    seen: HashSet<Vec<u8>>,
}

impl List {
    /// Adds what is new and within the limits, until the list is full.
    fn add_all(&mut self, texts: impl IntoIterator<Item = Vec<u8>>) {
        for text in texts {
            if self.texts.len() == COUNT {
                return;
            }
            if limits::surely_within(&text) && self.seen.insert(text.clone()) {
                self.texts.push(text);
            }
        }
    }
}

/// Cases at the limits of SPEC.md, none of which prints to more than 8,192 bytes.
fn at_the_limits() -> Vec<Vec<u8>> {
    vec![
        limits::nested(32),
        vec![b'['; 32],
        limits::row(255).plain(),
        limits::one_string(7986, policy::empty()),
        limits::one_string(7986, Value::Text(String::new())),
    ]
}

/// Each form and kind with each fault at each of its nodes.
fn faulty_policies() -> Vec<Vec<u8>> {
    let lists = [["a"], ["b"], ["c"]].map(|list| list.map(String::from).to_vec());
    let mut rng = Rng::new(SEED);
    let mut texts = Vec::new();
    for shape in policy::SHAPES {
        let sound = policy::policy(shape, &lists, policy::empty());
        for number in 0..sound.size() {
            for fault in faults::faults_of(sound.clone().node_mut(number)) {
                let mut tree = sound.clone();
                faults::make(&mut rng, tree.node_mut(number), fault);
                texts.push(tree.plain());
            }
        }
    }
    texts
}
