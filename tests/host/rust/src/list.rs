//! The fixed list: texts, and what must come of each.

use hilladok::Refusal;
use std::fs;

const FIXTURES: usize = 11;

/// A text and what must come of it: its canonical text, or a refusal.
#[derive(Clone)]
pub struct Expected {
    pub label: String,
    pub text: Vec<u8>,
    pub printed: Result<Vec<u8>, Refusal>,
}

impl Expected {
    pub fn without_blanks(&self) -> Expected {
        let mut bare = self.clone();
        bare.label.push_str(" without blanks");
        bare.text.retain(|byte| !b" \t\n\r".contains(byte));
        bare
    }
}

pub fn read(folder: &str) -> Result<Vec<Expected>, String> {
    let texts = contents(folder, "stdin")?;
    let answers = contents(folder, "stdout")?;
    let (asked, answered) = (texts.lines().count(), answers.lines().count());
    if asked != answered || asked == 0 {
        return Err(format!(
            "the fixed list has {asked} texts and {answered} answers"
        ));
    }
    let lines = texts.lines().zip(answers.lines()).enumerate();
    lines
        .map(|(number, (text, answer))| expected(number + 1, text, answer))
        .collect()
}

/// The first texts of the list that are laid out over lines.
pub fn fixtures(list: &[Expected]) -> Result<&[Expected], String> {
    let laid_out = |expected: &Expected| {
        expected.text.starts_with(b"default_certification(\n") && expected.printed.is_ok()
    };
    list.windows(FIXTURES)
        .find(|window| window.iter().all(laid_out))
        .ok_or_else(|| format!("the fixed list has no {FIXTURES} fixtures in a row"))
}

fn contents(folder: &str, name: &str) -> Result<String, String> {
    let path = format!("{folder}/{name}");
    fs::read_to_string(&path).map_err(|error| format!("cannot read {path}: {error}"))
}

fn expected(number: usize, text: &str, answer: &str) -> Result<Expected, String> {
    let wrong = |what: &str| format!("line {number} of the fixed list: {what}");
    Ok(Expected {
        label: format!("line {number} of the fixed list"),
        text: bytes(text).ok_or_else(|| wrong("the text is not in hex"))?,
        printed: printed(answer).ok_or_else(|| wrong("no refusal stands for the answer"))?,
    })
}

fn bytes(hex: &str) -> Option<Vec<u8>> {
    let pairs = hex.as_bytes().chunks(2);
    pairs
        .map(|pair| {
            u8::from_str_radix(std::str::from_utf8(pair).ok()?, 16)
                .ok()
                .filter(|_| pair.len() == 2)
        })
        .collect()
}

/// The last field of an accepted line, or the refusal that the variant of the Rust stands for.
fn printed(answer: &str) -> Option<Result<Vec<u8>, Refusal>> {
    let mut fields = answer.split('\t');
    Some(Err(match fields.next()? {
        "ok" => return Some(Ok(fields.next_back()?.into())),
        "CelSyntaxException" => Refusal::Syntax,
        "UnexpectedNodeType" => Refusal::UnexpectedNodeType,
        "UnexpectedNodeName" => Refusal::UnexpectedNodeName,
        "MissingFunctionParameter" => Refusal::MissingFunctionParameter,
        "MissingObjectProperty" => Refusal::MissingObjectProperty,
        "ExtraneousValidationArgsProperty" => Refusal::ExtraneousValidationArgsProperty,
        "MissingValidationArgsProperty" => Refusal::MissingValidationArgsProperty,
        "ExtraneousRequestCertificationProperty" => Refusal::ExtraneousRequestCertificationProperty,
        "MissingRequestCertificationProperty" => Refusal::MissingRequestCertificationProperty,
        "ExtraneousResponseCertificationProperty" => {
            Refusal::ExtraneousResponseCertificationProperty
        }
        "MissingResponseCertificationProperty" => Refusal::MissingResponseCertificationProperty,
        _ => return None,
    }))
}
