//! Texts made here: one at least for each refusal but OutputTooShort, and the longest that prints.

use crate::list::Expected;
use hilladok::{Refusal, MOST_BYTES};

fn args(inside: &str) -> String {
    format!("default_certification(ValidationArgs{{{inside}}})")
}

fn certification(inside: &str) -> String {
    args(&format!("certification:Certification{{{inside}}}"))
}

fn response(request: &str, inside: &str) -> String {
    certification(&format!(
        "no_request_certification:{request},response_certification:ResponseCertification{{{inside}}}"
    ))
}

/// ResponseOnly with one string of so many bytes; the request's value is ignored, so it may be shorter than it prints.
fn one_string(request: &str, length: usize) -> String {
    let string = "x".repeat(length);
    response(
        request,
        &format!("certified_response_headers:ResponseHeaderList{{headers:[\"{string}\"]}}"),
    )
}

/// The longest text that prints to itself.
pub fn longest() -> Expected {
    let text = one_string("Empty{}", 7986).into_bytes();
    Expected {
        label: "the longest text".into(),
        printed: Ok(text.clone()),
        text,
    }
}

pub fn refused() -> Vec<Expected> {
    let empty_list = "ResponseHeaderList{headers:[]}";
    let both_lists =
        format!("certified_response_headers:{empty_list},response_header_exclusions:{empty_list}");
    let strings = |count| format!("[{}]", vec!["\"\""; count].join(","));
    let texts = [
        (Refusal::TextTooLong, " ".repeat(MOST_BYTES + 1)),
        (Refusal::NotAscii, "é".into()),
        (Refusal::Syntax, "".into()),
        (Refusal::Syntax, "[\"a\",]".into()),
        (Refusal::Syntax, "[".repeat(32)),
        (Refusal::TooDeep, "[".repeat(33)),
        (Refusal::TooManyNodes, strings(256)),
        (Refusal::UnexpectedNodeType, strings(255)),
        (Refusal::UnexpectedNodeType, "{}".into()),
        (Refusal::UnexpectedNodeName, "f()".into()),
        (
            Refusal::MissingFunctionParameter,
            "default_certification()".into(),
        ),
        (
            Refusal::MissingObjectProperty,
            certification("no_request_certification:\"\""),
        ),
        (
            Refusal::ExtraneousValidationArgsProperty,
            args("no_certification:\"\",certification:\"\""),
        ),
        (Refusal::MissingValidationArgsProperty, args("")),
        (
            Refusal::ExtraneousRequestCertificationProperty,
            certification("no_request_certification:\"\",request_certification:\"\""),
        ),
        (
            Refusal::MissingRequestCertificationProperty,
            certification(""),
        ),
        (
            Refusal::ExtraneousResponseCertificationProperty,
            response("\"\"", &both_lists),
        ),
        (
            Refusal::MissingResponseCertificationProperty,
            response("\"\"", ""),
        ),
        (Refusal::PrintedTooLong, one_string("\"\"", 7987)),
        (Refusal::PrintedTooLong, one_string("\"\"", 7991)),
    ];
    let labelled = |(number, (refusal, text)): (usize, (Refusal, String))| Expected {
        label: format!("text {} of the refused", number + 1),
        text: text.into_bytes(),
        printed: Err(refusal),
    };
    texts.into_iter().enumerate().map(labelled).collect()
}
