//! The judge's line for one text. The format is described in tests/FIXED-LIST.md.

use crate::cel::ast_mapping::map_cel_ast;
use crate::cel::error::CelParserError;
use crate::cel::parser::parse_cel_expression;
use ic_http_certification::{create_cel_expr, response_list, CelExpression, DefaultCelExpression};

/// Appends the line for `text`, without its line end.
pub fn write_answer(out: &mut Vec<u8>, text: &[u8]) {
    let Ok(text) = std::str::from_utf8(text) else {
        return push(out, "not-utf8");
    };
    if let Err(refusal) = write_policy(out, text) {
        write_refusal(out, &refusal);
    }
}

fn write_policy(out: &mut Vec<u8>, text: &str) -> Result<(), CelParserError> {
    let tree = parse_cel_expression(text)?;
    let policy = map_cel_ast(&tree)?;
    let CelExpression::Default(form) = &policy;
    match form {
        DefaultCelExpression::Skip => push(out, "ok\tSkip\tnone\t\t\t"),
        DefaultCelExpression::ResponseOnly(parts) => {
            let (kind, names) = response_list(&parts.response);
            write_lists(out, "ResponseOnly", kind, [&[], &[], names]);
        }
        DefaultCelExpression::Full(parts) => {
            let (kind, names) = response_list(&parts.response);
            let request = &parts.request;
            let lists = [&*request.headers, &*request.query_parameters, names];
            write_lists(out, "Full", kind, lists);
        }
    }
    push(out, "\t");
    push(out, &create_cel_expr(&policy));
    Ok(())
}

fn write_lists(out: &mut Vec<u8>, form: &str, kind: &str, lists: [&[&str]; 3]) {
    write_fields(out, &["ok", form, kind]);
    for list in lists {
        push(out, "\t");
        for (index, name) in list.iter().enumerate() {
            push(out, if index == 0 { "\"" } else { ",\"" });
            push(out, name);
            push(out, "\"");
        }
    }
}

fn write_refusal(out: &mut Vec<u8>, refusal: &CelParserError) {
    use CelParserError::*;
    match refusal {
        UnexpectedNodeType {
            node_name,
            expected_type,
            ..
        } => write_fields(out, &["UnexpectedNodeType", node_name, expected_type]),
        UnexpectedNodeName { expected_name, .. } => {
            write_fields(out, &["UnexpectedNodeName", expected_name])
        }
        MissingFunctionParameter { parameter_name, .. } => {
            write_fields(out, &["MissingFunctionParameter", parameter_name])
        }
        MissingObjectProperty {
            expected_property_name,
            ..
        } => write_fields(out, &["MissingObjectProperty", expected_property_name]),
        other => push(out, variant(other)),
    }
}

/// The names of the refusals that carry nothing we print.
fn variant(refusal: &CelParserError) -> &'static str {
    use CelParserError::*;
    match refusal {
        UnrecognizedFunction(_) => "UnrecognizedFunction",
        IncorrectFunctionParameterType { .. } => "IncorrectFunctionParameterType",
        ExtraneousRequestCertificationProperty => "ExtraneousRequestCertificationProperty",
        MissingRequestCertificationProperty => "MissingRequestCertificationProperty",
        ExtraneousResponseCertificationProperty => "ExtraneousResponseCertificationProperty",
        MissingResponseCertificationProperty => "MissingResponseCertificationProperty",
        ExtraneousValidationArgsProperty => "ExtraneousValidationArgsProperty",
        MissingValidationArgsProperty => "MissingValidationArgsProperty",
        CelSyntaxException(_) => "CelSyntaxException",
        UnexpectedNodeType { .. }
        | UnexpectedNodeName { .. }
        | MissingFunctionParameter { .. }
        | MissingObjectProperty { .. } => unreachable!("written with its fields"),
    }
}

fn write_fields(out: &mut Vec<u8>, fields: &[&str]) {
    for (index, field) in fields.iter().enumerate() {
        if index > 0 {
            out.push(b'\t');
        }
        push(out, field);
    }
}

fn push(out: &mut Vec<u8>, text: &str) {
    out.extend_from_slice(text.as_bytes());
}
