//! Joins the original files of this folder, which the build puts beside this one.

mod cel_types;
pub use cel_types::*;

mod create_cel_expr;
pub use create_cel_expr::*;

/// The kind of the response list and its strings; only this crate can see them.
pub fn response_list<'a>(
    response: &'a DefaultResponseCertification<'a>,
) -> (&'static str, &'a [&'a str]) {
    match response.get_type() {
        DefaultResponseCertificationType::CertifiedResponseHeaders(names) => ("inclusions", names),
        DefaultResponseCertificationType::ResponseHeaderExclusions(names) => ("exclusions", names),
    }
}
