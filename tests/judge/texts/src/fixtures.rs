//! The eleven texts of the original's fixtures.rs, which the build puts beside this crate.

const SOURCE: &str = include_str!("../fixtures.rs");

/// The texts as they stand between `r#"` and `"#`, blanks and all.
pub fn fixtures() -> Vec<&'static str> {
    let after_openers = SOURCE.split("r#\"").skip(1);
    after_openers
        .filter_map(|rest| rest.split_once("\"#"))
        .map(|(text, _)| text)
        .collect()
}

pub fn without_blanks(text: &str) -> Vec<u8> {
    text.bytes()
        .filter(|byte| !byte.is_ascii_whitespace())
        .collect()
}
