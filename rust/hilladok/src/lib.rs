//! Reads a certification expression and prints its canonical text.
//!
//! The work is done by a proved archive without globals and without heap; this crate lends it two slices and gives its
//! refusals names. [`canonicalise`] may be called from any number of threads at once.
//!
//! The build takes the archive, `libhilladok.a`, from the folder that `HILLADOK_LIB_DIR` names, or from this repository's
//! `target`, or has the repository's script `archive` make it there. It is for x86-64 Linux.
//!
//! ```
//! use hilladok::{canonicalise, Refusal, MOST_BYTES};
//!
//! let mut out = [0; MOST_BYTES];
//! let text = b"default_certification ( ValidationArgs { no_certification : Empty { } } )";
//! let length = canonicalise(text, &mut out)?;
//! assert_eq!(&out[..length], b"default_certification(ValidationArgs{no_certification:Empty{}})");
//!
//! assert_eq!(canonicalise(b"default_certification(", &mut out), Err(Refusal::Syntax));
//! # Ok::<(), Refusal>(())
//! ```

#![deny(missing_docs)]
#![deny(unsafe_code)]

use std::error::Error;
use std::fmt;

/// The longest text that is read and the longest that is printed: an output of this length is always long enough.
pub const MOST_BYTES: usize = 8192;

/// Answers below this are lengths; any other is this plus the number of a refusal.
const REFUSED: u32 = 65536;

extern "C" {
    fn hilladok_canonicalise(
        text: *const u8,
        text_length: usize,
        out: *mut u8,
        out_length: usize,
    ) -> u32;
}

/// Reads the text and writes its canonical text to the front of `out`; returns the printed length.
///
/// After a refusal every byte of `out` is as it was; otherwise every byte past the printed text is.
///
/// # Errors
///
/// The [`Refusal`] says why the text was not printed.
pub fn canonicalise(text: &[u8], out: &mut [u8]) -> Result<usize, Refusal> {
    let answer = ask(text, out);
    match answer.checked_sub(REFUSED) {
        None => Ok(answer as usize),
        Some(number) => Err(Refusal::from_number(number)),
    }
}

#[allow(unsafe_code)]
fn ask(text: &[u8], out: &mut [u8]) -> u32 {
    // SAFETY: the function reads only the bytes of `text` and writes only to those of `out`, and keeps neither pointer. Both
    // are slices, so they are valid for their lengths, and `out` is borrowed alone, so the two do not overlap.
    unsafe { hilladok_canonicalise(text.as_ptr(), text.len(), out.as_mut_ptr(), out.len()) }
}

/// Why a text was refused.
#[derive(Clone, Copy, Debug, PartialEq, Eq, Hash)]
pub enum Refusal {
    /// 2: the text is longer than 8,192 bytes.
    TextTooLong,
    /// 3: the text has a byte of 128 or more.
    NotAscii,
    /// 4: the text is not an expression.
    Syntax,
    /// 5: more than 32 objects, functions and arrays are open inside one another.
    TooDeep,
    /// 6: the text has more than 256 values.
    TooManyNodes,
    /// 7: a value is of the wrong kind.
    UnexpectedNodeType,
    /// 8: a function or an object has another name than expected.
    UnexpectedNodeName,
    /// 9: `default_certification` has no argument.
    MissingFunctionParameter,
    /// 10: an object lacks a property that it must have.
    MissingObjectProperty,
    /// 11: `ValidationArgs` has both `no_certification` and `certification`.
    ExtraneousValidationArgsProperty,
    /// 12: `ValidationArgs` has neither `no_certification` nor `certification`.
    MissingValidationArgsProperty,
    /// 13: `Certification` has both `no_request_certification` and `request_certification`.
    ExtraneousRequestCertificationProperty,
    /// 14: `Certification` has neither `no_request_certification` nor `request_certification`.
    MissingRequestCertificationProperty,
    /// 15: `ResponseCertification` has the headers of both `certified_response_headers` and `response_header_exclusions`.
    ExtraneousResponseCertificationProperty,
    /// 16: `ResponseCertification` has the headers of neither `certified_response_headers` nor `response_header_exclusions`.
    MissingResponseCertificationProperty,
    /// 23: the canonical text would be longer than 8,192 bytes.
    PrintedTooLong,
    /// 24: the output is shorter than the canonical text.
    OutputTooShort,
    /// A number that the archive never gives; here so that a foreign archive cannot make this crate panic.
    Unknown(u32),
}

impl Refusal {
    /// The refusal that has this number.
    pub fn from_number(number: u32) -> Refusal {
        match number {
            2 => Refusal::TextTooLong,
            3 => Refusal::NotAscii,
            4 => Refusal::Syntax,
            5 => Refusal::TooDeep,
            6 => Refusal::TooManyNodes,
            7 => Refusal::UnexpectedNodeType,
            8 => Refusal::UnexpectedNodeName,
            9 => Refusal::MissingFunctionParameter,
            10 => Refusal::MissingObjectProperty,
            11 => Refusal::ExtraneousValidationArgsProperty,
            12 => Refusal::MissingValidationArgsProperty,
            13 => Refusal::ExtraneousRequestCertificationProperty,
            14 => Refusal::MissingRequestCertificationProperty,
            15 => Refusal::ExtraneousResponseCertificationProperty,
            16 => Refusal::MissingResponseCertificationProperty,
            23 => Refusal::PrintedTooLong,
            24 => Refusal::OutputTooShort,
            other => Refusal::Unknown(other),
        }
    }

    /// The number of this refusal, as the C header has it.
    pub fn number(self) -> u32 {
        match self {
            Refusal::TextTooLong => 2,
            Refusal::NotAscii => 3,
            Refusal::Syntax => 4,
            Refusal::TooDeep => 5,
            Refusal::TooManyNodes => 6,
            Refusal::UnexpectedNodeType => 7,
            Refusal::UnexpectedNodeName => 8,
            Refusal::MissingFunctionParameter => 9,
            Refusal::MissingObjectProperty => 10,
            Refusal::ExtraneousValidationArgsProperty => 11,
            Refusal::MissingValidationArgsProperty => 12,
            Refusal::ExtraneousRequestCertificationProperty => 13,
            Refusal::MissingRequestCertificationProperty => 14,
            Refusal::ExtraneousResponseCertificationProperty => 15,
            Refusal::MissingResponseCertificationProperty => 16,
            Refusal::PrintedTooLong => 23,
            Refusal::OutputTooShort => 24,
            Refusal::Unknown(number) => number,
        }
    }
}

impl fmt::Display for Refusal {
    fn fmt(&self, f: &mut fmt::Formatter<'_>) -> fmt::Result {
        f.write_str(match self {
            Refusal::TextTooLong => "the text is longer than 8,192 bytes",
            Refusal::NotAscii => "the text has a byte of 128 or more",
            Refusal::Syntax => "the text is not an expression",
            Refusal::TooDeep => "more than 32 objects, functions and arrays are open inside one another",
            Refusal::TooManyNodes => "the text has more than 256 values",
            Refusal::UnexpectedNodeType => "a value is of the wrong kind",
            Refusal::UnexpectedNodeName => "a function or an object has another name than expected",
            Refusal::MissingFunctionParameter => "default_certification has no argument",
            Refusal::MissingObjectProperty => "an object lacks a property that it must have",
            Refusal::ExtraneousValidationArgsProperty => {
                "ValidationArgs has both no_certification and certification"
            }
            Refusal::MissingValidationArgsProperty => {
                "ValidationArgs has neither no_certification nor certification"
            }
            Refusal::ExtraneousRequestCertificationProperty => {
                "Certification has both no_request_certification and request_certification"
            }
            Refusal::MissingRequestCertificationProperty => {
                "Certification has neither no_request_certification nor request_certification"
            }
            Refusal::ExtraneousResponseCertificationProperty => {
                "ResponseCertification has the headers of both certified_response_headers and response_header_exclusions"
            }
            Refusal::MissingResponseCertificationProperty => {
                "ResponseCertification has the headers of neither certified_response_headers nor response_header_exclusions"
            }
            Refusal::PrintedTooLong => "the canonical text would be longer than 8,192 bytes",
            Refusal::OutputTooShort => "the output is shorter than the canonical text",
            Refusal::Unknown(number) => return write!(f, "the text is refused with the unknown number {number}"),
        })
    }
}

impl Error for Refusal {}

#[cfg(test)]
mod tests {
    use super::*;
    use std::collections::HashSet;

    const SKIP: &[u8] = b"default_certification(ValidationArgs{no_certification:Empty{}})";

    #[test]
    fn prints_to_the_front_and_leaves_the_rest() {
        let mut out = [0xa5; MOST_BYTES];
        let text = b" default_certification\t(\nValidationArgs\r{no_certification:[]})ignored";
        assert_eq!(canonicalise(text, &mut out), Ok(SKIP.len()));
        assert_eq!(&out[..SKIP.len()], SKIP);
        assert!(out[SKIP.len()..].iter().all(|&byte| byte == 0xa5));
    }

    #[test]
    fn a_refusal_leaves_the_output() {
        let mut out = [0xa5; 62];
        assert_eq!(canonicalise(SKIP, &mut out), Err(Refusal::OutputTooShort));
        assert_eq!(
            canonicalise(b"f()", &mut out),
            Err(Refusal::UnexpectedNodeName)
        );
        assert_eq!(out, [0xa5; 62]);
    }

    #[test]
    fn empty_slices_are_taken() {
        assert_eq!(canonicalise(&[], &mut []), Err(Refusal::Syntax));
        assert_eq!(canonicalise(&[], &mut [0; 8]), Err(Refusal::Syntax));
        assert_eq!(canonicalise(SKIP, &mut []), Err(Refusal::OutputTooShort));
    }

    #[test]
    fn a_number_names_one_refusal_and_back() {
        let known: Vec<u32> = (2..=16).chain([23, 24]).collect();
        for number in (0..100).chain([REFUSED, u32::MAX]) {
            let refusal = Refusal::from_number(number);
            assert_eq!(refusal.number(), number);
            assert_eq!(
                refusal == Refusal::Unknown(number),
                !known.contains(&number)
            );
        }
    }

    #[test]
    fn each_refusal_has_a_sentence_of_its_own() {
        let sentences: HashSet<String> = (0..30)
            .map(|number| Refusal::from_number(number).to_string())
            .collect();
        assert_eq!(sentences.len(), 30);
        assert!(sentences
            .iter()
            .all(|sentence| sentence.len() > 20 && !sentence.contains('\n')));
    }

    #[test]
    fn a_refusal_is_an_error() {
        let boxed: Box<dyn Error + Send + Sync> = Refusal::TooDeep.into();
        assert!(boxed.source().is_none());
    }
}
