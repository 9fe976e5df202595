//! Joins the original files of this folder, which the build puts beside this one.
//! They are taken as they are, so the compiler's remarks on them are switched off.

#[allow(warnings)]
pub(crate) mod ast_mapping;
#[allow(warnings)]
pub(crate) mod error;
#[allow(warnings)]
pub(crate) mod parser;
