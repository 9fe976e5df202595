//! The part of the original crate that `ast_mapping.rs` uses: its `cel` module and re-exports.

pub mod cel;
pub use cel::*;
