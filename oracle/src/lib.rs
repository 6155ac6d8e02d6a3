//! The parser of hgvs 4.0.1, unchanged, and its answers as lines of text.

pub mod answer;
#[allow(dead_code)]
#[path = "../build/parser/mod.rs"]
pub mod parser;
mod record;
pub mod sequences;
pub mod width;
