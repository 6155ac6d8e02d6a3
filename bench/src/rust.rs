//! The Rust crate's parser and its display.

use std::io::Write;

use oracle::parser::{HgvsVariant, NoRef};

/// Whether the text was read.
pub fn read(text: &str) -> bool {
    text.parse::<HgvsVariant>().is_ok()
}

/// Whether the text was read and written; p has no display in the files given, and is only read.
pub fn rewrite(text: &str, mut output: &mut [u8]) -> bool {
    match text.parse::<HgvsVariant>() {
        Ok(HgvsVariant::ProtVariant { .. }) => true,
        Ok(variant) => write!(output, "{}", NoRef(&variant)).is_ok(),
        Err(_) => false,
    }
}
