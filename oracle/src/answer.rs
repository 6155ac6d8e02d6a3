//! The Rust's answer to one text.

use std::panic::{catch_unwind, set_hook};

use crate::parser::{HgvsVariant, NoRef};
use crate::record;

/// Keeps the messages of panics, which are answers here, off the error output.
pub fn silence_panics() {
    set_hook(Box::new(|_| {}));
}

pub enum Reading {
    NotUtf8,
    Panic,
    Refused,
    Variant(HgvsVariant),
}

pub fn read(text: &[u8]) -> Reading {
    let Ok(text) = std::str::from_utf8(text) else {
        return Reading::NotUtf8;
    };
    match catch_unwind(|| text.parse::<HgvsVariant>()) {
        Err(_) => Reading::Panic,
        Ok(Err(_)) => Reading::Refused,
        Ok(Ok(variant)) => Reading::Variant(variant),
    }
}

/// As one line of text.
pub fn line(reading: &Reading) -> String {
    match reading {
        Reading::NotUtf8 => "NOTUTF8".to_owned(),
        Reading::Panic => "PANIC".to_owned(),
        Reading::Refused => "ERR".to_owned(),
        Reading::Variant(variant) => format!("{}\t{}", record::line(variant), without_reference(variant)),
    }
}

pub fn answer(text: &[u8]) -> String {
    line(&read(text))
}

/// Empty for p: its Display needs a file of the crate that is not given.
fn without_reference(variant: &HgvsVariant) -> String {
    match variant {
        HgvsVariant::ProtVariant { .. } => String::new(),
        _ => catch_unwind(|| NoRef(variant).to_string()).unwrap_or("PANIC".to_owned()),
    }
}
