//! The two readers and writers, and the texts that they are measured on.

pub mod ours;
pub mod rust;
pub mod texts;
