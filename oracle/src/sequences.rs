//! Stands in for a file of the crate that is not given. Only the Display of p calls it, and no answer uses that.

use std::borrow::Cow;
use std::convert::Infallible;

pub fn aa_to_aa3_cow(residues: &str) -> Result<Cow<'_, str>, Infallible> {
    Ok(residues.into())
}
