//! The width of a location by the crate's own range, where documents 01 and 02 let it have one.

use crate::parser::*;

/// None where the width is refused. The length is taken modulo 2^32, as the end of a range of p may wrap.
pub fn width(variant: &HgvsVariant) -> Option<u32> {
    let range = variant.loc_range()?;
    is_measured(variant).then(|| range.end.wrapping_sub(range.start) as u32)
}

/// Of a location that has a range: no offset, no base of 0, and the end not before the start.
fn is_measured(variant: &HgvsVariant) -> bool {
    match variant {
        HgvsVariant::CdsVariant { loc_edit, .. } => {
            let CdsInterval { start, end } = loc_edit.loc.inner();
            are_bases((start.base, start.offset), (end.base, end.offset))
        }
        HgvsVariant::TxVariant { loc_edit, .. } => {
            let TxInterval { start, end } = loc_edit.loc.inner();
            are_bases((start.base, start.offset), (end.base, end.offset))
        }
        HgvsVariant::RnaVariant { loc_edit, .. } => {
            let RnaInterval { start, end } = loc_edit.loc.inner();
            are_bases((start.base, start.offset), (end.base, end.offset))
        }
        HgvsVariant::GenomeVariant { loc_edit, .. } => {
            let GenomeInterval { start, end } = loc_edit.loc.inner();
            start <= end
        }
        HgvsVariant::MtVariant { loc_edit, .. } => {
            let MtInterval { start, end } = loc_edit.loc.inner();
            start <= end
        }
        HgvsVariant::ProtVariant { loc_edit, .. } => match loc_edit {
            ProtLocEdit::Ordinary { loc, .. } => loc.inner().start.number <= loc.inner().end.number,
            _ => false,
        },
    }
}

fn are_bases(start: (i32, Option<i32>), end: (i32, Option<i32>)) -> bool {
    let is_base = |(base, offset): (i32, Option<i32>)| base != 0 && offset.is_none();
    is_base(start) && is_base(end) && start.0 <= end.0
}
