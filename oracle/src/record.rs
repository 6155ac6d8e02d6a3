//! A record of the crate as one line of text.

use std::fmt::Display;

use crate::parser::*;

pub fn line(variant: &HgvsVariant) -> String {
    let (kind, body) = match variant {
        HgvsVariant::CdsVariant { loc_edit, .. } => ('c', nucleotide(&loc_edit.loc, &loc_edit.edit)),
        HgvsVariant::GenomeVariant { loc_edit, .. } => ('g', nucleotide(&loc_edit.loc, &loc_edit.edit)),
        HgvsVariant::MtVariant { loc_edit, .. } => ('m', nucleotide(&loc_edit.loc, &loc_edit.edit)),
        HgvsVariant::TxVariant { loc_edit, .. } => ('n', nucleotide(&loc_edit.loc, &loc_edit.edit)),
        HgvsVariant::RnaVariant { loc_edit, .. } => ('r', nucleotide(&loc_edit.loc, &loc_edit.edit)),
        HgvsVariant::ProtVariant { loc_edit, .. } => ('p', protein(loc_edit)),
    };
    let gene = variant.gene_symbol().as_ref().map(|gene| &gene.value);
    format!("{kind} {} {} {body}", variant.accession().value, or_dash(gene))
}

/// The two ends of a location, each as text.
trait Ends {
    fn ends(&self) -> (String, String);
}

impl Ends for CdsInterval {
    fn ends(&self) -> (String, String) {
        (cds_position(&self.start), cds_position(&self.end))
    }
}

impl Ends for GenomeInterval {
    fn ends(&self) -> (String, String) {
        (or_question_mark(self.start), or_question_mark(self.end))
    }
}

impl Ends for MtInterval {
    fn ends(&self) -> (String, String) {
        (or_question_mark(self.start), or_question_mark(self.end))
    }
}

impl Ends for TxInterval {
    fn ends(&self) -> (String, String) {
        (
            with_offset(self.start.base, self.start.offset),
            with_offset(self.end.base, self.end.offset),
        )
    }
}

impl Ends for RnaInterval {
    fn ends(&self) -> (String, String) {
        (
            with_offset(self.start.base, self.start.offset),
            with_offset(self.end.base, self.end.offset),
        )
    }
}

impl Ends for ProtInterval {
    fn ends(&self) -> (String, String) {
        let position = |end: &ProtPos| format!("{}:{}", end.aa, end.number);
        (position(&self.start), position(&self.end))
    }
}

fn cds_position(position: &CdsPos) -> String {
    let anchor = match position.cds_from {
        CdsFrom::Start => 'S',
        CdsFrom::End => 'E',
    };
    format!("{anchor}{}", with_offset(position.base, position.offset))
}

fn with_offset(base: i32, offset: Option<i32>) -> String {
    format!("{base}:{}", or_dash(offset))
}

fn or_dash(value: Option<impl Display>) -> String {
    value.map_or("-".to_owned(), |value| value.to_string())
}

fn or_question_mark(value: Option<i32>) -> String {
    value.map_or("?".to_owned(), |value| value.to_string())
}

fn certainty<T>(part: &Mu<T>) -> char {
    if part.is_certain() {
        'C'
    } else {
        'U'
    }
}

fn location(location: &Mu<impl Ends>) -> String {
    let (start, end) = location.inner().ends();
    format!("{}[{start},{end}]", certainty(location))
}

fn nucleotide(place: &Mu<impl Ends>, edit: &Mu<NaEdit>) -> String {
    format!("{} {}{}", location(place), certainty(edit), na_edit(edit.inner()))
}

fn na_edit(edit: &NaEdit) -> String {
    match edit {
        NaEdit::RefAlt { reference, alternative } => format!("RefAlt({reference},{alternative})"),
        NaEdit::NumAlt { count, alternative } => format!("NumAlt({count},{alternative})"),
        NaEdit::DelRef { reference } => format!("DelRef({reference})"),
        NaEdit::DelNum { count } => format!("DelNum({count})"),
        NaEdit::Ins { alternative } => format!("Ins({alternative})"),
        NaEdit::Dup { reference } => format!("Dup({reference})"),
        NaEdit::InvRef { reference } => format!("InvRef({reference})"),
        NaEdit::InvNum { count } => format!("InvNum({count})"),
    }
}

fn protein(body: &ProtLocEdit) -> String {
    match body {
        ProtLocEdit::Ordinary { loc, edit } => {
            format!("{} {}{}", location(loc), certainty(edit), protein_edit(edit.inner()))
        }
        ProtLocEdit::NoChange => "NoChange".to_owned(),
        ProtLocEdit::NoChangeUncertain => "NoChangeUncertain".to_owned(),
        ProtLocEdit::NoProtein => "NoProtein".to_owned(),
        ProtLocEdit::NoProteinUncertain => "NoProteinUncertain".to_owned(),
        ProtLocEdit::Unknown => "Unknown".to_owned(),
        ProtLocEdit::InitiationUncertain => "InitiationUncertain".to_owned(),
    }
}

fn protein_edit(edit: &ProteinEdit) -> String {
    match edit {
        ProteinEdit::Fs {
            alternative,
            terminal,
            length,
        } => format!(
            "Fs({},{},{})",
            or_dash(alternative.as_ref()),
            or_dash(terminal.as_ref()),
            length_change(length)
        ),
        ProteinEdit::Ext { aa_ext, ext_aa, change } => format!(
            "Ext({},{},{})",
            or_dash(aa_ext.as_ref()),
            or_dash(ext_aa.as_ref()),
            length_change(change)
        ),
        ProteinEdit::Subst { alternative } => format!("Subst({alternative})"),
        ProteinEdit::DelIns { alternative } => format!("DelIns({alternative})"),
        ProteinEdit::Ins { alternative } => format!("Ins({alternative})"),
        ProteinEdit::Del => "Del".to_owned(),
        ProteinEdit::Dup => "Dup".to_owned(),
        ProteinEdit::Ident => "Ident".to_owned(),
    }
}

fn length_change(change: &UncertainLengthChange) -> String {
    match change {
        UncertainLengthChange::None => "none".to_owned(),
        UncertainLengthChange::Unknown => "unk".to_owned(),
        UncertainLengthChange::Known(count) => count.to_string(),
    }
}
