//! Random texts of the grammar, their numbers mostly at an edge and some too large.

use crate::alphabets::*;
use crate::dice::Dice;

const ACCESSIONS: &[&str] = &[
    "AB_12.3", "NM_000088.4", "NP_000079.2", "NC_012920.1", "LRG_199t1", "ENST00000357033.9", "A1", "zz", "Ab.0",
];
const GENES: &[&str] = &["KIT", "TTN", "c11orf95", "7SK", "0", "Met1"];
const FITTING: &[&str] = &[
    "0", "00", "1", "01", "001", "2", "5", "9", "10", "76", "99", "100", "2147483646", "2147483647", "02147483647",
    "00000000001",
];
const TOO_LARGE: &[&str] = &[
    "2147483648", "2147483649", "02147483648", "4294967295", "4294967296", "9999999999", "10000000000", "21474836470",
    "18446744073709551616",
];

pub fn text(dice: &mut Dice) -> String {
    let kind = dice.pick(KINDS);
    format!("{}{}", header(dice, kind), body(dice, kind))
}

pub fn header(dice: &mut Dice, kind: &str) -> String {
    let accession = if dice.one_in(4) {
        made_accession(dice)
    } else {
        dice.pick(ACCESSIONS).to_owned()
    };
    let gene = match dice.below(8) {
        0 => format!("({})", dice.pick(GENES)),
        1 => format!("({})", alphanumerics(dice)),
        _ => String::new(),
    };
    format!("{accession}{gene}:{kind}.")
}

fn made_accession(dice: &mut Dice) -> String {
    let letter = dice.pick(&["A", "Z", "a", "z", "N"]);
    let mut accession = format!("{letter}{}", alphanumerics(dice));
    if dice.one_in(2) {
        accession += &format!("_{}", alphanumerics(dice));
    }
    if dice.one_in(2) {
        accession += &format!(".{}", number(dice));
    }
    accession
}

fn alphanumerics(dice: &mut Dice) -> String {
    let count = 1 + dice.below(5);
    dice.joined(
        &["0", "1", "9", "A", "M", "Z", "a", "m", "z", "12345678901", "del"],
        count,
    )
}

fn digits(dice: &mut Dice, count: usize) -> String {
    dice.joined(&["0", "1", "2", "3", "4", "5", "6", "7", "8", "9"], count)
}

pub fn number(dice: &mut Dice) -> String {
    match dice.below(2000) {
        0 => format!("{}{}", "0".repeat(1000 + dice.below(2000)), dice.pick(FITTING)),
        1 => {
            let count = 1000 + dice.below(2000);
            digits(dice, count)
        }
        2..=79 => dice.pick(TOO_LARGE).to_owned(),
        80..=999 => {
            let count = 1 + dice.below(9);
            digits(dice, count)
        }
        _ => dice.pick(FITTING).to_owned(),
    }
}

fn signed(dice: &mut Dice) -> String {
    match dice.below(20) {
        0 => "-2147483648".to_owned(),
        1 => "-0".to_owned(),
        _ => format!("{}{}", dice.pick(&["+", "-"]), number(dice)),
    }
}

fn offset(dice: &mut Dice) -> String {
    match dice.below(6) {
        0..=2 => String::new(),
        3 => dice.pick(&["+0", "-0", "+00"]).to_owned(),
        _ => signed(dice),
    }
}

fn position(dice: &mut Dice, kind: &str) -> String {
    match kind {
        "g" | "m" if dice.one_in(4) => "?".to_owned(),
        "g" | "m" => number(dice),
        "p" => format!("{}{}", residue(dice), number(dice)),
        "c" if dice.one_in(4) => format!("*{}{}", number(dice), offset(dice)),
        _ if dice.one_in(3) => format!("{}{}", signed(dice), offset(dice)),
        _ => format!("{}{}", number(dice), offset(dice)),
    }
}

/// The same position with one more leading zero.
fn respelled(position: &str) -> String {
    match position.find(|character: char| character.is_ascii_digit()) {
        Some(place) => format!("{}0{}", &position[..place], &position[place..]),
        None => position.to_owned(),
    }
}

fn location(dice: &mut Dice, kind: &str) -> String {
    let start = position(dice, kind);
    match dice.below(6) {
        0 => format!("{start}_{start}"),
        1 => format!("{start}_{}", respelled(&start)),
        2 => format!("{start}_{}", position(dice, kind)),
        _ => start,
    }
}

fn perhaps_bracketed(dice: &mut Dice, part: String) -> String {
    if dice.one_in(4) {
        format!("({part})")
    } else {
        part
    }
}

fn body(dice: &mut Dice, kind: &str) -> String {
    if kind == "p" {
        return protein_body(dice);
    }
    let location = location(dice, kind);
    let edit = nucleotide_edit(dice);
    format!("{}{}", perhaps_bracketed(dice, location), perhaps_bracketed(dice, edit))
}

fn sequence(dice: &mut Dice, shortest: usize) -> String {
    let count = shortest + dice.below(4);
    dice.joined(NUCLEOTIDES, count)
}

fn nucleotide_edit(dice: &mut Dice) -> String {
    match dice.below(13) {
        0 => format!("{}=", sequence(dice, 0)),
        1 | 2 => format!("{}>{}", dice.pick(NUCLEOTIDES), dice.pick(NUCLEOTIDES)),
        3 => {
            let same = sequence(dice, 1);
            format!("del{same}ins{same}")
        }
        4 => format!("del{}ins{}", dice.pick(NUCLEOTIDES), dice.pick(NUCLEOTIDES)),
        5 => format!("del{}ins{}", sequence(dice, 0), sequence(dice, 1)),
        6 => format!("del{}ins{}", number(dice), sequence(dice, 1)),
        7 => format!("del{}", number(dice)),
        8 => format!("del{}", sequence(dice, 0)),
        9 => format!("ins{}", sequence(dice, 1)),
        10 => format!("dup{}", sequence(dice, 0)),
        11 => format!("inv{}", number(dice)),
        _ => format!("inv{}", sequence(dice, 0)),
    }
}

fn residue(dice: &mut Dice) -> &'static str {
    let residues = if dice.one_in(2) {
        RESIDUES_OF_ONE
    } else {
        RESIDUES_OF_THREE
    };
    dice.pick(residues)
}

fn perhaps_residue(dice: &mut Dice) -> &'static str {
    if dice.one_in(2) {
        residue(dice)
    } else {
        ""
    }
}

fn protein_body(dice: &mut Dice) -> String {
    match dice.below(20) {
        0 => dice.pick(&["Met1?", "(Met1?)", "0?", "0", "(=)", "=", "?"]).to_owned(),
        1 => dice
            .pick(&[
                "Met01?", "Met1_Met1?", "(Met1)(?)", "(Met01?)", "(Met1)?", "Met1(?)", "M1?",
            ])
            .to_owned(),
        2..=5 => format!("({}{})", location(dice, "p"), protein_edit(dice)),
        _ => {
            let location = location(dice, "p");
            let edit = protein_edit(dice);
            format!("{}{}", perhaps_bracketed(dice, location), perhaps_bracketed(dice, edit))
        }
    }
}

fn protein_edit(dice: &mut Dice) -> String {
    match dice.below(14) {
        0 | 1 => residue(dice).to_owned(),
        2 => dice.pick(&["?", "=", "del", "dup"]).to_owned(),
        3 | 4 => residues_behind(dice, "ins"),
        5 | 6 => residues_behind(dice, "delins"),
        7 | 8 => format!("{}fs{}", perhaps_residue(dice), perhaps_terminal_with_length(dice)),
        9 | 10 => format!("{}ext{}", perhaps_residue(dice), perhaps_terminal_with_length(dice)),
        _ => format!("{}ext{}-{}", perhaps_residue(dice), perhaps_residue(dice), number(dice)),
    }
}

fn residues_behind(dice: &mut Dice, word: &str) -> String {
    let residues = if dice.one_in(2) {
        RESIDUES_OF_ONE
    } else {
        RESIDUES_OF_THREE
    };
    let count = 1 + dice.below(4);
    format!("{word}{}", dice.joined(residues, count))
}

fn perhaps_terminal_with_length(dice: &mut Dice) -> String {
    let terminal = dice.pick(TERMINALS);
    match dice.below(5) {
        0 => String::new(),
        1 => terminal.to_owned(),
        2 => format!("{terminal}?"),
        _ => format!("{terminal}{}", number(dice)),
    }
}
