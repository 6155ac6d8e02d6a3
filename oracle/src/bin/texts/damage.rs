//! Texts that are mostly no longer in the grammar, and texts that never were.

use crate::alphabets::{body, KINDS, NUCLEOTIDES, RESIDUES_OF_ONE, RESIDUES_OF_THREE};
use crate::dice::Dice;
use crate::grammar;

/// Letters and digits to Unicode but not to ASCII, and characters of two, three and four bytes.
const FOREIGN: &[&str] = &[
    "é", "ſ", "K", "٣", "７", "Ａ", "ǆ", "…", "\u{200b}", "𝟙", "🧬", "\u{0}", "\u{7f}", "\r", "\t", " ",
];

pub fn damaged_copy(dice: &mut Dice) -> Vec<u8> {
    let mut text = grammar::text(dice).into_bytes();
    for _ in 0..1 + dice.below(3) {
        damage(dice, &mut text);
    }
    text
}

fn damage(dice: &mut Dice, text: &mut Vec<u8>) {
    let place = dice.below(text.len() + 1);
    let end = text.len().min(place + 1 + dice.below(3));
    match dice.below(9) {
        0 | 1 => drop(text.drain(place..end)),
        2 | 3 => drop(text.splice(place..place, piece(dice).bytes())),
        4 | 5 => drop(text.splice(place..end, piece(dice).bytes())),
        6 => {
            let again = text[place..end].to_vec();
            drop(text.splice(place..place, again));
        }
        7 => text[place..end].iter_mut().for_each(|byte| *byte ^= 0x20),
        _ => {
            let other = grammar::text(dice).into_bytes();
            let kept = dice.below(other.len());
            text.truncate(place);
            text.extend(&other[kept..]);
        }
    }
}

fn piece(dice: &mut Dice) -> &'static str {
    match dice.below(6) {
        0 => dice.pick(FOREIGN),
        1 => dice.pick(NUCLEOTIDES),
        2 => dice.pick(RESIDUES_OF_ONE),
        3 => dice.pick(RESIDUES_OF_THREE),
        _ => token(dice),
    }
}

fn token(dice: &mut Dice) -> &'static str {
    let kind = dice.pick(KINDS);
    dice.pick(body(kind))
}

pub fn tokens(dice: &mut Dice) -> Vec<u8> {
    let kind = dice.pick(KINDS);
    let count = 1 + dice.below(12);
    let tokens = dice.joined(body(kind), count);
    format!("{}{tokens}", grammar::header(dice, kind)).into_bytes()
}

pub fn bytes(dice: &mut Dice) -> Vec<u8> {
    let mut text = perhaps_header(dice);
    for _ in 0..dice.below(40) {
        text.push(dice.below(256) as u8);
    }
    text
}

pub fn characters(dice: &mut Dice) -> Vec<u8> {
    let mut text = perhaps_header(dice);
    for _ in 0..dice.below(20) {
        let limit = [0x80, 0x800, 0x1_0000, 0x11_0000][dice.below(4)];
        let character = char::from_u32(dice.below(limit) as u32).unwrap_or('\u{fffd}');
        text.extend(character.to_string().bytes());
    }
    text
}

fn perhaps_header(dice: &mut Dice) -> Vec<u8> {
    if dice.one_in(2) {
        return Vec::new();
    }
    let kind = dice.pick(KINDS);
    grammar::header(dice, kind).into_bytes()
}
