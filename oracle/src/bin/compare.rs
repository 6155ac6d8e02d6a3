//! Compares the answers of the program `records` with the Rust's, text by text.

use std::fs::File;
use std::io::{BufRead, BufReader, Result};
use std::{env, process};

use oracle::answer::{answer, line, read, silence_panics, Reading};
use oracle::parser::HgvsVariant;
use oracle::width::width;

const LIMIT: usize = 4096;
const SHOWN: usize = 10;

#[derive(Default)]
struct Counts {
    records: u64,
    refused: u64,
    panics: u64,
    too_long: u64,
    zero_offsets: u64,
    different: usize,
}

enum Verdict {
    Same,
    /// But for the display of an offset of 0, which docs/DIFFERENCES.md lists.
    SameButZeroOffset,
    Different,
}

fn main() -> Result<()> {
    let paths: Vec<_> = env::args_os().skip(1).collect();
    let [texts, answers] = &paths[..] else {
        eprintln!("usage: compare TEXTS ANSWERS");
        process::exit(2);
    };
    silence_panics();
    let mut texts = BufReader::new(File::open(texts)?);
    let mut answers = BufReader::new(File::open(answers)?);
    let (mut text, mut ours) = (Vec::new(), Vec::new());
    let mut counts = Counts::default();
    loop {
        let (more, answered) = (read_line(&mut texts, &mut text)?, read_line(&mut answers, &mut ours)?);
        if more != answered {
            println!(
                "{}",
                if more {
                    "answers are missing"
                } else {
                    "there are more answers than texts"
                }
            );
            process::exit(1);
        }
        if !more {
            break;
        }
        compare(&text, &ours, &mut counts);
    }
    let Counts {
        records,
        refused,
        panics,
        too_long,
        zero_offsets,
        different,
    } = counts;
    println!(
        "{} texts: {records} records ({zero_offsets} with an offset of 0), {refused} refused by both, {panics} where the Rust panics, {too_long} over {LIMIT} bytes; {different} differences",
        records + refused + panics + too_long
    );
    process::exit((different > 0).into());
}

/// False at the end of the file.
fn read_line(file: &mut impl BufRead, line: &mut Vec<u8>) -> Result<bool> {
    line.clear();
    let read = file.read_until(b'\n', line)?;
    if line.last() == Some(&b'\n') {
        line.pop();
    }
    Ok(read > 0)
}

fn compare(text: &[u8], ours: &[u8], counts: &mut Counts) {
    let reading = read(text);
    let theirs = line(&reading);
    let (count, verdict) = if text.len() > LIMIT {
        (&mut counts.too_long, same_if(ours == b"! 1 0"))
    } else {
        match &reading {
            Reading::Panic => (
                &mut counts.panics,
                same_if(ours == b"! 2 0" || does_not_fit(text, ours)),
            ),
            Reading::Refused | Reading::NotUtf8 => (&mut counts.refused, same_if(ours == b"! 2 0")),
            Reading::Variant(variant) => (&mut counts.records, compare_record(text, ours, variant, &theirs)),
        }
    };
    *count += 1;
    match verdict {
        Verdict::Same => {}
        Verdict::SameButZeroOffset => counts.zero_offsets += 1,
        Verdict::Different => {
            counts.different += 1;
            if counts.different <= SHOWN {
                println!(
                    "{}\n  ours  {}\n  Rust  {theirs}",
                    text.escape_ascii(),
                    ours.escape_ascii()
                );
            }
        }
    }
}

fn same_if(same: bool) -> Verdict {
    if same {
        Verdict::Same
    } else {
        Verdict::Different
    }
}

/// Of a text that the Rust reads: the record; a shortest text that the Rust reads as that record; the text without the
/// reference; and the width.
fn compare_record(text: &[u8], ours: &[u8], variant: &HgvsVariant, theirs: &str) -> Verdict {
    let Some((record, display)) = theirs.split_once('\t') else {
        return Verdict::Different;
    };
    let columns: Vec<_> = ours.split(|&byte| byte == b'\t').collect();
    let [our_record, shortest, without_reference, our_width] = columns[..] else {
        return Verdict::Different;
    };
    if our_record != record.as_bytes() || shortest.len() > text.len() || record_of(&answer(shortest)) != Some(record) {
        return Verdict::Different;
    }
    let their_width = width(variant).map_or("! 7".to_owned(), |width| width.to_string());
    if our_width != their_width.as_bytes() {
        return Verdict::Different;
    }
    if record.starts_with('p') {
        // The Rust's display is not at hand.
        return same_if(without_reference == shortest);
    }
    if without_reference == display.as_bytes() {
        return Verdict::Same;
    }
    // An offset alone has a plus.
    match std::str::from_utf8(without_reference) {
        Ok(text) if text.replace("+0", "0") == display => Verdict::SameButZeroOffset,
        _ => Verdict::Different,
    }
}

fn record_of(answer: &str) -> Option<&str> {
    answer.split_once('\t').map(|(record, _)| record)
}

/// `! 3 ` and the index of the first digit of a number that is over 2,147,483,647.
fn does_not_fit(text: &[u8], ours: &[u8]) -> bool {
    let place = ours
        .strip_prefix(b"! 3 ")
        .and_then(|place| std::str::from_utf8(place).ok());
    let Some(place) = place.and_then(|place| place.parse::<usize>().ok()) else {
        return false;
    };
    let is_digit = |byte: &&u8| byte.is_ascii_digit();
    if place == 0 || place >= text.len() || is_digit(&&text[place - 1]) {
        return false;
    }
    let value = text[place..]
        .iter()
        .take_while(is_digit)
        .fold(0u64, |value, digit| (value * 10 + u64::from(digit - b'0')).min(1 << 32));
    value > 2_147_483_647
}
