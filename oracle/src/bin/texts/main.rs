//! Writes texts to compare readers by, one on each line; none holds a line feed.

mod alphabets;
mod damage;
mod dice;
mod grammar;
mod lengths;

use std::io::{stdout, BufWriter, Result, Write};
use std::process::exit;
use std::time::{SystemTime, UNIX_EPOCH};

use dice::Dice;

const USAGE: &str = "usage: texts random SEED COUNT          SEED a number, or `any` for the time
       texts exhaustive KIND LENGTH [START]   every text of at most LENGTH tokens behind AB_12.3:KIND.START
       texts headers LENGTH            every text of at most LENGTH tokens of a header
       texts bytes                     every byte at each place where an alphabet decides
       texts lengths                   4,095 to 4,097 bytes";

fn main() -> Result<()> {
    let arguments: Vec<String> = std::env::args().skip(1).collect();
    let arguments: Vec<&str> = arguments.iter().map(String::as_str).collect();
    let output = &mut BufWriter::new(stdout().lock());
    match arguments[..] {
        ["random", seed, count] => random(output, seed_of(seed), parsed(count))?,
        ["exhaustive", kind, length] => exhaustive(output, kind, parsed(length), "")?,
        ["exhaustive", kind, length, start] => exhaustive(output, kind, parsed(length), start)?,
        ["headers", length] => every(output, String::new(), alphabets::HEADER, parsed(length))?,
        ["bytes"] => every_byte(output)?,
        ["lengths"] => around_the_limit(output)?,
        _ => refuse(),
    }
    output.flush()
}

fn refuse() -> ! {
    eprintln!("{USAGE}");
    exit(2)
}

fn parsed(argument: &str) -> usize {
    argument.parse().unwrap_or_else(|_| refuse())
}

fn seed_of(argument: &str) -> u64 {
    match argument {
        "any" => SystemTime::now()
            .duration_since(UNIX_EPOCH)
            .map_or(0, |time| time.as_nanos() as u64),
        _ => argument.parse().unwrap_or_else(|_| refuse()),
    }
}

fn write_line(output: &mut impl Write, text: &[u8]) -> Result<()> {
    output.write_all(text)?;
    output.write_all(b"\n")
}

fn random(output: &mut impl Write, seed: u64, count: usize) -> Result<()> {
    eprintln!("seed {seed}");
    let dice = &mut Dice::new(seed);
    for _ in 0..count {
        let mut text = random_text(dice);
        text.retain(|byte| *byte != b'\n');
        write_line(output, &text)?;
    }
    Ok(())
}

fn random_text(dice: &mut Dice) -> Vec<u8> {
    match dice.below(4000) {
        0 => lengths::text(dice.below(lengths::FORMS), 4095 + dice.below(3)).into_bytes(),
        1..=1999 => grammar::text(dice).into_bytes(),
        2000..=3199 => damage::damaged_copy(dice),
        3200..=3599 => damage::tokens(dice),
        3600..=3799 => damage::characters(dice),
        _ => damage::bytes(dice),
    }
}

fn exhaustive(output: &mut impl Write, kind: &str, length: usize, start: &str) -> Result<()> {
    if !alphabets::KINDS.contains(&kind) {
        refuse();
    }
    every(output, format!("AB_12.3:{kind}.{start}"), alphabets::body(kind), length)
}

fn every(output: &mut impl Write, text: String, tokens: &[&str], length: usize) -> Result<()> {
    write_line(output, text.as_bytes())?;
    if length == 0 {
        return Ok(());
    }
    tokens
        .iter()
        .try_for_each(|token| every(output, format!("{text}{token}"), tokens, length - 1))
}

fn every_byte(output: &mut impl Write) -> Result<()> {
    const PLACES: &[(&str, &str)] = &[
        ("", "B_12.3:c.1="),
        ("A", "_12.3:c.1="),
        ("AB_12.", ":c.1="),
        ("AB_12.3:", ".1="),
        ("AB_12.3:c.1", "="),
        ("AB_12.3:p.", "2="),
    ];
    for (before, behind) in PLACES {
        for byte in (0..=255).filter(|byte| *byte != b'\n') {
            write_line(output, &[before.as_bytes(), &[byte], behind.as_bytes()].concat())?;
        }
    }
    Ok(())
}

fn around_the_limit(output: &mut impl Write) -> Result<()> {
    for form in 0..lengths::FORMS {
        for length in lengths::LENGTHS {
            write_line(output, lengths::text(form, length).as_bytes())?;
        }
    }
    Ok(())
}
