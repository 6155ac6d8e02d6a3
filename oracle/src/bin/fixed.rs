//! Parts the texts of the input, each taken once, into FOLDER: texts and answers, line by line, and panics.

use std::collections::HashSet;
use std::io::{stdin, BufRead, Result};
use std::path::PathBuf;
use std::{env, fs, process};

use oracle::answer::{answer, silence_panics};

fn main() -> Result<()> {
    let Some(folder) = env::args_os().nth(1).map(PathBuf::from) else {
        eprintln!("usage: fixed FOLDER <TEXTS");
        process::exit(2);
    };
    silence_panics();
    let mut seen = HashSet::new();
    let (mut texts, mut answers, mut panics) = (Vec::new(), Vec::new(), Vec::new());
    for text in stdin().lock().split(b'\n') {
        let text = text?;
        if !seen.insert(text.clone()) {
            continue;
        }
        match answer(&text).as_str() {
            "PANIC" => add_line(&mut panics, &text),
            answer => {
                add_line(&mut texts, &text);
                add_line(&mut answers, answer.as_bytes());
            }
        }
    }
    fs::create_dir_all(&folder)?;
    fs::write(folder.join("texts"), texts)?;
    fs::write(folder.join("answers"), answers)?;
    fs::write(folder.join("panics"), panics)
}

fn add_line(lines: &mut Vec<u8>, line: &[u8]) {
    lines.extend_from_slice(line);
    lines.push(b'\n');
}
