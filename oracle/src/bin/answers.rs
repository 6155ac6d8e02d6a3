//! Writes the Rust's answer to each line of the input, one line each.

use std::io::{stdin, stdout, BufRead, BufWriter, Result, Write};

use oracle::answer::{answer, silence_panics};

fn main() -> Result<()> {
    silence_panics();
    let mut input = stdin().lock();
    let mut output = BufWriter::new(stdout().lock());
    let mut line = Vec::new();
    while input.read_until(b'\n', &mut line)? > 0 {
        let text = line.strip_suffix(b"\n").unwrap_or(&line);
        writeln!(output, "{}", answer(text))?;
        line.clear();
    }
    output.flush()
}
