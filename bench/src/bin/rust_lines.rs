//! A line program over the Rust crate: each line read and written, or `! 2 0`.

use std::io::{self, BufRead, BufWriter, Write};

use bench::rust;

fn main() -> io::Result<()> {
    let mut input = io::BufReader::with_capacity(1 << 16, io::stdin().lock());
    let mut output = BufWriter::with_capacity(1 << 16, io::stdout().lock());
    let mut line = String::new();
    let mut text = [0u8; 8192];
    while input.read_line(&mut line)? > 0 {
        let shown = line.trim_end_matches('\n');
        text.fill(0);
        if rust::rewrite(shown, &mut text) {
            let end = text.iter().position(|b| *b == 0).unwrap_or(text.len());
            output.write_all(&text[..end])?;
        } else {
            output.write_all(b"! 2 0")?;
        }
        output.write_all(b"\n")?;
        line.clear();
    }
    output.flush()
}
