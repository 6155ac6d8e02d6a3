//! Prints a file of typical lines of about this many bytes: lines BYTES.

use std::io::{self, BufWriter, Write};

use bench::texts;

fn main() -> io::Result<()> {
    let bytes: usize = std::env::args().nth(1).and_then(|n| n.parse().ok()).expect("usage: lines BYTES");
    let typical = texts::classes().swap_remove(0).texts;
    let mut output = BufWriter::new(io::stdout().lock());
    let mut written = 0;
    for text in typical.iter().cycle() {
        if written >= bytes {
            break;
        }
        writeln!(output, "{text}")?;
        written += text.len() + 1;
    }
    output.flush()
}
