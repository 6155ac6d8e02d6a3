//! Reading, and reading plus writing, by Saltwhistle and by the Rust crate on the same texts.

use std::hint::black_box;
use std::process::ExitCode;
use std::time::{Duration, Instant};

use bench::{ours, rust, texts};

const ROUNDS: usize = 60;
const ROUND: Duration = Duration::from_millis(15);

/// Nanoseconds for all the texts once: the best of several rounds.
fn time(texts: &[String], mut work: impl FnMut(&str) -> bool) -> f64 {
    let mut best = f64::INFINITY;
    for _ in 0..ROUNDS {
        let start = Instant::now();
        let mut turns = 0u32;
        while start.elapsed() < ROUND {
            for text in texts {
                black_box(work(black_box(text)));
            }
            turns += 1;
        }
        best = best.min(start.elapsed().as_nanos() as f64 / f64::from(turns));
    }
    best
}

struct Bar {
    met: bool,
}

impl Bar {
    fn least(&mut self, what: &str, value: f64, least: f64) {
        let met = value >= least;
        self.met &= met;
        println!("    {what}: {value:.1}, at least {least} asked: {}", if met { "met" } else { "NOT MET" });
    }

    fn most(&mut self, what: &str, value: f64, most: f64) {
        let met = value <= most;
        self.met &= met;
        println!("    {what}: {value:.2}, at most {most} asked: {}", if met { "met" } else { "NOT MET" });
    }
}

fn main() -> ExitCode {
    let mut bar = Bar { met: true };
    let mut output = vec![0u8; 8192];
    for class in texts::classes() {
        let count = class.texts.len() as f64;
        let least = if class.name == "typical lines" { 5.0 } else { 1.0 };
        let pairs = [
            ("reading", time(&class.texts, ours::read), time(&class.texts, rust::read)),
            (
                "reading and writing",
                time(&class.texts, |t| ours::rewrite(t, &mut output)),
                time(&class.texts, |t| rust::rewrite(t, &mut output)),
            ),
        ];
        println!("{}", class.name);
        for (what, a, b) in pairs {
            println!("  {what}: ours {:.0} ns a text, the Rust {:.0} ns", a / count, b / count);
            bar.least("times as fast", b / a, least);
        }
    }

    let (short, long) = texts::short_and_long();
    let byte = |texts: &[String], ns: f64| ns / texts.iter().map(String::len).sum::<usize>() as f64;
    println!("a byte of 4,096 against a byte of 40");
    bar.most("reading", byte(&long, time(&long, ours::read)) / byte(&short, time(&short, ours::read)), 1.5);
    bar.most(
        "reading and writing",
        byte(&long, time(&long, |t| ours::rewrite(t, &mut output)))
            / byte(&short, time(&short, |t| ours::rewrite(t, &mut output))),
        1.5,
    );

    if bar.met {
        ExitCode::SUCCESS
    } else {
        ExitCode::FAILURE
    }
}
