//! Prints the steps that hosts/test.c reads, from the original Rust with the means that document 02 keeps: those of a script, or without one those of a generated
//! script. With `--means` first it prints how many means were kept, and no steps.

use answers::host::{calls, generated, Original};
use std::io::{BufWriter, Write};

fn main() {
    let mut words: Vec<String> = std::env::args().skip(1).collect();
    let means_alone = words.first().is_some_and(|word| word == "--means");
    let script = match words.drain(means_alone as usize..).next() {
        Some(path) => std::fs::read_to_string(&path).unwrap_or_else(|e| panic!("{path}: {e}")),
        None => generated(),
    };
    let mut original = Original::default();
    let mut out = BufWriter::new(std::io::stdout().lock());
    for call in calls(&script) {
        let Some((answer, fields)) = original.step(call) else { continue };
        if !means_alone {
            let numbers: Vec<String> = call.1.iter().chain(&answer).chain(&fields).map(|n| format!("{n:X}")).collect();
            writeln!(out, "{} {}", call.0, numbers.join(" ")).expect("written");
        }
    }
    if means_alone {
        writeln!(out, "{}", original.means.kept).expect("written");
    }
}
