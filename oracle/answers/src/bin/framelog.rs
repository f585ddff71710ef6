//! The log program of document 01 over the unchanged Rust, with the means that document 02 keeps: standard input to standard output. With `--rust` it is the Rust
//! alone, whose means can go bad, and nothing is done for them: that is what speed is measured beside.

use answers::amended::Means;
use std::io::{BufReader, BufWriter};

fn main() {
    let alone = std::env::args().any(|a| a == "--rust");
    let input = BufReader::with_capacity(65536, std::io::stdin().lock());
    let out = BufWriter::with_capacity(65536, std::io::stdout().lock());
    answers::framelog::run(input, out, if alone { Means::alone() } else { Means::default() });
}
