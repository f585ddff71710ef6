//! Answers a script of calls on standard input: the unchanged Rust, with the plain model's number where extraction has none or a model of bytes refuses, with the
//! means that document 02 keeps, and on lines of their own (`w`, `v`, `p`, `l`) the model. With `--rust` those lines are left out, and means can go bad.

use answers::Both;
use std::io::{BufRead, BufWriter, Write};

fn main() {
    let alone = std::env::args().any(|a| a == "--rust");
    let mut both = if alone { Both::alone() } else { Both::default() };
    let mut out = BufWriter::new(std::io::stdout().lock());
    let mut text = String::new();
    for line in std::io::stdin().lock().lines() {
        text.clear();
        both.answer(&line.expect("a line"), &mut text);
        out.write_all(text.as_bytes()).expect("written");
    }
}
