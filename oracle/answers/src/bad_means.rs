//! Cases in which a mean goes bad in the Rust, and stays by document 02, T-06: each of them has one such mean at least.

use crate::bytes;
use crate::generate::{push_definition, push_full_frame};
use std::fmt::Write;

const ONE: u32 = 0x3F80_0000;
const HALF: u32 = 0x3F00_0000;
const THREE: u32 = 0x4040_0000;
/// The largest f32.
const MAX: u32 = 0x7F7F_FFFF;
/// 1.5 * 2^104: from here to the largest f32 the difference is finite, and the sum with alpha 1 is not.
const NEAR: u32 = 0x73C0_0000;
/// Its square is a little below the largest f32: as a first difference it makes a variance that stands, since those of larger differences are not finite.
const ROOT: u32 = 0x5F7F_FFFF;

/// The smallest input on which the Rust's mean goes bad, and one sample more, by which it becomes a NaN there: the mean is told after each.
pub const SMALLEST: &str = "a 3F800000 40400000\nu FF7FFFFF\nu 7F7FFFFF\nk\nu 0\nk\n";

/// A detector made by the call, samples of which one makes the mean bad, and then many that are ordinary, with calls between them. All samples have the sign, and
/// come by the letter, or by both in turn.
fn samples(made: &str, letters: [&str; 2], sign: u32, first: &[u32]) -> String {
    let mut out = format!("{made}\n");
    let ordinary = [0, ONE, 0x4120_0000, 0xC2C8_0000, 0, 0, ONE, MAX, MAX ^ 1 << 31, 0x41A0_0000, 0, 0];
    for (i, x) in first.iter().chain(&ordinary).enumerate() {
        let _ = writeln!(out, "{} {:X}", letters[i % 2], x ^ sign);
    }
    let _ = writeln!(out, "k\nz 3\n{0} {1:X}\nc 41200000\n{0} 41200000\n{0} 41280000\nc {2:X}\n{0} {1:X}\n{0} 41200000\nk", letters[0], MAX ^ sign, MAX ^ sign ^ 1 << 31);
    out
}

/// Samples by either call: one end of f32 and then the other in warm-up, up to its last place; document 02's own numbers in warm-up; and those past it, where the
/// variance is so large that the sample is not anomalous.
pub fn detectors() -> Vec<String> {
    let mut cases = Vec::new();
    for (sign, letters) in [(0, ["u", "u"]), (1 << 31, ["t", "t"]), (1 << 31, ["u", "t"]), (0, ["t", "u"])] {
        for alpha in [ONE, HALF, 0x3DCC_CCCD, 1] {
            cases.push(samples(&format!("a {alpha:X} {THREE:X}"), letters, sign, &[MAX ^ 1 << 31, MAX]));
            for (warmup, threshold) in [(2, THREE), (2, MAX), (3, THREE), (3, MAX), (5, MAX), (u32::MAX, 0)] {
                cases.push(samples(&format!("o {alpha:X} {threshold:X} 2 {warmup:X}"), letters, sign, &[MAX ^ 1 << 31, MAX]));
            }
        }
        for (warmup, threshold) in [(2, THREE), (3, MAX), (5, 0)] {
            cases.push(samples(&format!("o {ONE:X} {threshold:X} A {warmup:X}"), letters, sign, &[NEAR, MAX]));
        }
        for (warmup, first) in [(0, &[0, ROOT, NEAR, MAX, MAX][..]), (1, &[0, ROOT, NEAR, MAX]), (3, &[0, ROOT, NEAR, MAX]), (5, &[0, 0, 0, ROOT, NEAR, MAX, MAX, NEAR, MAX])] {
            cases.push(samples(&format!("o {ONE:X} {MAX:X} 1 {warmup:X}"), letters, sign, first));
        }
        cases.push(samples(&format!("a {ONE:X} {MAX:X}"), letters, sign, &[0, 0, 0, ROOT, NEAR, MAX, MAX]));
    }
    cases
}

/// A table of definitions of one key, and the payloads of its frames: eight bytes, or 64 of FD frames.
struct Table {
    settings: (u32, u32),
    /// Start, length, sign and scale.
    signals: Vec<(u64, u64, u64, u32)>,
    payloads: Vec<Vec<u8>>,
}

/// The payloads of whole numbers.
fn eights(numbers: &[u64]) -> Vec<Vec<u8>> {
    numbers.iter().map(|n| n.to_le_bytes().to_vec()).collect()
}

/// From one end of f32 to the other in warm-up, twice. The sixth sample is flagged, since the count has risen; then there is a quiet time, and one more is flagged.
const ENDS: [u64; 18] = [0x81, 0x7F, 0x81, 0x81, 0x7F, 0, 0x81, 0x81, 0x81, 0x81, 0x81, 0x81, 0x81, 0x81, 0x81, 0x81, 0x7F, 0x81];

/// One signal: ends of f32, document 02's own numbers in warm-up, and those past it.
fn single() -> Vec<Table> {
    let mut tables = Vec::new();
    for (alpha, scale) in [(ONE, 0x7C00_0000), (HALF, 0xFC00_0000), (0x3DCC_CCCD, 0x7C00_0000)] {
        tables.push(Table { settings: (alpha, THREE), signals: vec![(0, 8, 1, scale)], payloads: eights(&ENDS) });
    }
    for scale in [0x7300_0000, 0xF300_0000] {
        let numbers = [3, 0x1FF_FFFE, 3, 3, 0x1FF_FFFE, 4, 3, 3, 3, 3, 3, 3];
        tables.push(Table { settings: (ONE, THREE), signals: vec![(0, 26, 1, scale)], payloads: eights(&numbers) });
    }
    for scale in [ROOT, ROOT | 1 << 31] {
        let near = 0x180_0002_0000;
        let numbers = [0, 0, 0, 1, near, u64::MAX, u64::MAX, near, u64::MAX, near, near, 1, 0, 1, 0, 0];
        tables.push(Table { settings: (ONE, MAX), signals: vec![(0, 64, 0, scale)], payloads: eights(&numbers) });
    }
    tables
}

/// Several signals in one frame: one of them goes bad between others that don't, two do, and the third of eight in an FD frame does past warm-up.
fn several() -> Vec<Table> {
    let others = |k: u64, x: u64| x | (10 + k % 3) << 8 | (20 + k % 2) << 16 | (1000 + k) << 24 | 0x7F << 40;
    let numbers: Vec<u64> = ENDS.iter().zip(0..).map(|(x, k)| others(k, *x)).collect();
    let calm = [(8, 8, 0, ONE), (16, 8, 1, HALF), (40, 8, 1, 0x7C00_0000)];
    let one = [&calm[..1], &[(0, 8, 1, 0x7C00_0000)], &calm[1..], &[(24, 16, 0, HALF)]].concat();
    let two = [&calm[..], &[(0, 8, 1, 0x7C00_0000), (0, 8, 1, 0xFC00_0000)]].concat();
    let wide = (0..8).map(|k| (64 * k, 64, 0, ROOT)).collect();
    let near = 0x180_0002_0000;
    let far = [0, 0, 0, 1, near, u64::MAX, near, 0, 1, 1].map(|x: u64| [1, near, x, 0, near, 2, 3, u64::MAX].map(u64::to_le_bytes).concat());
    vec![
        Table { settings: (ONE, THREE), signals: one, payloads: eights(&numbers) },
        Table { settings: (HALF, THREE), signals: two, payloads: eights(&numbers) },
        Table { settings: (ONE, MAX), signals: wide, payloads: far.to_vec() },
    ]
}

impl Table {
    fn definitions(&self, extended: u64) -> impl Iterator<Item = String> + '_ {
        self.signals.iter().map(move |(start, length, signed, scale)| format!("100 {extended} {start:X} {length:X} 0 {scale:X} 0 0 {signed} 0 0"))
    }

    /// The calls, with the frames by the letter; the table is shown after each.
    fn script(&self, letter: &str, extended: u64) -> String {
        let mut out = format!("e {:X} {:X}\n", self.settings.0, self.settings.1);
        for definition in self.definitions(extended) {
            let _ = writeln!(out, "d {definition}");
        }
        for data in &self.payloads {
            let flags = extended + if data.len() > 8 { 4 } else { 0 };
            let head = if letter == "g" { "g 100".to_string() } else { format!("{letter} 100 {flags}") };
            let _ = writeln!(out, "{head} {:X} {}\ns", data.len(), bytes(data));
        }
        out
    }

    /// The log, and how many records it has.
    fn log(&self, extended: u64) -> (Vec<u8>, u64) {
        let mut log = vec![0xA5, 0x50];
        log.extend(self.settings.0.to_le_bytes());
        log.extend(self.settings.1.to_le_bytes());
        for definition in self.definitions(extended) {
            push_definition(&mut log, &definition);
        }
        for data in &self.payloads {
            push_full_frame(&mut log, 0x100, extended, data);
        }
        (log, 1 + (self.signals.len() + self.payloads.len()) as u64)
    }
}

/// Frames by each of the calls for one, of both types where there are two.
pub fn engines() -> Vec<String> {
    let calls = [("f", 0), ("F", 1), ("g", 0), ("f", 1), ("F", 0)];
    calls.into_iter().flat_map(|(letter, extended)| single().into_iter().chain(several()).map(move |t| t.script(letter, extended))).collect()
}

/// The same as logs, each with its number of records.
pub fn logs() -> Vec<(Vec<u8>, u64)> {
    (0..2).flat_map(|extended| single().into_iter().chain(several()).map(move |t| t.log(extended))).collect()
}

/// Both types of one identifier: a mean goes bad in the standard frames, and the extended ones between them stay at one value.
pub fn both_types() -> String {
    let mut out = format!("e {ONE:X} {THREE:X}\nd 100 0 0 8 0 7C000000 0 0 1 0 0\nd 100 1 0 8 0 7C000000 0 0 1 0 0\n");
    for x in ENDS {
        let _ = writeln!(out, "f 100 0 1 {x:02X}\nf 100 1 1 7F");
    }
    out.push_str("s\n");
    out
}
