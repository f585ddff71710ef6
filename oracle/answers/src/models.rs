//! Calls on the two models of bytes. Each goes to the unchanged Rust, at its size, and to a plain model that is written from document 02, T-04, in its own
//! way; where the two differ, the answer is a text that no program prints. The plain model alone answers what the Rust has no counterpart for: the lent counts
//! and refusal 18, and a size that no type of the Rust has.

use crate::sizes::{self, Kept};
use crate::{float, Fields};
use std::fmt::Debug;

/// What a comparison has to have seen.
#[derive(Clone, Copy)]
enum Case {
    Refused,
    Unseen,
    Rare,
    Silenced,
    Full,
}

/// The cases by name.
pub const NAMES: [&str; 5] = ["refused 18", "anomalous because unseen", "anomalous by ratio", "silenced by saturation", "a counter reached 2^64-1"];

/// How many calls of the library there were on models, and how often each case.
#[derive(Clone, Copy, Default)]
pub struct Seen {
    pub calls: u64,
    pub cases: [u64; 5],
}

impl Seen {
    fn note(&mut self, case: Case) {
        self.cases[case as usize] += 1;
    }

    /// Those of another script too.
    pub fn add(&mut self, other: Seen) {
        self.calls += other.calls;
        for (sum, n) in self.cases.iter_mut().zip(other.cases) {
            *sum += n;
        }
    }

    /// The case seen least.
    pub fn least(&self) -> u64 {
        self.cases.into_iter().min().unwrap_or(0)
    }
}

/// The text, where the Rust has what the plain model has.
fn held<T: PartialEq + Debug>(text: String, rust: T, plain: T) -> String {
    if rust == plain {
        return text;
    }
    format!("the Rust has {rust:?} and the model {plain:?}")
}

/// 64 bits as sixteen digits, each number behind a blank.
fn longs(all: impl IntoIterator<Item = u64>) -> String {
    all.into_iter().map(|n| format!(" {n:016X}")).collect()
}

/// A number over all counts of the buffers: a step of a generator of period 2^64-1, and a count, in turns.
fn sum(buffers: &[&[u64]]) -> u64 {
    let mut x = 0u64;
    for n in buffers.concat() {
        x ^= x << 13;
        x ^= x >> 7;
        x ^= x << 17;
        x ^= n;
    }
    x
}

/// Adds one, but at most to 2^64-1, and says whether the number is 2^64-1 now and whether it was before.
fn one_more(n: &mut u64) -> (bool, bool) {
    let was = *n == u64::MAX;
    *n = n.checked_add(1).unwrap_or(u64::MAX);
    (*n == u64::MAX, was)
}

/// The quotient of the f32 nearest to each, and 0 where there is no total. The nearest one is that of the decimal digits. The quotient is rounded to f64 first,
/// which doesn't show: 53 binary digits are more than two times 24 and one.
fn ratio(count: u64, total: u64) -> f32 {
    let nearest = |n: u64| n.to_string().parse::<f32>().expect("a number") as f64;
    if total == 0 {
        return 0.0;
    }
    (nearest(count) / nearest(total)) as f32
}

/// A histogram with the buffer that its counts are lent from.
struct Histogram {
    size: u64,
    total: u64,
    seen: [bool; 256],
    saturated: bool,
    counts: [u64; 300],
}

impl Histogram {
    /// Whether a call is refused that is lent so many counts.
    fn refuses(&self, lent: u64) -> bool {
        self.size == 0 || self.size > 256 || lent.min(300) != self.size
    }

    /// Nothing observed; the counts are another matter.
    fn begin(&mut self, size: u64) {
        (self.size, self.total, self.seen, self.saturated) = (size, 0, [false; 256], false);
    }

    fn own(&self) -> &[u64] {
        &self.counts[..self.size as usize]
    }

    fn clear(&mut self) {
        self.counts[..self.size as usize].fill(0);
    }

    fn kept(&self) -> Kept {
        let mut seen = [0; 4];
        for value in (0..256).filter(|v| self.seen[*v]) {
            seen[value / 64] += 1 << (value % 64);
        }
        Kept { total: self.total, seen, saturated: self.saturated }
    }

    /// One byte; whether a counter became 2^64-1.
    fn observe(&mut self, value: u8) -> bool {
        self.seen[value as usize] = true;
        let (bin, bin_was) = one_more(&mut self.counts[value as usize % self.size as usize]);
        let (total, total_was) = one_more(&mut self.total);
        self.saturated |= bin || total;
        bin && !bin_was || total && !total_was
    }

    fn probability(&self, value: u8) -> f32 {
        ratio(self.own()[value as usize % self.size as usize], self.total)
    }

    /// Whether a byte is anomalous, and what is to be noted of that.
    fn judged(&self, value: u8, threshold: f32) -> (bool, Option<Case>) {
        let reason = match self.total {
            0 => None,
            _ if !self.seen[value as usize] => Some(Case::Unseen),
            _ => Some(Case::Rare).filter(|_| self.probability(value) < threshold),
        };
        match reason {
            Some(_) if self.saturated => (false, Some(Case::Silenced)),
            reason => (reason.is_some(), reason),
        }
    }
}

/// The histogram of a script. `live` is the Rust's, which is made again where something was placed.
struct Histograms {
    plain: Histogram,
    live: Option<Box<dyn sizes::Histogram>>,
}

impl Default for Histograms {
    fn default() -> Self {
        Histograms { plain: Histogram { size: 0, total: 0, seen: [false; 256], saturated: false, counts: [0; 300] }, live: None }
    }
}

impl Histograms {
    /// The plain model, and the Rust's, whose size there has to be.
    fn both(&mut self) -> (&mut Histogram, &mut dyn sizes::Histogram) {
        let plain = &mut self.plain;
        let live = self.live.get_or_insert_with(|| sizes::histogram_of(plain.own(), plain.kept()));
        (plain, live.as_mut())
    }

    /// `N`, `O` and `R`.
    fn changed(&mut self, letter: &str, f: &mut Fields, noted: &mut Seen) -> String {
        if letter == "N" {
            self.plain.begin(f.number());
            self.live = None;
        }
        let refused = self.plain.refuses(f.number());
        if refused {
            noted.note(Case::Refused);
        } else if letter == "N" {
            self.plain.clear();
            self.live = Some(sizes::histogram(self.plain.size as usize));
        } else {
            let (plain, rust) = self.both();
            if letter == "O" {
                let value = f.number() as u8;
                rust.observe(value);
                if plain.observe(value) {
                    noted.note(Case::Full);
                }
            } else {
                rust.reset();
                plain.clear();
                plain.begin(plain.size);
            }
        }
        let k = self.plain.kept();
        let model = longs([self.plain.size, k.total].into_iter().chain(k.seen).chain([k.saturated as u64]));
        let text = format!("{letter} {:X}{model}{}", if refused { 18 } else { 0 }, longs([sum(&[&self.plain.counts])]));
        if refused {
            return text;
        }
        let (plain, rust) = self.both();
        held(text, rust.fields(), (plain.own(), k))
    }

    /// `P` and `J`.
    fn asked(&mut self, letter: &str, f: &mut Fields, noted: &mut Seen) -> String {
        if self.plain.refuses(f.number()) {
            noted.note(Case::Refused);
            return format!("{letter} refused {:X}", 18);
        }
        let value = f.number() as u8;
        let (plain, rust) = self.both();
        if letter == "P" {
            let p = float(plain.probability(value));
            return held(format!("P {p}"), float(rust.probability(value)), p);
        }
        let threshold = f.float();
        let (answer, case) = plain.judged(value, threshold);
        if let Some(case) = case {
            noted.note(case);
        }
        held(format!("J {}", answer as u8), rust.is_anomalous(value, threshold), answer)
    }

    fn answer(&mut self, letter: &str, f: &mut Fields, noted: &mut Seen) -> Option<String> {
        match letter {
            "N" | "O" | "R" => Some(self.changed(letter, f, noted)),
            "P" | "J" => Some(self.asked(letter, f, noted)),
            "S" => {
                let flag = self.plain.saturated;
                let text = format!("S {}", flag as u8);
                if !(1..=256).contains(&self.plain.size) {
                    return Some(text);
                }
                Some(held(text, self.both().1.saturated(), flag))
            }
            "V" => {
                self.plain.begin(f.number());
                self.plain.total = f.number();
                for word in 0..4 {
                    let bits = f.number();
                    for bit in 0..64 {
                        self.plain.seen[64 * word + bit] = bits / (1 << bit) % 2 == 1;
                    }
                }
                self.plain.saturated = f.number() != 0;
                self.live = None;
                None
            }
            "C" => {
                place(&mut self.plain.counts, f);
                self.live = None;
                None
            }
            _ => Some(format!("H{}", longs(first(&self.plain.counts, f)))),
        }
    }
}

/// One count of a buffer becomes a number, where the buffer has that place.
fn place(counts: &mut [u64], f: &mut Fields) {
    let (at, value) = (f.number(), f.number());
    if let Some(count) = counts.get_mut(at as usize) {
        *count = value;
    }
}

/// As many of the first counts as the script asks for.
fn first(counts: &[u64], f: &mut Fields) -> Vec<u64> {
    let n = f.number();
    counts.iter().copied().take(n as usize).collect()
}

/// A Markov model with the buffers that its counts are lent from.
struct Markov {
    size: u64,
    saturated: bool,
    transition: [u64; 4200],
    row_totals: [u64; 100],
}

impl Markov {
    /// Whether a call is refused that is lent so many transitions and row totals.
    fn refuses(&self, lent: u64, rows: u64) -> bool {
        self.size < 1 || self.size > 64 || lent.min(4200) != self.size.pow(2) || rows.min(100) != self.size
    }

    /// The counts that are its own, where its size is one that there is.
    fn own(&self) -> (&[u64], &[u64]) {
        (&self.transition[..self.size.pow(2) as usize], &self.row_totals[..self.size as usize])
    }

    fn clear(&mut self) {
        self.transition[..self.size.pow(2) as usize].fill(0);
        self.row_totals[..self.size as usize].fill(0);
        self.saturated = false;
    }

    /// The places of a transition and of its row.
    fn places(&self, from: u8, to: u8) -> (usize, usize) {
        let (row, column) = (from as u64 % self.size, to as u64 % self.size);
        ((row * self.size + column) as usize, row as usize)
    }

    /// One state followed by another; whether a counter became 2^64-1.
    fn observe(&mut self, from: u8, to: u8) -> bool {
        let (cell, row) = self.places(from, to);
        let (cell, cell_was) = one_more(&mut self.transition[cell]);
        let (row, row_was) = one_more(&mut self.row_totals[row]);
        self.saturated |= cell || row;
        cell && !cell_was || row && !row_was
    }

    fn score(&self, from: u8, to: u8) -> f32 {
        let (cell, row) = self.places(from, to);
        ratio(self.transition[cell], self.row_totals[row])
    }
}

/// The Markov model of a script. `live` is the Rust's, which is made again where something was placed.
struct Markovs {
    plain: Markov,
    live: Option<Box<dyn sizes::Markov>>,
}

impl Default for Markovs {
    fn default() -> Self {
        Markovs { plain: Markov { size: 0, saturated: false, transition: [0; 4200], row_totals: [0; 100] }, live: None }
    }
}

impl Markovs {
    /// The plain model, and the Rust's, whose size there has to be.
    fn both(&mut self) -> (&mut Markov, &mut dyn sizes::Markov) {
        let plain = &mut self.plain;
        let live = self.live.get_or_insert_with(|| sizes::markov_of(plain.own().0, plain.own().1, plain.saturated));
        (plain, live.as_mut())
    }

    /// `A`, `B` and `X`.
    fn changed(&mut self, letter: &str, f: &mut Fields, noted: &mut Seen) -> String {
        if letter == "A" {
            (self.plain.size, self.plain.saturated, self.live) = (f.number(), false, None);
        }
        let refused = self.plain.refuses(f.number(), f.number());
        if refused {
            noted.note(Case::Refused);
        } else if letter == "A" {
            self.plain.clear();
            self.live = Some(sizes::markov(self.plain.size as usize));
        } else {
            let (plain, rust) = self.both();
            if letter == "B" {
                let (from, to) = (f.number() as u8, f.number() as u8);
                rust.observe_transition(from, to);
                if plain.observe(from, to) {
                    noted.note(Case::Full);
                }
            } else {
                rust.reset();
                plain.clear();
            }
        }
        let model = longs([self.plain.size, self.plain.saturated as u64]);
        let text = format!("{letter} {:X}{model}{}", if refused { 18 } else { 0 }, longs([sum(&[&self.plain.transition, &self.plain.row_totals])]));
        if refused {
            return text;
        }
        let (plain, rust) = self.both();
        let (transition, row_totals) = plain.own();
        held(text, rust.fields(), (transition, row_totals, plain.saturated))
    }

    fn answer(&mut self, letter: &str, f: &mut Fields, noted: &mut Seen) -> Option<String> {
        match letter {
            "A" | "B" | "X" => Some(self.changed(letter, f, noted)),
            "Q" => {
                if self.plain.refuses(f.number(), f.number()) {
                    noted.note(Case::Refused);
                    return Some(format!("Q refused {:X}", 18));
                }
                let (from, to) = (f.number() as u8, f.number() as u8);
                let (plain, rust) = self.both();
                let p = float(plain.score(from, to));
                Some(held(format!("Q {p}"), float(rust.score_transition(from, to)), p))
            }
            "Y" => {
                let flag = self.plain.saturated;
                let text = format!("Y {}", flag as u8);
                if !(1..=64).contains(&self.plain.size) {
                    return Some(text);
                }
                Some(held(text, self.both().1.saturated(), flag))
            }
            "W" => {
                (self.plain.size, self.plain.saturated, self.live) = (f.number(), f.number() != 0, None);
                None
            }
            "T" | "U" => {
                place(if letter == "T" { &mut self.plain.transition } else { &mut self.plain.row_totals }, f);
                self.live = None;
                None
            }
            _ => Some(format!("K{}{}", longs(first(&self.plain.transition, f)), longs(first(&self.plain.row_totals, f)))),
        }
    }
}

/// The two models that a script acts on, and what was seen of them.
#[derive(Default)]
pub struct Machine {
    histogram: Histograms,
    markov: Markovs,
    pub seen: Seen,
}

impl Machine {
    /// The answer to a call on a model. One that places something has none.
    pub fn answer(&mut self, letter: &str, f: &mut Fields) -> Option<String> {
        self.seen.calls += matches!(letter, "N" | "O" | "R" | "P" | "J" | "S" | "A" | "B" | "X" | "Q" | "Y") as u64;
        match letter {
            "N" | "O" | "R" | "P" | "J" | "S" | "V" | "C" | "H" => self.histogram.answer(letter, f, &mut self.seen),
            "A" | "B" | "X" | "Q" | "Y" | "W" | "T" | "U" | "K" => self.markov.answer(letter, f, &mut self.seen),
            _ => None,
        }
    }
}
