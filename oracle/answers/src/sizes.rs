//! The unchanged Rust's models of bytes. Their size is a part of their type: here each of the sizes has its entry in a table, and all of them one face.

use vs_anomaly::{look, HistogramDetector, MarkovDetector};

/// What a histogram has beside its counts.
#[derive(Clone, Copy, Debug, PartialEq)]
pub struct Kept {
    pub total: u64,
    pub seen: [u64; 4],
    pub saturated: bool,
}

/// A histogram of any size.
pub trait Histogram {
    fn observe(&mut self, value: u8);
    fn probability(&self, value: u8) -> f32;
    fn is_anomalous(&self, value: u8, threshold: f32) -> bool;
    fn reset(&mut self);
    fn saturated(&self) -> bool;
    /// Every field.
    fn fields(&self) -> (&[u64], Kept);
}

impl<const BINS: usize> Histogram for HistogramDetector<BINS> {
    fn observe(&mut self, value: u8) {
        HistogramDetector::observe(self, value)
    }

    fn probability(&self, value: u8) -> f32 {
        HistogramDetector::probability(self, value)
    }

    fn is_anomalous(&self, value: u8, threshold: f32) -> bool {
        HistogramDetector::is_anomalous(self, value, threshold)
    }

    fn reset(&mut self) {
        HistogramDetector::reset(self)
    }

    fn saturated(&self) -> bool {
        HistogramDetector::saturated(self)
    }

    fn fields(&self) -> (&[u64], Kept) {
        let (counts, total, seen, saturated) = look::histogram(self);
        (counts, Kept { total, seen, saturated })
    }
}

/// A Markov model of any size.
pub trait Markov {
    fn observe_transition(&mut self, from: u8, to: u8);
    fn score_transition(&self, from: u8, to: u8) -> f32;
    fn reset(&mut self);
    fn saturated(&self) -> bool;
    /// The transitions row after row, the row totals and the flag.
    fn fields(&self) -> (&[u64], &[u64], bool);
}

impl<const N: usize> Markov for MarkovDetector<N> {
    fn observe_transition(&mut self, from: u8, to: u8) {
        MarkovDetector::observe_transition(self, from, to)
    }

    fn score_transition(&self, from: u8, to: u8) -> f32 {
        MarkovDetector::score_transition(self, from, to)
    }

    fn reset(&mut self) {
        MarkovDetector::reset(self)
    }

    fn saturated(&self) -> bool {
        MarkovDetector::saturated(self)
    }

    fn fields(&self) -> (&[u64], &[u64], bool) {
        look::markov(self)
    }
}

fn new_histogram<const BINS: usize>() -> Box<dyn Histogram> {
    Box::new(HistogramDetector::<BINS>::new())
}

fn placed_histogram<const BINS: usize>(counts: &[u64], k: Kept) -> Box<dyn Histogram> {
    let counts: [u64; BINS] = counts.try_into().expect("as many counts as bins");
    Box::new(look::histogram_of(counts, k.total, k.seen, k.saturated))
}

fn new_markov<const N: usize>() -> Box<dyn Markov> {
    Box::new(MarkovDetector::<N>::new())
}

fn placed_markov<const N: usize>(transition: &[u64], row_totals: &[u64], saturated: bool) -> Box<dyn Markov> {
    let mut rows = [[0; N]; N];
    rows.as_flattened_mut().copy_from_slice(transition);
    Box::new(look::markov_of(rows, row_totals.try_into().expect("as many row totals as states"), saturated))
}

/// Sixteen sizes, from 16 times a number and one on.
macro_rules! sixteen {
    ($f:ident, $row:literal: $($place:literal)*) => {
        [$($f::<{ 16 * $row + $place + 1 }>),*]
    };
}

/// A function at every size of so many rows of sixteen.
macro_rules! every {
    ($f:ident: $($row:literal)*) => {
        [$(sixteen!($f, $row: 0 1 2 3 4 5 6 7 8 9 10 11 12 13 14 15)),*]
    };
}

type Sizes<F, const ROWS: usize> = [[F; 16]; ROWS];

const NEW_HISTOGRAM: Sizes<fn() -> Box<dyn Histogram>, 16> = every!(new_histogram: 0 1 2 3 4 5 6 7 8 9 10 11 12 13 14 15);
const PLACED_HISTOGRAM: Sizes<fn(&[u64], Kept) -> Box<dyn Histogram>, 16> = every!(placed_histogram: 0 1 2 3 4 5 6 7 8 9 10 11 12 13 14 15);
const NEW_MARKOV: Sizes<fn() -> Box<dyn Markov>, 4> = every!(new_markov: 0 1 2 3);
const PLACED_MARKOV: Sizes<fn(&[u64], &[u64], bool) -> Box<dyn Markov>, 4> = every!(placed_markov: 0 1 2 3);

/// A fresh histogram of 1 to 256 bins.
pub fn histogram(bins: usize) -> Box<dyn Histogram> {
    NEW_HISTOGRAM.as_flattened()[bins - 1]()
}

/// A histogram with as many bins as there are counts, 1 to 256.
pub fn histogram_of(counts: &[u64], k: Kept) -> Box<dyn Histogram> {
    PLACED_HISTOGRAM.as_flattened()[counts.len() - 1](counts, k)
}

/// A fresh Markov model of 1 to 64 states.
pub fn markov(states: usize) -> Box<dyn Markov> {
    NEW_MARKOV.as_flattened()[states - 1]()
}

/// A Markov model with as many states as there are row totals, 1 to 64.
pub fn markov_of(transition: &[u64], row_totals: &[u64], saturated: bool) -> Box<dyn Markov> {
    PLACED_MARKOV.as_flattened()[row_totals.len() - 1](transition, row_totals, saturated)
}
