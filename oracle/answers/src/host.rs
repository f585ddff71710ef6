//! The original detector as a host would lend it: the detector's calls of a script, and after each the answer and every field. Means are kept by document 02's
//! rule (amended.rs).

use crate::amended::Means;
use crate::bad_means;
use crate::generate::{detectors, every_setting, lent_detectors, wide_samples, Dice};
use vs_anomaly::{look, EwmaDetector};

/// A call's letter and its nine numbers, 0 where it has fewer. The letter p places the nine fields of a detector: a host may lend any.
#[derive(Clone, Copy)]
pub struct Call(pub char, pub [u32; 9]);

/// Kind or refusal, score and flag, 0 where there is none; then the nine fields of the detector. Floats are bits, all NaNs as one.
pub type Step = ([u32; 3], [u32; 9]);

/// The bits of a float, those of one NaN for all.
pub fn bits(x: f32) -> u32 {
    if x.is_nan() {
        0x7FC0_0000
    } else {
        x.to_bits()
    }
}

/// The detector's calls of a script; a sample in place is a sample.
pub fn calls(script: &str) -> Vec<Call> {
    let mut found = Vec::new();
    for line in script.lines() {
        let mut words = line.split(' ');
        let letter = match words.next().unwrap_or("") {
            "t" => "u",
            other => other,
        };
        if ["a", "o", "u", "z", "c", "p"].contains(&letter) {
            let mut numbers = [0; 9];
            for (n, word) in numbers.iter_mut().zip(words) {
                *n = u32::from_str_radix(word, 16).expect("a hexadecimal number");
            }
            found.push(Call(letter.chars().next().expect("a letter"), numbers));
        }
    }
    found
}

/// A long script, the same in every run.
pub fn generated() -> String {
    let mut script = String::new();
    every_setting(&mut script, 1);
    detectors(&mut script, &mut Dice::new(1), 200_000);
    script.extend(bad_means::detectors());
    wide_samples(&mut script, &mut Dice::new(2), 50_000);
    lent_detectors(&mut script, &mut Dice::new(3), 20_000);
    script
}

/// The original, which has no detector after a refusal: calls on it are then left out. And the means that were kept.
#[derive(Default)]
pub struct Original {
    detector: Option<EwmaDetector>,
    pub means: Means,
}

impl Original {
    fn fields(&self) -> [u32; 9] {
        let mut all = [0; 9];
        if let Some(d) = &self.detector {
            for (to, x) in all.iter_mut().zip(look::floats(d)) {
                *to = bits(x);
            }
            all[4..].copy_from_slice(&look::numbers(d));
        }
        all
    }

    fn made(&mut self, d: Option<EwmaDetector>) -> [u32; 3] {
        self.detector = d;
        [if d.is_some() { 0 } else { 7 }, 0, 0]
    }

    /// The Rust answers a score or none; which of document 01's four cases it was follows from the detector before.
    fn update(d: &mut EwmaDetector, means: &mut Means, value: f32) -> [u32; 3] {
        let [count, _, _, _, warmup] = look::numbers(d);
        let kind = match count {
            _ if !value.is_finite() => 0,
            0 => 1,
            n if n < warmup => 2,
            _ => 3,
        };
        match means.update(d, value) {
            Some(s) => [kind, bits(s.z_score), s.is_anomalous as u32],
            None => [kind, 0, 0],
        }
    }

    /// The answer to a call, and the fields after it.
    pub fn step(&mut self, Call(letter, numbers): Call) -> Option<Step> {
        let [a, b, c, d, rest @ ..] = numbers;
        let [x, y, z, w] = [a, b, c, d].map(f32::from_bits);
        let answer = match (letter, &mut self.detector) {
            ('a', _) => self.made(EwmaDetector::new(x, y)),
            ('o', _) => self.made(EwmaDetector::with_options(x, y, c, d)),
            ('p', _) => self.made(Some(look::detector_of([x, y, z, w], rest))),
            (_, None) => return None,
            ('u', Some(kept)) => Original::update(kept, &mut self.means, x),
            ('z', Some(kept)) => [if kept.set_freeze_duration(a).is_ok() { 0 } else { 8 }, 0, 0],
            (_, Some(kept)) => {
                kept.recalibrate(x);
                [0; 3]
            }
        };
        Some((answer, self.fields()))
    }
}
