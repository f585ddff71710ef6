//! The answers of the unchanged Rust, with the model's number for each `None` of extraction, and with document 02's rule for a mean that is not finite laid over
//! its steps (amended.rs). What the Rust has no counterpart for is left out.

use crate::amended::Means;
use crate::{definition, detector, float, host, model, refusal, Fields};
use vs_anomaly::{look as inner, EwmaDetector};
use vs_can_monitor::CanFrame;
use vs_signal_ids::{look, SignalDefinition, SignalIdsEngine, SignalIdsResult};

fn listed(letter: &str, r: &SignalIdsResult) -> String {
    let mut text = format!("{letter} {:02X}", r.anomaly_count);
    for a in &r.anomalies {
        text += &format!(" {:08X} {} {}", a.signal_index, float(a.z_score), float(a.physical_value));
    }
    text
}

/// What a table call answered: case 0 is a slot, 1 success, 2 a refusal; and its number, 0 where it has none.
fn told(letter: &str, answer: Result<Option<usize>, vs_types::VsError>) -> String {
    let (case, number) = match answer {
        Ok(Some(slot)) => (0, slot),
        Ok(None) => (1, 0),
        Err(e) => (2, refusal(e) as usize),
    };
    format!("{letter} {case:08X} {number:08X}")
}

/// A frame's header, with zeros for data.
fn header(f: &mut Fields) -> CanFrame {
    let (id, flags, length) = (f.number() as u32, f.number(), f.number() as u8);
    CanFrame { id, is_extended: flags & 1 != 0, is_remote: flags & 2 != 0, is_fd: flags & 4 != 0, length, data: [0; 64] }
}

/// A frame with the bytes as its data, as many as it has room for.
fn filled(mut frame: CanFrame, bytes: &[u8]) -> CanFrame {
    for (to, byte) in frame.data.iter_mut().zip(bytes) {
        *to = *byte;
    }
    frame
}

/// Every field of a row's detector, as numbers.
fn numbers(e: &SignalIdsEngine, i: usize) -> ([u32; 4], [u32; 5]) {
    let (_, _, d) = look::row(e, i);
    (inner::floats(&d).map(host::bits), inner::numbers(&d))
}

/// A lent frame as an FD frame's record of the bytes that count, which are at most 64. A standard one also goes, on a copy of the engine, to the Rust's call for
/// raw frames, which takes lent bytes as they are: the answer and the detectors are to be the same. Means are kept on both, and counted once.
fn lent(e: &mut SignalIdsEngine, means: &mut Means, header: CanFrame, bytes: &[u8]) -> String {
    let n = header.payload_len();
    let record = filled(CanFrame { is_fd: true, length: n.min(bytes.len()) as u8, ..header }, bytes);
    let (mut other, mut not_counted) = (look::copy(e), *means);
    let answer = listed("F", &means.frame(e, |e| e.process_frame(&record)));
    if header.is_extended {
        return answer;
    }
    let raw = listed("F", &not_counted.frame(&mut other, |e| e.process_raw_frame(header.id & 0x7FF, bytes, n)));
    if raw == answer && (0..e.signal_count()).all(|i| numbers(e, i) == numbers(&other, i)) {
        return answer;
    }
    format!("the Rust answers {answer} to a record and {raw} to lent bytes, or has other detectors then")
}

/// A detector's fields, all 0 where there is none.
fn state(d: &Option<EwmaDetector>) -> String {
    d.as_ref().map_or(" 00000000".repeat(9), detector)
}

/// The detector and the engine that a script acts on, and the means kept by samples and in frames.
#[derive(Default)]
pub struct Machine {
    detector: Option<EwmaDetector>,
    engine: Option<SignalIdsEngine>,
    pub by_samples: Means,
    pub in_frames: Means,
}

impl Machine {
    /// The Rust alone, whose means can go bad.
    pub fn alone() -> Self {
        Machine { by_samples: Means::alone(), in_frames: Means::alone(), ..Default::default() }
    }

    fn made(&mut self, letter: &str, d: Option<EwmaDetector>) -> String {
        self.detector = d;
        format!("{letter} {}{}", if d.is_some() { 0 } else { 7 }, state(&d))
    }

    fn on_detector(&mut self, letter: &str, f: &mut Fields) -> Option<String> {
        let d = self.detector.as_mut()?;
        if letter == "k" {
            return Some(format!("k {} {} {:08X}", float(d.mean()), float(d.variance()), d.count()));
        }
        let answer = match letter {
            "u" | "t" => match self.by_samples.update(d, f.float()) {
                Some(s) => format!("00000001 {} {:08X}", float(s.z_score), s.is_anomalous as u8),
                None => "00000000 00000000 00000000".to_string(),
            },
            "z" => d.set_freeze_duration(f.number() as u32).map_or("8".to_string(), |_| "0".to_string()),
            _ => {
                d.recalibrate(f.float());
                "0".to_string()
            }
        };
        Some(format!("{letter} {answer}{}", detector(d)))
    }

    fn on_engine(&mut self, letter: &str, f: &mut Fields) -> Option<String> {
        let (e, means) = (self.engine.as_mut()?, &mut self.in_frames);
        Some(match letter {
            "d" => told("d", e.define_signal(f.definition()).map(Some)),
            "b" => {
                let n = f.number();
                let defs: Vec<SignalDefinition> = (0..n).map(|_| f.definition()).collect();
                told("b", e.define_signals_batch(&defs).map(|_| None))
            }
            "m" => told("m", e.remove_signal(f.number() as u16).map(|_| None)),
            "y" => {
                for _ in 0..f.number() {
                    if let Ok(slot) = e.define_signal(SignalDefinition::default()) {
                        let _ = e.remove_signal(slot as u16);
                    }
                }
                format!("y {:08X}", e.next_slot())
            }
            "f" => {
                let frame = filled(header(f), &f.bytes());
                listed("f", &means.frame(e, |e| e.process_frame(&frame)))
            }
            "F" => lent(e, means, header(f), &f.bytes()),
            "g" => {
                let (id, n, data) = (f.number() as u32, f.number() as usize, f.bytes());
                listed("g", &means.frame(e, |e| e.process_raw_frame(id, &data, n)))
            }
            _ => {
                let mut text = format!("s {:08X} {:08X}", e.signal_count(), e.next_slot());
                for i in 0..e.signal_count() {
                    let (slot, def, det) = look::row(e, i);
                    text += &format!("\ns {slot:08X}{}{}", definition(&def), detector(&det));
                }
                text
            }
        })
    }

    /// The answer to a call.
    pub fn answer(&mut self, letter: &str, f: &mut Fields) -> Option<String> {
        match letter {
            "r" => {
                let (order, start, length, n) = (f.order(), f.number() as u16, f.number() as u8, f.number() as usize);
                let def = SignalDefinition { byte_order: order, start_bit: start, bit_length: length, ..Default::default() };
                Some(format!("r {}", model::raw(&def, &f.bytes(), n)))
            }
            "x" => {
                let (def, n, data) = (f.definition(), f.number() as usize, f.bytes());
                Some(format!("x {} {}", model::raw(&def, &data, n), model::value(&def, &data, n)))
            }
            "n" => Some(format!("n {}", float(f.number() as f32))),
            "i" => Some(format!("i {}", float(f.number() as i64 as f32))),
            "q" => Some(format!("q {}", float(inner::sqrt_approx(f.float())))),
            "a" => {
                let d = EwmaDetector::new(f.float(), f.float());
                Some(self.made("a", d))
            }
            "o" => {
                let d = EwmaDetector::with_options(f.float(), f.float(), f.number() as u32, f.number() as u32);
                Some(self.made("o", d))
            }
            "e" => {
                let made = SignalIdsEngine::new(f.float(), f.float());
                let text = told("e", made.as_ref().map(|_| None).map_err(|k| *k));
                self.engine = made.ok();
                Some(text)
            }
            "u" | "t" | "k" | "z" | "c" => self.on_detector(letter, f),
            "d" | "b" | "m" | "y" | "f" | "F" | "g" | "s" => self.on_engine(letter, f),
            _ => None,
        }
    }
}
