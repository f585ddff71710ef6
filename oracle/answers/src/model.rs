//! A plain model, written from document 01 as amended by document 02, T-01, T-02, T-05 and T-06, of what the Rust has no counterpart for: why a signal has no
//! value, the writer, the case of a detector's answer, the outcome of each definition that applies to a frame with the counts, and a line of the log. Values and
//! the multiplexor's number are the Rust's, and so are detector steps but for the means that T-06 keeps (amended.rs). The text of a line is that of the log
//! program over the Rust.

use crate::amended::Means;
use crate::{bytes, float, framelog, Fields};
use vs_anomaly::{look, EwmaDetector};
use vs_signal_ids::{extract_signal, extract_signal_raw, ByteOrder, SignalDefinition};

/// The bits of a signal, lowest first, as (byte, bit), or none where the signal stands nowhere.
fn places(order: ByteOrder, start: u64, length: u64, n: u64) -> Option<Vec<(usize, u32)>> {
    if !(1..=64).contains(&length) {
        return None;
    }
    let first = match order {
        ByteOrder::LittleEndian => start,
        ByteOrder::BigEndian => 8 * (start / 8) + 7 - start % 8,
    };
    if (first + length) as u128 > 8 * n as u128 {
        return None;
    }
    let mut all: Vec<(usize, u32)> = (first..first + length)
        .map(|p| match order {
            ByteOrder::LittleEndian => ((p / 8) as usize, (p % 8) as u32),
            ByteOrder::BigEndian => ((p / 8) as usize, (7 - p % 8) as u32),
        })
        .collect();
    if order == ByteOrder::BigEndian {
        all.reverse();
    }
    Some(all)
}

/// Why a signal has no raw number, or else no value, by document 02's numbers: 1 is its length, 16 a bit that is in none of the bytes, 17 a value that is not
/// finite. The bits are found one by one, each from the one before it: Intel goes up, Motorola down and from bit 0 on to the top of the next byte. The value
/// is document 01's: the nearest f32, times scale, plus offset.
fn refused(d: &SignalDefinition, data: &[u8], data_len: usize) -> (Option<u8>, Option<u8>) {
    if d.bit_length == 0 || d.bit_length > 64 {
        return (Some(1), Some(1));
    }
    let sent = &data[..data_len.min(data.len())];
    let (mut byte, mut bit) = (d.start_bit / 8, d.start_bit % 8);
    let mut number = 0i128;
    for i in 0..d.bit_length {
        let Some(one) = sent.get(byte as usize).map(|b| ((b >> bit) & 1) as i128) else {
            return (Some(16), Some(16));
        };
        (number, byte, bit) = match (d.byte_order, bit) {
            (ByteOrder::LittleEndian, 7) => (number + (one << i), byte + 1, 0),
            (ByteOrder::LittleEndian, _) => (number + (one << i), byte, bit + 1),
            (ByteOrder::BigEndian, 0) => (2 * number + one, byte + 1, 7),
            (ByteOrder::BigEndian, _) => (2 * number + one, byte, bit - 1),
        };
    }
    if d.signed && number >= 1 << (d.bit_length - 1) {
        number -= 1 << d.bit_length;
    }
    let value = number as f32 * d.scale + d.offset;
    (None, if value.is_nan() || value.is_infinite() { Some(17) } else { None })
}

/// The Rust's answer or, for its `None`, the refusal that the model found. Where only one of the two has an answer this is a text that no program prints.
fn answered(rust: Option<String>, model: Option<u8>) -> String {
    match (rust, model) {
        (Some(text), None) => text,
        (None, Some(number)) => format!("refused {number:X}"),
        (rust, model) => format!("the Rust answers {rust:?} and the model refuses by {model:?}"),
    }
}

/// The raw number of a signal, or the refusal.
pub fn raw(d: &SignalDefinition, data: &[u8], data_len: usize) -> String {
    answered(extract_signal_raw(data, data_len, d).map(|x| format!("{x:016X}")), refused(d, data, data_len).0)
}

/// The value of a signal, or the refusal.
pub fn value(d: &SignalDefinition, data: &[u8], data_len: usize) -> String {
    answered(extract_signal(data, data_len, d).map(float), refused(d, data, data_len).1)
}

fn written(f: &mut Fields) -> String {
    let (order, start, length, data_len, raw) = (f.order(), f.number(), f.number() % 256, f.number(), f.number());
    let mut data = f.bytes();
    let number = match places(order, start % 65536, length, data_len.min(data.len() as u64)) {
        None => 5,
        Some(_) if length < 64 && raw >> length != 0 => 6,
        Some(all) => {
            for (i, (byte, bit)) in all.into_iter().enumerate() {
                data[byte] = data[byte] & !(1 << bit) | (((raw >> i) & 1) as u8) << bit;
            }
            0
        }
    };
    format!("w {number} {}", bytes(&data))
}

/// A line of the log into a buffer, which has to have 55 bytes.
fn rendered(f: &mut Fields) -> String {
    let (kind, n, x, y, z) = (f.number(), f.number() as u32, f.number(), f.number(), f.number());
    let mut data = f.bytes();
    let answer = match x {
        0 => Ok(Some(y as u16)),
        1 => Ok(None),
        _ => Err(y as u8),
    };
    let mut line = Vec::new();
    match kind {
        0 => framelog::answer_line(&mut line, 'D', n, answer),
        1 => framelog::answer_line(&mut line, 'R', n, answer),
        2 => framelog::anomaly_line(&mut line, n, x as u16, f32::from_bits(y as u32), f32::from_bits(z as u32)),
        _ => framelog::end_line(&mut line, n, (x as u8).into()),
    }
    if data.len() < 55 {
        return format!("l none {}", bytes(&data));
    }
    data[..line.len()].copy_from_slice(&line);
    format!("l {:02X} {}", line.len(), bytes(&data))
}

/// What a sample will be to a detector: 0 ignored, 1 the first, 2 warming, 3 scored.
fn case(d: &EwmaDetector, value: f32) -> u8 {
    let [count, _, _, _, warmup] = look::numbers(d);
    if !value.is_finite() {
        0
    } else if count == 0 {
        1
    } else if count < warmup {
        2
    } else {
        3
    }
}

struct Row {
    slot: u64,
    definition: SignalDefinition,
    detector: EwmaDetector,
}

struct Engine {
    rows: Vec<Row>,
    next: u64,
    fresh: EwmaDetector,
}

/// The first five tests of document 01's list.
fn sound(d: &SignalDefinition) -> bool {
    let most = if d.is_extended { 0x1FFF_FFFF } else { 0x7FF };
    (1..=64).contains(&d.bit_length)
        && d.scale.is_finite()
        && d.offset.is_finite()
        && d.can_id <= most
        && !(d.is_multiplexor && d.bit_length > 16)
        && !(d.signed && d.bit_length < 2)
}

impl Engine {
    fn row(&mut self, definition: SignalDefinition) -> Row {
        let slot = self.next;
        self.next = (self.next + 1).min(65535);
        Row { slot, definition, detector: self.fresh }
    }

    fn define(&mut self, d: SignalDefinition) {
        if !sound(&d) || self.rows.len() >= 64 || self.next == 65535 {
            return;
        }
        let at = self.rows.iter().filter(|r| r.definition.can_id < d.can_id).count();
        let row = self.row(d);
        self.rows.insert(at, row);
    }

    fn batch(&mut self, defs: Vec<SignalDefinition>) {
        let n = defs.len() as u64;
        if self.rows.len() as u64 + n > 64 || !defs.iter().all(sound) || (n > 0 && self.next == 65535) || n > 65535 - self.next + 1 {
            return;
        }
        for d in defs {
            let row = self.row(d);
            self.rows.push(row);
        }
        self.rows.sort_by_key(|r| r.definition.can_id);
    }

    fn remove(&mut self, slot: u64) {
        if let Some(i) = self.rows.iter().position(|r| r.slot == slot) {
            self.rows.remove(i);
        }
    }

    fn outcomes(&mut self, id: u32, extended: bool, data: &[u8], data_len: usize) -> String {
        let applies = |d: &SignalDefinition| d.can_id == id && d.is_extended == extended;
        let mux = self
            .rows
            .iter()
            .find(|r| applies(&r.definition) && r.definition.is_multiplexor)
            .and_then(|r| extract_signal_raw(data, data_len, &r.definition));
        let mut cases = Vec::new();
        let mut text = String::new();
        for r in self.rows.iter_mut().filter(|r| applies(&r.definition)) {
            // Case 0 is passed over, 2 to 4 are a detector's, and no value is its refusal's number. 255 is no case: the Rust and the model disagree,
            // or a detector ignored a value.
            let outcome = if r.definition.multiplexor_value.is_some_and(|n| mux != Some(n as u64)) {
                (0, 0.0, 0.0, false)
            } else {
                match (extract_signal(data, data_len, &r.definition), refused(&r.definition, data, data_len).1) {
                    (Some(value), None) => {
                        let case = match case(&r.detector, value) {
                            0 => 254,
                            heard => heard,
                        };
                        let score = Means::default().update(&mut r.detector, value).filter(|_| case == 3);
                        (case + 1, value, score.map_or(0.0, |s| s.z_score), score.is_some_and(|s| s.is_anomalous))
                    }
                    (None, Some(number)) => (number, 0.0, 0.0, false),
                    _ => (255, 0.0, 0.0, false),
                }
            };
            let (case, value, score, flag) = outcome;
            cases.push(case);
            text += &format!(" {:08X} {case:08X} {} {} {:08X}", r.slot, float(value), float(score), flag as u8);
        }
        let count = |case: u8| cases.iter().filter(|c| **c == case).count();
        format!("p {:02X} {:02X} {:02X} {:02X}{text}", cases.len(), count(0), count(16), count(17))
    }
}

/// The bytes that a frame carries, out of those that it has: as many as its length says, but of a classic frame no more than eight, and of a classic remote
/// frame nothing at all. Flag bit 2 is FD, and with it bit 1 says nothing.
fn sent(flags: u64, length: usize, data: Vec<u8>) -> Vec<u8> {
    let room = match flags % 8 / 2 {
        0 => 8,
        1 => 0,
        _ => 64,
    };
    data.into_iter().take(length).take(room).collect()
}

/// The detector and the engine that a script acts on.
#[derive(Default)]
pub struct Machine {
    detector: Option<EwmaDetector>,
    engine: Option<Engine>,
}

impl Machine {
    /// The answer to a call.
    pub fn answer(&mut self, letter: &str, f: &mut Fields) -> Option<String> {
        match letter {
            "w" => return Some(written(f)),
            "l" => return Some(rendered(f)),
            "a" => self.detector = EwmaDetector::new(f.float(), f.float()),
            "o" => self.detector = EwmaDetector::with_options(f.float(), f.float(), f.number() as u32, f.number() as u32),
            "u" | "t" => {
                let d = self.detector.as_mut()?;
                let value = f.float();
                let text = format!("v {}", case(d, value));
                let _ = Means::default().update(d, value);
                return Some(text);
            }
            "z" => {
                let _ = self.detector.as_mut()?.set_freeze_duration(f.number() as u32);
            }
            "c" => self.detector.as_mut()?.recalibrate(f.float()),
            "e" => {
                let made = EwmaDetector::new(f.float(), f.float());
                self.engine = made.map(|fresh| Engine { rows: Vec::new(), next: 0, fresh });
            }
            "d" => {
                let d = f.definition();
                self.engine.as_mut()?.define(d);
            }
            "b" => {
                let n = f.number();
                let defs = (0..n).map(|_| f.definition()).collect();
                self.engine.as_mut()?.batch(defs);
            }
            "m" => {
                let slot = f.number();
                self.engine.as_mut()?.remove(slot);
            }
            "y" => {
                let e = self.engine.as_mut()?;
                for _ in 0..f.number() {
                    let before = e.rows.len();
                    let slot = e.next;
                    e.define(SignalDefinition::default());
                    if e.rows.len() > before {
                        e.remove(slot);
                    }
                }
            }
            "f" | "F" => {
                let (id, flags, length, mut data) = (f.number() as u32, f.number(), f.number() as usize, f.bytes());
                if letter == "f" {
                    data.resize(64, 0);
                }
                let extended = flags % 2 == 1;
                let id = id % if extended { 1 << 29 } else { 1 << 11 };
                let sent = sent(flags, length, data);
                return Some(self.engine.as_mut()?.outcomes(id, extended, &sent, sent.len()));
            }
            "g" => {
                let (id, n, data) = (f.number() as u32, f.number() as usize, f.bytes());
                return Some(self.engine.as_mut()?.outcomes(id, false, &data, n));
            }
            _ => {}
        }
        None
    }
}
