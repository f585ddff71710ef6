//! Scripts of library calls: how a line is read, and how answers are written. SCRIPTS.md has the form.

pub mod amended;
pub mod bad_means;
pub mod framelog;
pub mod generate;
pub mod host;
pub mod model;
pub mod models;
pub mod sizes;
pub mod unchanged;

use std::fmt::Write;
use vs_anomaly::EwmaDetector;
use vs_signal_ids::{ByteOrder, SignalDefinition};
use vs_types::VsError;

/// The fields of one line.
pub struct Fields<'a>(std::str::Split<'a, char>);

impl<'a> Fields<'a> {
    /// The call's letter and its fields.
    pub fn of(line: &'a str) -> (&'a str, Self) {
        let mut rest = line.split(' ');
        let call = rest.next().unwrap_or("");
        (call, Fields(rest))
    }

    /// A number.
    pub fn number(&mut self) -> u64 {
        u64::from_str_radix(self.0.next().expect("a field"), 16).expect("a hexadecimal number")
    }

    /// A float by its bits.
    pub fn float(&mut self) -> f32 {
        f32::from_bits(self.number() as u32)
    }

    /// Bytes, `-` where there are none.
    pub fn bytes(&mut self) -> Vec<u8> {
        let text = self.0.next().expect("a field");
        if text == "-" {
            return Vec::new();
        }
        (0..text.len() / 2).map(|i| u8::from_str_radix(&text[2 * i..2 * i + 2], 16).expect("a byte")).collect()
    }

    /// A byte order.
    pub fn order(&mut self) -> ByteOrder {
        if self.number() == 0 {
            ByteOrder::LittleEndian
        } else {
            ByteOrder::BigEndian
        }
    }

    /// A definition.
    pub fn definition(&mut self) -> SignalDefinition {
        SignalDefinition {
            can_id: self.number() as u32,
            is_extended: self.number() != 0,
            start_bit: self.number() as u16,
            bit_length: self.number() as u8,
            byte_order: self.order(),
            scale: self.float(),
            offset: self.float(),
            name_hash: self.number() as u32,
            signed: self.number() != 0,
            is_multiplexor: self.number() != 0,
            multiplexor_value: match self.number() {
                0 => None,
                n => Some((n - 0x10000) as u16),
            },
        }
    }
}

/// The eight digits of a float's bits, those of one NaN for all.
pub fn float(x: f32) -> String {
    let bits = if x.is_nan() { 0x7FC0_0000 } else { x.to_bits() };
    format!("{bits:08X}")
}

/// Bytes, `-` where there are none.
pub fn bytes(data: &[u8]) -> String {
    if data.is_empty() {
        return "-".to_string();
    }
    data.iter().map(|b| format!("{b:02X}")).collect()
}

/// The number that document 01 gives an error of the engine.
pub fn refusal(e: VsError) -> u8 {
    match e {
        VsError::BusError => 2,
        VsError::InvalidInput => 3,
        VsError::ResourceExhausted => 4,
    }
}

/// Every field of a detector.
pub fn detector(d: &EwmaDetector) -> String {
    let mut text = String::new();
    for x in vs_anomaly::look::floats(d) {
        let _ = write!(text, " {}", float(x));
    }
    for n in vs_anomaly::look::numbers(d) {
        let _ = write!(text, " {n:08X}");
    }
    text
}

/// Every field of a definition.
pub fn definition(d: &SignalDefinition) -> String {
    format!(
        " {:08X} {:08X} {:08X} {:08X} {:08X} {} {} {:08X} {:08X} {:08X} {:08X}",
        d.can_id,
        d.is_extended as u8,
        d.start_bit,
        d.bit_length,
        (d.byte_order == ByteOrder::BigEndian) as u8,
        float(d.scale),
        float(d.offset),
        d.name_hash,
        d.signed as u8,
        d.is_multiplexor as u8,
        d.multiplexor_value.map_or(0, |n| 0x10000 + n as u32),
    )
}

/// All machines on one script: the Rust's answers with the means that document 02 keeps, and the model's on lines of their own; on models of bytes the Rust's,
/// held to a plain model.
#[derive(Default)]
pub struct Both {
    alone: bool,
    unchanged: unchanged::Machine,
    model: model::Machine,
    models: models::Machine,
}

impl Both {
    /// The Rust alone: no mean is kept, and the model's lines are left out.
    pub fn alone() -> Self {
        Both { alone: true, unchanged: unchanged::Machine::alone(), ..Default::default() }
    }

    /// All lines for a call.
    pub fn answer(&mut self, line: &str, out: &mut String) {
        let (letter, mut fields) = Fields::of(line);
        if let Some(text) = self.unchanged.answer(letter, &mut fields) {
            out.push_str(&text);
            out.push('\n');
        }
        let (letter, mut fields) = Fields::of(line);
        if let Some(text) = self.model.answer(letter, &mut fields).filter(|_| !self.alone) {
            out.push_str(&text);
            out.push('\n');
        }
        let (letter, mut fields) = Fields::of(line);
        if let Some(text) = self.models.answer(letter, &mut fields) {
            out.push_str(&text);
            out.push('\n');
        }
    }

    /// How many means were kept by samples, and how many in frames.
    pub fn kept(&self) -> (u64, u64) {
        (self.unchanged.by_samples.kept, self.unchanged.in_frames.kept)
    }

    /// What there was of models of bytes.
    pub fn seen(&self) -> models::Seen {
        self.models.seen
    }
}
