//! The loops of bench/loops over the unchanged Rust.

use crate::inputs::Place;
use vs_anomaly::{look, AnomalyScore, EwmaDetector, HistogramDetector, MarkovDetector};
use vs_can_monitor::CanFrame;
use vs_signal_ids::{extract_signal_raw, ByteOrder, SignalDefinition, SignalIdsEngine, SignalIdsResult};

fn mixed(sum: u64, x: u64) -> u64 {
    sum.rotate_left(1) ^ x
}

fn mixed_float(sum: u64, x: f32) -> u64 {
    mixed(sum, if x.is_nan() { 0x7FC0_0000 } else { x.to_bits() } as u64)
}

fn order(motorola: bool) -> ByteOrder {
    if motorola {
        ByteOrder::BigEndian
    } else {
        ByteOrder::LittleEndian
    }
}

/// The Rust takes a place as a definition; they are made before the clock is read.
pub fn definition_at(p: &Place) -> SignalDefinition {
    SignalDefinition { start_bit: p.start, bit_length: p.length, byte_order: order(p.motorola), ..Default::default() }
}

pub fn raw(data: &[u8], size: usize, places: &[SignalDefinition]) -> u64 {
    let n = ((data.len() - size) / 8 + 1).min(places.len());
    let mut sum = 0;
    for i in 0..n {
        sum = mixed(sum, extract_signal_raw(&data[8 * i..8 * i + size], size, &places[i]).unwrap_or(1));
    }
    sum
}

pub fn nearest(numbers: &[u64]) -> u64 {
    numbers.iter().fold(0, |sum, &x| mixed_float(sum, x as f32))
}

fn mixed_score(sum: u64, score: Option<AnomalyScore>) -> u64 {
    match score {
        None => mixed(sum, 1),
        Some(s) if s.is_anomalous => mixed(mixed_float(sum, s.z_score), 2),
        Some(s) => mixed_float(sum, s.z_score),
    }
}

pub fn update(alpha: f32, threshold: f32, turns: usize, values: &[f32]) -> u64 {
    let mut detectors = [EwmaDetector::new(alpha, threshold).expect("good settings"); 64];
    let n = turns.min(64);
    let (mut sum, mut at) = (0, 0);
    for &x in values {
        sum = mixed_score(sum, detectors[at].update(x));
        at = if at + 1 < n { at + 1 } else { 0 };
    }
    sum
}

fn u16_at(s: &[u8], i: usize) -> u16 {
    u16::from_le_bytes([s[i], s[i + 1]])
}

fn u32_at(s: &[u8], i: usize) -> u32 {
    u32::from_le_bytes([s[i], s[i + 1], s[i + 2], s[i + 3]])
}

fn definition_of(s: &[u8]) -> SignalDefinition {
    let flags = s[6];
    SignalDefinition {
        can_id: u32_at(s, 2),
        is_extended: flags & 1 != 0,
        start_bit: u16_at(s, 7),
        bit_length: s[9],
        byte_order: order(flags & 2 != 0),
        scale: f32::from_bits(u32_at(s, 10)),
        offset: f32::from_bits(u32_at(s, 14)),
        name_hash: u32_at(s, 18),
        signed: flags & 4 != 0,
        is_multiplexor: flags & 8 != 0,
        multiplexor_value: if flags & 16 != 0 { Some(u16_at(s, 22)) } else { None },
    }
}

fn engine_of(alpha: f32, threshold: f32, definitions: &[u8]) -> SignalIdsEngine {
    let mut engine = SignalIdsEngine::new(alpha, threshold).expect("good settings");
    for record in definitions.chunks_exact(24) {
        engine.define_signal(definition_of(record)).expect("a good definition");
    }
    engine
}

fn frame_of(s: &[u8]) -> CanFrame {
    let mut data = [0; 64];
    data[..8].copy_from_slice(&s[8..16]);
    CanFrame { id: u32_at(s, 4), is_extended: s[2] & 1 != 0, is_remote: s[2] & 2 != 0, is_fd: false, length: s[3], data }
}

fn mixed_anomalies(sum: u64, result: &SignalIdsResult) -> u64 {
    result.anomalies[..result.anomaly_count as usize].iter().fold(sum, |sum, a| {
        mixed_float(mixed_float(mixed(sum, a.signal_index as u64), a.z_score), a.physical_value)
    })
}

pub fn frames(alpha: f32, threshold: f32, definitions: &[u8], frames: &[u8]) -> u64 {
    let mut engine = engine_of(alpha, threshold, definitions);
    let mut sum = 0;
    for record in frames.chunks_exact(16) {
        let result = engine.process_frame(&frame_of(record));
        sum = mixed_anomalies(sum, &result);
    }
    sum
}

fn mixed_counts(sum: u64, counts: &[u64]) -> u64 {
    counts.iter().fold(sum, |sum, &x| mixed(sum, x))
}

fn mixed_model<const BINS: usize>(sum: u64, d: &HistogramDetector<BINS>) -> u64 {
    let (_, total, seen, saturated) = look::histogram(d);
    mixed(mixed_counts(mixed(sum, total), &seen), saturated as u64)
}

fn mixed_models<const BINS: usize>(sum: u64, all: &[HistogramDetector<BINS>]) -> u64 {
    let models = all.iter().fold(sum, |sum, d| mixed_model(sum, d));
    all.iter().fold(models, |sum, d| mixed_counts(sum, look::histogram(d).0))
}

pub fn observe<const BINS: usize>(values: &[u8]) -> u64 {
    let mut d = HistogramDetector::<BINS>::new();
    for &x in values {
        d.observe(x);
    }
    mixed_models(0, &[d])
}

pub fn observe_turns<const BINS: usize>(detectors: &mut [HistogramDetector<BINS>; 64], values: &[u8]) -> u64 {
    let mut at = 0;
    for &x in values {
        detectors[at].observe(x);
        at = (at + 1) % 64;
    }
    mixed_models(0, detectors)
}

pub fn anomalous<const BINS: usize>(d: &HistogramDetector<BINS>, values: &[u8], threshold: f32) -> u64 {
    values.iter().fold(0, |sum, &x| mixed(sum, !d.is_anomalous(x, threshold) as u64))
}

pub fn watch<const BINS: usize>(d: &mut HistogramDetector<BINS>, values: &[u8], threshold: f32) -> u64 {
    let mut sum = 0;
    for &x in values {
        sum = mixed(sum, !d.is_anomalous(x, threshold) as u64);
        d.observe(x);
    }
    mixed_models(sum, std::slice::from_ref(d))
}

pub fn watch_turns<const BINS: usize>(detectors: &mut [HistogramDetector<BINS>; 64], values: &[u8], threshold: f32) -> u64 {
    let (mut sum, mut at) = (0, 0);
    for &x in values {
        sum = mixed(sum, !detectors[at].is_anomalous(x, threshold) as u64);
        detectors[at].observe(x);
        at = (at + 1) % 64;
    }
    mixed_models(sum, detectors)
}

pub fn probability<const BINS: usize>(d: &HistogramDetector<BINS>, values: &[u8]) -> u64 {
    values.iter().fold(0, |sum, &x| mixed_float(sum, d.probability(x)))
}

pub fn transitions<const N: usize>(values: &[u8]) -> u64 {
    let mut d = MarkovDetector::<N>::new();
    for pair in values.windows(2) {
        d.observe_transition(pair[0], pair[1]);
    }
    let (transition, row_totals, saturated) = look::markov(&d);
    mixed_counts(mixed_counts(mixed(0, saturated as u64), transition), row_totals)
}

pub fn scores<const N: usize>(d: &MarkovDetector<N>, values: &[u8]) -> u64 {
    values.windows(2).fold(0, |sum, pair| mixed_float(sum, d.score_transition(pair[0], pair[1])))
}
