//! The lines of the models of bytes. The Rust's sizes are constants, and ours are numbers that come with the counts.

use crate::inputs::Bytes;
use crate::proved::Model;
use crate::{clock, proved, unchanged, Row, CALLS};
use vs_anomaly::{look, HistogramDetector, MarkovDetector};

/// How many of the bytes a model has observed before it is asked.
const LEARNT: usize = CALLS / 8;

/// How often it has observed them for a total of 2^27: that and some counts are then above 2^24, where an f32 no longer holds every number.
const LONG: usize = 1 << 13;

/// Calls over 64 models in turn: four times as many, so that making one number of 64 models at the end weighs little.
const IN_TURN: usize = 4 * CALLS;

const AIM: Option<f64> = Some(1.3);

fn learnt<const BINS: usize>(bytes: &Bytes, times: usize) -> HistogramDetector<BINS> {
    let mut d = HistogramDetector::new();
    for _ in 0..times {
        bytes.values[..LEARNT].iter().for_each(|&x| d.observe(x));
    }
    d
}

/// The same model for the proved loops.
fn model_of<const BINS: usize>(d: &HistogramDetector<BINS>) -> Model {
    let (counts, total, seen, _) = look::histogram(d);
    Model { total, seen, counts: counts.to_vec() }
}

fn sixty_four<const BINS: usize>() -> Box<[HistogramDetector<BINS>; 64]> {
    vec![HistogramDetector::new(); 64].try_into().expect("there are 64")
}

fn observe<const BINS: usize>(what: &str, bytes: Bytes) -> Row {
    let same = bytes.clone();
    Row::new(
        &format!("observe, {BINS} bins, {what}"),
        bytes.values.len(),
        AIM,
        Box::new(move || {
            let mut counts = vec![0; BINS];
            clock::of(|| proved::observe(&mut counts, &bytes.values))
        }),
        Box::new(move || clock::of(|| unchanged::observe::<BINS>(&same.values))),
    )
}

fn observe_turns<const BINS: usize>(what: &str, bytes: Bytes) -> Row {
    let same = bytes.clone();
    Row::new(
        &format!("observe, {BINS} bins, {what}, 64 models in turn"),
        bytes.values.len(),
        AIM,
        Box::new(move || {
            let mut counts = vec![0; 64 * BINS];
            clock::of(|| proved::observe_turns(&mut counts, &bytes.values))
        }),
        Box::new(move || {
            let mut detectors = sixty_four::<BINS>();
            clock::of(|| unchanged::observe_turns(&mut detectors, &same.values))
        }),
    )
}

fn anomalous<const BINS: usize>(what: &str, times: usize, bytes: Bytes) -> Row {
    let (detector, same) = (learnt::<BINS>(&bytes, times), bytes.clone());
    let model = model_of(&detector);
    Row::new(
        &format!("is_anomalous, {BINS} bins, {what}"),
        bytes.values.len(),
        AIM,
        Box::new(move || clock::of(|| proved::anomalous(&model, &bytes.values, bytes.threshold))),
        Box::new(move || clock::of(|| unchanged::anomalous(&detector, &same.values, same.threshold))),
    )
}

/// Each byte is first asked about and then observed.
fn watch<const BINS: usize>(what: &str, times: usize, bytes: Bytes) -> Row {
    let (detector, same) = (learnt::<BINS>(&bytes, times), bytes.clone());
    let model = model_of(&detector);
    Row::new(
        &format!("is_anomalous and observe, {BINS} bins, {what}"),
        bytes.values.len(),
        None,
        Box::new(move || {
            let mut m = model.clone();
            clock::of(|| proved::watch(&mut m, &bytes.values, bytes.threshold))
        }),
        Box::new(move || {
            let mut d = detector.clone();
            clock::of(|| unchanged::watch(&mut d, &same.values, same.threshold))
        }),
    )
}

fn watch_turns<const BINS: usize>(what: &str, bytes: Bytes) -> Row {
    let same = bytes.clone();
    Row::new(
        &format!("is_anomalous and observe, {BINS} bins, {what}, 64 models in turn"),
        bytes.values.len(),
        None,
        Box::new(move || {
            let mut counts = vec![0; 64 * BINS];
            clock::of(|| proved::watch_turns(&mut counts, &bytes.values, bytes.threshold))
        }),
        Box::new(move || {
            let mut detectors = sixty_four::<BINS>();
            clock::of(|| unchanged::watch_turns(&mut detectors, &same.values, same.threshold))
        }),
    )
}

fn probability<const BINS: usize>(what: &str, bytes: Bytes) -> Row {
    let (detector, same) = (learnt::<BINS>(&bytes, 1), bytes.clone());
    let model = model_of(&detector);
    Row::new(
        &format!("probability, {BINS} bins, {what}"),
        bytes.values.len(),
        None,
        Box::new(move || clock::of(|| proved::probability(&model, &bytes.values))),
        Box::new(move || clock::of(|| unchanged::probability(&detector, &same.values))),
    )
}

fn transitions<const N: usize>(what: &str, bytes: Bytes) -> Row {
    let same = bytes.clone();
    Row::new(
        &format!("observe_transition, {N} states, {what}"),
        bytes.values.len() - 1,
        None,
        Box::new(move || {
            let (mut transition, mut row_totals) = (vec![0; N * N], vec![0; N]);
            clock::of(|| proved::transitions(&mut transition, &mut row_totals, &bytes.values))
        }),
        Box::new(move || clock::of(|| unchanged::transitions::<N>(&same.values))),
    )
}

fn scores<const N: usize>(what: &str, bytes: Bytes) -> Row {
    let mut detector = MarkovDetector::<N>::new();
    bytes.values[..LEARNT].windows(2).for_each(|pair| detector.observe_transition(pair[0], pair[1]));
    let (transition, row_totals, _) = look::markov(&detector);
    let (transition, row_totals, same) = (transition.to_vec(), row_totals.to_vec(), bytes.clone());
    Row::new(
        &format!("score_transition, {N} states, {what}"),
        bytes.values.len() - 1,
        None,
        Box::new(move || clock::of(|| proved::scores(&transition, &row_totals, &bytes.values))),
        Box::new(move || clock::of(|| unchanged::scores(&detector, &same.values))),
    )
}

/// Each call by itself, and both as a host makes them.
pub fn rows() -> Vec<Row> {
    vec![
        observe::<256>("states", Bytes::states(CALLS)),
        observe::<256>("any byte", Bytes::random(CALLS)),
        observe::<16>("states", Bytes::states(CALLS)),
        observe::<16>("counter", Bytes::counter(CALLS)),
        observe::<10>("states", Bytes::states(CALLS)),
        observe_turns::<256>("states", Bytes::states(IN_TURN)),
        observe_turns::<16>("states", Bytes::states(IN_TURN)),
        observe_turns::<10>("states", Bytes::states(IN_TURN)),
        anomalous::<256>("states", 1, Bytes::states(CALLS)),
        anomalous::<256>("any byte", 1, Bytes::random(CALLS)),
        anomalous::<16>("states", 1, Bytes::states(CALLS)),
        anomalous::<16>("counter", 1, Bytes::counter(CALLS)),
        anomalous::<10>("states", 1, Bytes::states(CALLS)),
        anomalous::<256>("states, total above 2^24", LONG, Bytes::states(CALLS)),
        watch::<256>("states", 1, Bytes::states(CALLS)),
        watch::<256>("any byte", 1, Bytes::random(CALLS)),
        watch::<16>("counter", 1, Bytes::counter(CALLS)),
        watch::<10>("states", 1, Bytes::states(CALLS)),
        watch::<256>("states, total above 2^24", LONG, Bytes::states(CALLS)),
        watch_turns::<256>("states", Bytes::states(IN_TURN)),
        watch_turns::<16>("states", Bytes::states(IN_TURN)),
        watch_turns::<10>("states", Bytes::states(IN_TURN)),
        probability::<256>("states", Bytes::states(CALLS)),
        probability::<16>("counter", Bytes::counter(CALLS)),
        probability::<10>("states", Bytes::states(CALLS)),
        transitions::<64>("states", Bytes::states(CALLS)),
        transitions::<16>("counter", Bytes::counter(CALLS)),
        transitions::<10>("states", Bytes::states(CALLS)),
        scores::<64>("states", Bytes::states(CALLS)),
        scores::<16>("counter", Bytes::counter(CALLS)),
        scores::<10>("states", Bytes::states(CALLS)),
    ]
}
