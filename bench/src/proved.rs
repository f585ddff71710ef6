//! The proved loops of bench/loops. None asks anything of its caller.

use crate::inputs::Places;

mod exported {
    extern "C" {
        pub fn timed_raw(
            data: *const u8,
            data_len: usize,
            size: usize,
            starts: *const u16,
            starts_len: usize,
            lengths: *const u8,
            lengths_len: usize,
            motorola: *const u8,
            motorola_len: usize,
        ) -> u64;
        pub fn timed_nearest(numbers: *const u64, numbers_len: usize) -> u64;
        pub fn timed_update(alpha: f32, threshold: f32, turns: usize, values: *const f32, values_len: usize) -> u64;
        pub fn timed_frames(
            alpha: f32,
            threshold: f32,
            definitions: *const u8,
            definitions_len: usize,
            frames: *const u8,
            frames_len: usize,
        ) -> u64;
        pub fn timed_observe(counts: *mut u64, counts_len: usize, values: *const u8, values_len: usize) -> u64;
        pub fn timed_observe_turns(size: usize, counts: *mut u64, counts_len: usize, values: *const u8, values_len: usize) -> u64;
        pub fn timed_anomalous(
            total: u64,
            seen: *const [u64; 4],
            counts: *const u64,
            counts_len: usize,
            values: *const u8,
            values_len: usize,
            threshold: f32,
        ) -> u64;
        pub fn timed_watch(
            total: u64,
            seen: *const [u64; 4],
            counts: *mut u64,
            counts_len: usize,
            values: *const u8,
            values_len: usize,
            threshold: f32,
        ) -> u64;
        pub fn timed_watch_turns(
            size: usize,
            counts: *mut u64,
            counts_len: usize,
            values: *const u8,
            values_len: usize,
            threshold: f32,
        ) -> u64;
        pub fn timed_probability(
            total: u64,
            seen: *const [u64; 4],
            counts: *const u64,
            counts_len: usize,
            values: *const u8,
            values_len: usize,
        ) -> u64;
        pub fn timed_transitions(
            transition: *mut u64,
            transition_len: usize,
            row_totals: *mut u64,
            row_totals_len: usize,
            values: *const u8,
            values_len: usize,
        ) -> u64;
        pub fn timed_scores(
            transition: *const u64,
            transition_len: usize,
            row_totals: *const u64,
            row_totals_len: usize,
            values: *const u8,
            values_len: usize,
        ) -> u64;
    }
}

pub fn raw(data: &[u8], size: usize, places: &Places) -> u64 {
    let Places { starts, lengths, motorola } = places;
    unsafe {
        exported::timed_raw(
            data.as_ptr(),
            data.len(),
            size,
            starts.as_ptr(),
            starts.len(),
            lengths.as_ptr(),
            lengths.len(),
            motorola.as_ptr(),
            motorola.len(),
        )
    }
}

pub fn nearest(numbers: &[u64]) -> u64 {
    unsafe { exported::timed_nearest(numbers.as_ptr(), numbers.len()) }
}

pub fn update(alpha: f32, threshold: f32, turns: usize, values: &[f32]) -> u64 {
    unsafe { exported::timed_update(alpha, threshold, turns, values.as_ptr(), values.len()) }
}

pub fn frames(alpha: f32, threshold: f32, definitions: &[u8], frames: &[u8]) -> u64 {
    unsafe { exported::timed_frames(alpha, threshold, definitions.as_ptr(), definitions.len(), frames.as_ptr(), frames.len()) }
}

/// A model by its numbers, with its counts.
#[derive(Clone)]
pub struct Model {
    pub total: u64,
    pub seen: [u64; 4],
    pub counts: Vec<u64>,
}

pub fn observe(counts: &mut [u64], values: &[u8]) -> u64 {
    unsafe { exported::timed_observe(counts.as_mut_ptr(), counts.len(), values.as_ptr(), values.len()) }
}

pub fn observe_turns(counts: &mut [u64], values: &[u8]) -> u64 {
    unsafe { exported::timed_observe_turns(counts.len() / 64, counts.as_mut_ptr(), counts.len(), values.as_ptr(), values.len()) }
}

pub fn anomalous(m: &Model, values: &[u8], threshold: f32) -> u64 {
    unsafe {
        exported::timed_anomalous(m.total, &m.seen, m.counts.as_ptr(), m.counts.len(), values.as_ptr(), values.len(), threshold)
    }
}

pub fn watch(m: &mut Model, values: &[u8], threshold: f32) -> u64 {
    unsafe {
        exported::timed_watch(m.total, &m.seen, m.counts.as_mut_ptr(), m.counts.len(), values.as_ptr(), values.len(), threshold)
    }
}

pub fn watch_turns(counts: &mut [u64], values: &[u8], threshold: f32) -> u64 {
    unsafe {
        exported::timed_watch_turns(counts.len() / 64, counts.as_mut_ptr(), counts.len(), values.as_ptr(), values.len(), threshold)
    }
}

pub fn probability(m: &Model, values: &[u8]) -> u64 {
    unsafe { exported::timed_probability(m.total, &m.seen, m.counts.as_ptr(), m.counts.len(), values.as_ptr(), values.len()) }
}

pub fn transitions(transition: &mut [u64], row_totals: &mut [u64], values: &[u8]) -> u64 {
    unsafe {
        exported::timed_transitions(
            transition.as_mut_ptr(),
            transition.len(),
            row_totals.as_mut_ptr(),
            row_totals.len(),
            values.as_ptr(),
            values.len(),
        )
    }
}

pub fn scores(transition: &[u64], row_totals: &[u64], values: &[u8]) -> u64 {
    unsafe {
        exported::timed_scores(
            transition.as_ptr(),
            transition.len(),
            row_totals.as_ptr(),
            row_totals.len(),
            values.as_ptr(),
            values.len(),
        )
    }
}
