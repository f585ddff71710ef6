//! Document 02, T-06: "A new mean that isn't finite is not to be stored; mean and variance then stay, and the count still rises." The Rust has no such rule. It is
//! laid over the Rust's own step after that: where the mean that the Rust left is not finite, mean and variance become what they were before the sample. All
//! else, count, freeze and answer, is the Rust's, and no fold is worked out again.

use crate::host::bits;
use vs_anomaly::{look as inner, AnomalyScore, EwmaDetector};
use vs_signal_ids::{look, SignalIdsEngine, SignalIdsResult};

/// The detector after a sample by that rule, where it is another than the Rust's.
fn amended(before: &EwmaDetector, after: &EwmaDetector) -> Option<EwmaDetector> {
    let [mean, variance, ..] = inner::floats(before);
    let [left, stored, alpha, threshold] = inner::floats(after);
    if left.is_finite() || [left, stored].map(bits) == [mean, variance].map(bits) {
        return None;
    }
    Some(inner::detector_of([mean, variance, alpha, threshold], inner::numbers(after)))
}

/// The Rust's steps by that rule, or without it where the Rust is asked for alone; and how many means were kept by it.
#[derive(Clone, Copy, Default)]
pub struct Means {
    alone: bool,
    pub kept: u64,
}

impl Means {
    /// The Rust alone.
    pub fn alone() -> Self {
        Means { alone: true, kept: 0 }
    }

    /// One sample.
    pub fn update(&mut self, d: &mut EwmaDetector, value: f32) -> Option<AnomalyScore> {
        let before = *d;
        let answer = d.update(value);
        if let Some(kept) = amended(&before, d).filter(|_| !self.alone) {
            *d = kept;
            self.kept += 1;
        }
        answer
    }

    /// One frame, by either call for one. Speed is measured beside the Rust alone, so nothing but the test stands in its way.
    #[inline]
    pub fn frame(&mut self, e: &mut SignalIdsEngine, process: impl FnOnce(&mut SignalIdsEngine) -> SignalIdsResult) -> SignalIdsResult {
        if self.alone {
            process(e)
        } else {
            self.kept_in_frame(e, process)
        }
    }

    /// A frame by the rule: every live row's detector has at most one sample of it.
    #[inline(never)]
    fn kept_in_frame(&mut self, e: &mut SignalIdsEngine, process: impl FnOnce(&mut SignalIdsEngine) -> SignalIdsResult) -> SignalIdsResult {
        let before: Vec<EwmaDetector> = (0..e.signal_count()).map(|i| look::row(e, i).2).collect();
        let answer = process(e);
        for (i, d) in before.iter().enumerate() {
            if let Some(kept) = amended(d, &look::row(e, i).2) {
                look::put(e, i, kept);
                self.kept += 1;
            }
        }
        answer
    }
}
