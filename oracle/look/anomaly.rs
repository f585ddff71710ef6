
/// Appended by the oracle's build: reads what is private above, makes detectors and models of bytes of any fields, and changes no code.
pub mod look {
    use super::{EwmaDetector, HistogramDetector, MarkovDetector};

    /// The fields of a detector: mean, variance, alpha and threshold.
    pub fn floats(d: &EwmaDetector) -> [f32; 4] {
        [d.mean, d.variance, d.alpha, d.z_threshold]
    }

    /// Count, freeze flag, places left, duration and warm-up.
    pub fn numbers(d: &EwmaDetector) -> [u32; 5] {
        [d.count, d.frozen as u32, d.freeze_remaining, d.freeze_duration, d.warmup_count]
    }

    /// A detector of these fields, in the order of the two above.
    pub fn detector_of(floats: [f32; 4], numbers: [u32; 5]) -> EwmaDetector {
        let [mean, variance, alpha, z_threshold] = floats;
        let [count, frozen, freeze_remaining, freeze_duration, warmup_count] = numbers;
        EwmaDetector { mean, variance, alpha, z_threshold, count, frozen: frozen != 0, freeze_remaining, freeze_duration, warmup_count }
    }

    /// The private square root.
    pub fn sqrt_approx(x: f32) -> f32 {
        super::sqrt_approx(x)
    }

    /// The fields of a histogram: counts, total, seen map and flag.
    pub fn histogram<const BINS: usize>(d: &HistogramDetector<BINS>) -> (&[u64], u64, [u64; 4], bool) {
        (&d.counts, d.total, d.seen, d.saturated)
    }

    /// A histogram of these fields.
    pub fn histogram_of<const BINS: usize>(counts: [u64; BINS], total: u64, seen: [u64; 4], saturated: bool) -> HistogramDetector<BINS> {
        HistogramDetector { counts, total, seen, saturated }
    }

    /// The fields of a Markov model: the transitions row after row, row totals and flag.
    pub fn markov<const N: usize>(d: &MarkovDetector<N>) -> (&[u64], &[u64], bool) {
        (d.transition.as_flattened(), &d.row_totals, d.saturated)
    }

    /// A Markov model of these fields.
    pub fn markov_of<const N: usize>(transition: [[u64; N]; N], row_totals: [u64; N], saturated: bool) -> MarkovDetector<N> {
        MarkovDetector { transition, row_totals, saturated }
    }
}
