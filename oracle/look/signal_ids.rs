
/// Appended by the oracle's build: reads what is private above, puts detectors into rows, and changes no code.
pub mod look {
    use super::{EwmaDetector, SignalDefinition, SignalIdsEngine};

    /// The slot, definition and detector of a live row.
    pub fn row(e: &SignalIdsEngine, i: usize) -> (u16, SignalDefinition, EwmaDetector) {
        (e.slot_map[i], e.definitions[i], e.detectors[i])
    }

    /// Puts a detector into a live row.
    pub fn put(e: &mut SignalIdsEngine, i: usize, detector: EwmaDetector) {
        e.detectors[i] = detector;
    }

    /// The same engine once more.
    pub fn copy(e: &SignalIdsEngine) -> SignalIdsEngine {
        SignalIdsEngine { ..*e }
    }
}
