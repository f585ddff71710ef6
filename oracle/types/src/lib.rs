//! Stand-in for the errors that the engine answers; their text is not part of what was ported.

/// An error of the engine.
#[derive(Debug, Clone, Copy, PartialEq, Eq)]
pub enum VsError {
    /// A definition's length is bad.
    BusError,
    /// An argument is bad.
    InvalidInput,
    /// There is no room, or no slot number.
    ResourceExhausted,
}
