//! Stand-in for the frame record, whose text is not part of what was ported.

/// A classic CAN frame or a CAN FD frame.
#[derive(Debug, Clone, Copy)]
pub struct CanFrame {
    /// The identifier as it came, unmasked.
    pub id: u32,
    /// Whether the identifier has 29 bits.
    pub is_extended: bool,
    /// Whether a classic frame asks for data and carries none. An FD frame is never remote, whatever stands here.
    pub is_remote: bool,
    /// Whether the frame is a CAN FD frame.
    pub is_fd: bool,
    /// The length field, a number of bytes.
    pub length: u8,
    /// The data bytes; a classic frame has at most the first eight.
    pub data: [u8; 64],
}

impl CanFrame {
    /// The number of data bytes that count: of an FD frame the length field, at most 64, of a classic one the length field, at most 8, and none of a remote one.
    pub fn payload_len(&self) -> usize {
        match self {
            CanFrame { is_fd: true, length, .. } => (*length as usize).min(64),
            CanFrame { is_remote: true, .. } => 0,
            CanFrame { length, .. } => (*length as usize).min(8),
        }
    }
}
