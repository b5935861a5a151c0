//! Little-endian numbers at a byte; the caller has made sure that they are there.

/// The 16-bit number at byte `at`.
pub fn u16_at(bytes: &[u8], at: usize) -> u32 {
    u32::from(bytes[at]) | u32::from(bytes[at + 1]) << 8
}

/// The 32-bit number at byte `at`.
pub fn u32_at(bytes: &[u8], at: usize) -> u32 {
    u16_at(bytes, at) | u16_at(bytes, at + 2) << 16
}
