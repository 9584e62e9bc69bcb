//! Big-endian numbers in octet strings.

/// The 16-bit number at `at`.
pub fn be16(octets: &[u8], at: usize) -> u16 {
    u16::from_be_bytes([octets[at], octets[at + 1]])
}

/// The 32-bit number at `at`.
pub fn be32(octets: &[u8], at: usize) -> u32 {
    u32::from_be_bytes(array(octets, at))
}

/// The 64-bit number at `at`.
pub fn be64(octets: &[u8], at: usize) -> u64 {
    u64::from_be_bytes(array(octets, at))
}

/// `N` octets starting at `at`, copied.
pub fn array<const N: usize>(octets: &[u8], at: usize) -> [u8; N] {
    let mut copy = [0; N];
    copy.copy_from_slice(&octets[at..at + N]);
    copy
}
