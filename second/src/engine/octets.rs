//! Big-endian numbers at a place of a run of octets.

/// The unsigned number in the `width` octets (at most eight) from `at` on.
pub fn number_at(octets: &[u8], at: usize, width: usize) -> u64 {
    octets[at..at + width]
        .iter()
        .fold(0, |value, &octet| value << 8 | u64::from(octet))
}

/// The 16-bit number at `at`.
pub fn u16_at(octets: &[u8], at: usize) -> u16 {
    number_at(octets, at, 2) as u16
}

/// The 32-bit number at `at`.
pub fn u32_at(octets: &[u8], at: usize) -> u32 {
    number_at(octets, at, 4) as u32
}

/// The 64-bit number at `at`.
pub fn u64_at(octets: &[u8], at: usize) -> u64 {
    number_at(octets, at, 8)
}

/// Puts the lowest `width` octets of a number behind those already there.
pub fn push_number(octets: &mut Vec<u8>, value: u64, width: usize) {
    octets.extend_from_slice(&value.to_be_bytes()[8 - width..]);
}
