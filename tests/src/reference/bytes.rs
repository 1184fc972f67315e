//! Big-endian numbers in buffers. Every reader is total: what lies past the end reads as zero.

/// The byte at an offset.
pub fn u8_at(bytes: &[u8], at: usize) -> u8 {
    bytes.get(at).copied().unwrap_or(0)
}

/// `N` bytes from an offset on, all zero if the buffer ends before.
pub fn array_at<const N: usize>(bytes: &[u8], at: usize) -> [u8; N] {
    let found = part(bytes, at, N).and_then(|part| part.try_into().ok());
    found.unwrap_or([0; N])
}

/// The two-byte number at an offset.
pub fn u16_at(bytes: &[u8], at: usize) -> u16 {
    u16::from_be_bytes(array_at(bytes, at))
}

/// The four-byte number at an offset.
pub fn u32_at(bytes: &[u8], at: usize) -> u32 {
    u32::from_be_bytes(array_at(bytes, at))
}

/// The four-byte value at an offset, two's complement.
pub fn i32_at(bytes: &[u8], at: usize) -> i32 {
    i32::from_be_bytes(array_at(bytes, at))
}

/// The part of `length` bytes from an offset on, if the buffer has it.
pub fn part(bytes: &[u8], at: usize, length: usize) -> Option<&[u8]> {
    bytes.get(at..at.checked_add(length)?)
}

/// Writes `source` at an offset; a source that does not fit is not written.
pub fn put(bytes: &mut [u8], at: usize, source: &[u8]) {
    let end = at.saturating_add(source.len());
    if let Some(target) = bytes.get_mut(at..end) {
        target.copy_from_slice(source);
    }
}
