//! Little-endian fields, halves, versions, and ranges of guest memory.

/// A named field of a layout: its offset from the layout's first byte, and its
/// width in bytes.
pub type Field = (usize, usize);

/// The u32 field at byte `at`.
pub(crate) fn u32_at(bytes: &[u8], at: usize) -> u32 {
    let mut field = [0; 4];
    field.copy_from_slice(&bytes[at..at + 4]);
    u32::from_le_bytes(field)
}

/// The u64 field at byte `at`.
pub(crate) fn u64_at(bytes: &[u8], at: usize) -> u64 {
    let mut field = [0; 8];
    field.copy_from_slice(&bytes[at..at + 8]);
    u64::from_le_bytes(field)
}

/// The i32 field at byte `at`, in two's complement.
pub(crate) fn i32_at(bytes: &[u8], at: usize) -> i32 {
    u32_at(bytes, at) as i32
}

/// The f32 field at byte `at`, taken from its bits.
pub(crate) fn f32_at(bytes: &[u8], at: usize) -> f32 {
    f32::from_bits(u32_at(bytes, at))
}

/// Writes the u32 field at byte `at`.
pub(crate) fn put_u32(bytes: &mut [u8], at: usize, value: u32) {
    bytes[at..at + 4].copy_from_slice(&value.to_le_bytes());
}

/// Writes the u64 field at byte `at`.
pub(crate) fn put_u64(bytes: &mut [u8], at: usize, value: u64) {
    bytes[at..at + 8].copy_from_slice(&value.to_le_bytes());
}

/// The low half.
pub(crate) fn low(value: u64) -> u32 {
    value as u32
}

/// The high half.
pub(crate) fn high(value: u64) -> u32 {
    (value >> 32) as u32
}

/// The number of these halves.
pub(crate) fn whole(low: u32, high: u32) -> u64 {
    u64::from(high) << 32 | u64::from(low)
}

/// A version is good when its major is 1; any minor passes.
pub(crate) fn good_version(version: u32) -> bool {
    version >> 16 == 1
}

/// Whether `start + size` is at most `limit`, over plain whole numbers.
pub(crate) fn fits(start: u64, size: u64, limit: u64) -> bool {
    match start.checked_add(size) {
        Some(end) => end <= limit,
        None => false,
    }
}

/// The length of a slice as a u64.
pub(crate) fn length(bytes: &[u8]) -> u64 {
    bytes.len() as u64
}

/// The part of memory from `gpa`, `size` bytes long. The caller has checked
/// that it lies within memory.
pub(crate) fn part(mem: &[u8], gpa: u64, size: u64) -> &[u8] {
    &mem[gpa as usize..(gpa + size) as usize]
}

/// As [`part`], to write to.
pub(crate) fn part_mut(mem: &mut [u8], gpa: u64, size: u64) -> &mut [u8] {
    &mut mem[gpa as usize..(gpa + size) as usize]
}
