//! Little-endian fields of bytes: put, and read without trust in how many bytes there are.

/// Puts a field.
pub(super) fn put_field<const N: usize>(bytes: &mut [u8], at: usize, value: [u8; N]) {
    bytes[at..at + N].copy_from_slice(&value);
}

/// Puts a field of 32 bits.
pub(super) fn put_word(bytes: &mut [u8], at: usize, value: u32) {
    put_field(bytes, at, value.to_le_bytes());
}

/// Puts a field of 64 bits.
pub(super) fn put_long(bytes: &mut [u8], at: usize, value: u64) {
    put_field(bytes, at, value.to_le_bytes());
}

/// Bytes that somebody else has written. A field that does not lie within them is `None`.
#[derive(Clone, Copy)]
pub(super) struct Fields<'a>(pub(super) &'a [u8]);

impl<'a> Fields<'a> {
    /// So many bytes from a place on.
    pub(super) fn part(self, at: usize, size: usize) -> Option<&'a [u8]> {
        self.0.get(at..)?.get(..size)
    }

    /// A field of so many bytes.
    pub(super) fn field<const N: usize>(self, at: usize) -> Option<[u8; N]> {
        self.part(at, N)?.try_into().ok()
    }

    /// A field of 32 bits.
    pub(super) fn word(self, at: usize) -> Option<u32> {
        self.field(at).map(u32::from_le_bytes)
    }

    /// A field of 64 bits.
    pub(super) fn long(self, at: usize) -> Option<u64> {
        self.field(at).map(u64::from_le_bytes)
    }
}
