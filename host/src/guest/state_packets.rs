//! The fields of the packets that say how to draw: viewport, scissor and clear.
use super::fields::put_word;

/// A viewport's fields, floats as their bits have them. The front passes finite ones alone.
#[derive(Clone, Copy, Debug, PartialEq)]
pub struct Viewport {
    /// Where it starts from the left.
    pub x: f32,
    /// Where it starts from the top.
    pub y: f32,
    /// Above 0.
    pub width: f32,
    /// Above 0.
    pub height: f32,
    /// The least depth: from 0 to 1, and not above `far`.
    pub near: f32,
    /// The largest depth: from 0 to 1.
    pub far: f32,
}

impl Viewport {
    fn floats(&self) -> [f32; 6] {
        [self.x, self.y, self.width, self.height, self.near, self.far]
    }

    pub(super) fn put(&self, bytes: &mut [u8], at: usize) {
        put_words(bytes, at, self.floats().map(f32::to_bits));
    }

    pub(super) fn has_nan(&self) -> bool {
        self.floats().iter().any(|float| float.is_nan())
    }
}

/// A scissor's fields: pixels of the target, whose first column and row are 0. Its corner may lie anywhere; what lies on the target is
/// the scissor's record.
#[derive(Clone, Copy, Debug, PartialEq, Eq)]
pub struct Scissor {
    /// Its first column.
    pub x: i32,
    /// Its first row.
    pub y: i32,
    /// Its columns, not negative.
    pub width: i32,
    /// Its rows, not negative.
    pub height: i32,
}

impl Scissor {
    pub(super) fn put(&self, bytes: &mut [u8], at: usize) {
        let fields = [self.x, self.y, self.width, self.height];
        put_words(bytes, at, fields.map(|field| field as u32));
    }
}

/// A clear's fields, floats as their bits have them. The front passes finite ones alone, whatever the flags say.
#[derive(Clone, Copy, Debug, PartialEq)]
pub struct Clear {
    /// Three bits: 0 to 7.
    pub flags: u32,
    /// Red, green, blue and alpha.
    pub colour: [f32; 4],
    /// From 0 to 1.
    pub depth: f32,
    /// Any number.
    pub stencil: u32,
}

impl Clear {
    pub(super) fn put(&self, bytes: &mut [u8], at: usize) {
        let [red, green, blue, alpha] = self.colour.map(f32::to_bits);
        let depth = self.depth.to_bits();
        let fields = [self.flags, red, green, blue, alpha, depth, self.stencil];
        put_words(bytes, at, fields);
    }

    pub(super) fn has_nan(&self) -> bool {
        self.depth.is_nan() || self.colour.iter().any(|part| part.is_nan())
    }
}

/// Puts fields of 32 bits, one behind the other.
pub(super) fn put_words<const N: usize>(bytes: &mut [u8], at: usize, values: [u32; N]) {
    for (field, value) in bytes[at..].chunks_exact_mut(4).zip(values) {
        put_word(field, 0, value);
    }
}
