//! The state packets: viewport, clear, scissor and the target it is clipped
//! to. Floats are taken from their bits and judged as Rust compares them.

use crate::bytes::{f32_at, i32_at, u32_at, Field};
use crate::errors::Error;
use crate::packets::Record;
use crate::resources::Resource;
use crate::shapes::Shape;

const MAX_CLEAR_FLAGS: u32 = 7;

pub(crate) const KIND_SCISSOR: u32 = 4;

/// A viewport packet.
#[derive(Clone, Copy, Debug)]
pub(crate) struct Viewport {
    x: f32,
    y: f32,
    width: f32,
    height: f32,
    near: f32,
    far: f32,
}

impl Viewport {
    /// The named fields of a viewport.
    pub(crate) const FIELDS: &'static [Field] =
        &[(8, 4), (12, 4), (16, 4), (20, 4), (24, 4), (28, 4)];

    pub(crate) fn read(packet: &[u8]) -> Viewport {
        Viewport {
            x: f32_at(packet, 8),
            y: f32_at(packet, 12),
            width: f32_at(packet, 16),
            height: f32_at(packet, 20),
            near: f32_at(packet, 24),
            far: f32_at(packet, 28),
        }
    }

    /// Error 30 if the viewport is bad.
    pub(crate) fn check(&self) -> Result<(), Error> {
        let good = self.x.is_finite()
            && self.y.is_finite()
            && is_side(self.width)
            && is_side(self.height)
            && is_depth(self.near)
            && is_depth(self.far)
            && self.near <= self.far;
        state_error_unless(good)
    }
}

/// A clear packet. Its stencil may be any number and is not read.
#[derive(Clone, Copy, Debug)]
pub(crate) struct Clear {
    flags: u32,
    colour: [f32; 4],
    depth: f32,
}

impl Clear {
    /// The named fields of a clear, the stencil too.
    pub(crate) const FIELDS: &'static [Field] =
        &[(8, 4), (12, 4), (16, 4), (20, 4), (24, 4), (28, 4), (32, 4)];

    pub(crate) fn read(packet: &[u8]) -> Clear {
        Clear {
            flags: u32_at(packet, 8),
            colour: [
                f32_at(packet, 12),
                f32_at(packet, 16),
                f32_at(packet, 20),
                f32_at(packet, 24),
            ],
            depth: f32_at(packet, 28),
        }
    }

    /// Error 30 if the clear is bad; the flags excuse no float.
    pub(crate) fn check(&self) -> Result<(), Error> {
        let good = self.flags <= MAX_CLEAR_FLAGS
            && self.colour.iter().all(|part| part.is_finite())
            && is_depth(self.depth);
        state_error_unless(good)
    }
}

/// The target of a submission: the handle its packet gave, and the sides of
/// that texture's mip 0.
#[derive(Clone, Copy, Debug, PartialEq)]
pub(crate) struct Target {
    pub(crate) handle: u32,
    width: u32,
    height: u32,
}

impl Target {
    /// This resource as a target, if it is a texture.
    pub(crate) fn of(resource: &Resource) -> Option<Target> {
        match &resource.shape {
            Shape::Buffer { .. } => None,
            Shape::Texture(texture) => Some(Target {
                handle: resource.handle,
                width: texture.width,
                height: texture.height,
            }),
        }
    }
}

/// A scissor packet.
#[derive(Clone, Copy, Debug)]
pub(crate) struct Scissor {
    x: i32,
    y: i32,
    width: i32,
    height: i32,
}

impl Scissor {
    /// The named fields of a scissor.
    pub(crate) const FIELDS: &'static [Field] = &[(8, 4), (12, 4), (16, 4), (20, 4)];

    pub(crate) fn read(packet: &[u8]) -> Scissor {
        Scissor {
            x: i32_at(packet, 8),
            y: i32_at(packet, 12),
            width: i32_at(packet, 16),
            height: i32_at(packet, 20),
        }
    }

    /// Error 30 if a side is negative.
    pub(crate) fn check(&self) -> Result<(), Error> {
        state_error_unless(self.width >= 0 && self.height >= 0)
    }

    /// What the host gets of a good scissor: the part of it on the target,
    /// all 0 if that is empty.
    pub(crate) fn clip(&self, target: &Target) -> Record {
        let (left, width) = clip_side(self.x, self.width, target.width);
        let (top, height) = clip_side(self.y, self.height, target.height);
        let mut record = Record {
            kind: KIND_SCISSOR,
            ..Record::default()
        };
        if width > 0 && height > 0 {
            record.handle = left as u32;
            record.id = top as u32;
            record.gpa = width as u64;
            record.length = height as u64;
        }
        record
    }
}

/// The part within 0 to `limit` of the `side` pixels from `start`: its first
/// pixel and how many there are, 0 or less if none. No sum wraps.
fn clip_side(start: i32, side: i32, limit: u32) -> (i64, i64) {
    let start = i64::from(start);
    let end = start + i64::from(side);
    let first = start.max(0);
    (first, end.min(i64::from(limit)) - first)
}

/// Finite and above 0, which -0 is not.
fn is_side(value: f32) -> bool {
    value.is_finite() && value > 0.0
}

/// From 0 to 1, -0 too. No infinity and no NaN is.
fn is_depth(value: f32) -> bool {
    (0.0..=1.0).contains(&value)
}

fn state_error_unless(good: bool) -> Result<(), Error> {
    if good {
        Ok(())
    } else {
        Err(Error::State)
    }
}

#[cfg(test)]
mod tests {
    use super::*;

    /// Bit patterns from all over, and all of those around the edges.
    fn patterns() -> impl Iterator<Item = u32> {
        let edges = [0, 0x007F_FFFF, 0x3F80_0000, 0x7F80_0000, 0x7FC0_0000];
        let around = edges.into_iter().flat_map(|edge: u32| {
            (0..8).flat_map(move |by| [edge.wrapping_add(by), edge.wrapping_sub(by)])
        });
        let signed = around.flat_map(|bits| [bits, bits ^ 0x8000_0000]);
        (0..=u32::MAX).step_by(9973).chain(signed)
    }

    #[test]
    fn sides_and_depths_told_from_their_bits() {
        for bits in patterns() {
            let value = f32::from_bits(bits);
            let side = (1..0x7F80_0000).contains(&bits);
            assert_eq!(is_side(value), side, "{:#x}", bits);
            let depth = bits <= 0x3F80_0000 || bits == 0x8000_0000;
            assert_eq!(is_depth(value), depth, "{:#x}", bits);
        }
    }

    #[test]
    fn a_side_is_clipped_over_plain_whole_numbers() {
        for (start, side, expected) in [
            (i32::MIN, i32::MAX, (0, -1)),
            (i32::MIN + 1, i32::MAX, (0, 0)),
            (i32::MIN + 2, i32::MAX, (0, 1)),
            (0, i32::MAX, (0, 5)),
            (4, i32::MAX, (4, 1)),
            (
                i32::MAX,
                i32::MAX,
                (i64::from(i32::MAX), 5 - i64::from(i32::MAX)),
            ),
        ] {
            assert_eq!(clip_side(start, side, 5), expected);
        }
    }
}
