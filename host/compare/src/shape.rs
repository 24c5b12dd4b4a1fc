//! Texture shapes: what document 01 allows of them, and random good ones.

use crate::numbers::{FORMATS, LONGEST_SIDE};
use crate::random::Random;

#[derive(Clone, Copy, Debug)]
pub struct Shape {
    pub format: u32,
    pub width: u32,
    pub height: u32,
    pub mips: u32,
    pub layers: u32,
    pub pitch: u32,
}

impl Shape {
    /// A good shape, small more often than not, whose pitch is the least or a little more.
    pub fn random(random: &mut Random) -> Shape {
        let mut side = || match random.within(0..=19) {
            0 => random.within(1..=u64::from(LONGEST_SIDE)),
            1..=3 => 1 << random.within(0..=6),
            _ => random.within(1..=24),
        } as u32;
        let (width, height) = (side(), side());
        let layers = if random.percent(80) {
            1
        } else {
            random.within(1..=6)
        } as u32;
        let mut shape = Shape {
            format: random.pick(&FORMATS),
            width,
            height,
            mips: 1,
            layers,
            pitch: 0,
        };
        shape.mips = random.edgy(1..=u64::from(shape.full_chain())) as u32;
        shape.pitch = shape.least_pitch() + random.pick(&[0, 0, 0, 1, 4, 13]);
        shape
    }

    /// The mips of the full chain: halvings of the larger side until 1, plus one.
    pub fn full_chain(&self) -> u32 {
        u32::BITS - self.width.max(self.height).leading_zeros()
    }

    /// The least pitch for mip 0; a side or a format that is not allowed gives some number.
    pub fn least_pitch(&self) -> u32 {
        let blocks = (self.width / 4).saturating_add((self.width % 4).min(1));
        match self.format {
            64 => blocks.saturating_mul(8),
            65 | 66 => blocks.saturating_mul(16),
            _ => self.width.saturating_mul(4),
        }
    }

    /// The bytes of a backed texture of this shape. It only says what to aim at: whether it is right, the comparison finds out.
    pub fn packed(&self) -> u64 {
        plain::packed_size(
            self.format,
            self.width,
            self.height,
            self.mips,
            self.layers,
            self.pitch,
        )
    }
}

#[cfg(test)]
mod tests {
    use super::Shape;
    use crate::random::Random;

    #[test]
    fn random_shapes_are_good_and_no_pitch_below_the_least_is() {
        let mut random = Random::new(3);
        for _ in 0..2_000 {
            let shape = Shape::random(&mut random);
            assert_ne!(shape.packed(), 0, "{:?}", shape);
            let mips = shape.full_chain();
            assert_ne!(Shape { mips, ..shape }.packed(), 0, "{:?}", shape);
            assert_eq!(
                Shape {
                    mips: mips + 1,
                    ..shape
                }
                .packed(),
                0,
                "{:?}",
                shape
            );
            let pitch = shape.least_pitch();
            assert_ne!(Shape { pitch, ..shape }.packed(), 0, "{:?}", shape);
            assert_eq!(
                Shape {
                    pitch: pitch - 1,
                    ..shape
                }
                .packed(),
                0,
                "{:?}",
                shape
            );
        }
    }
}
