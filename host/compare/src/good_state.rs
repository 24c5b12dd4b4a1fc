//! Random state packets that a submission being written is believed to pass with: target, viewport, scissor, clear.

use crate::draft::{Draft, Resource};
use crate::floats::{self, Asked};
use crate::numbers::{LONGEST_SIDE, MOST_CLEAR_FLAGS, MOST_RECORDS};
use crate::packet::{Clear, Scissor, Viewport};
use crate::random::Random;

impl Draft<'_> {
    /// One of the four, scissors more often than the others.
    pub fn any_state_packet(&mut self) -> Option<()> {
        match self.random.within(0..=4) {
            0 => self.any_target().map(drop),
            1 => self.any_viewport(),
            2 => self.any_clear(),
            _ => self.any_scissor(),
        }
    }

    /// A live texture becomes the target.
    pub fn any_target(&mut self) -> Option<Resource> {
        let texture = self.find(|_, resource| resource.texture)?;
        self.set_target(texture.handle);
        Some(texture)
    }

    pub fn any_viewport(&mut self) -> Option<()> {
        let viewport = some_viewport(self.random);
        self.viewport(viewport);
        Some(())
    }

    /// A scissor of the target, if there is one and room for the record.
    pub fn any_scissor(&mut self) -> Option<()> {
        let target = self.target.filter(|_| self.records < MOST_RECORDS)?;
        let scissor = some_scissor(self.random, target);
        self.scissor(scissor);
        Some(())
    }

    pub fn any_clear(&mut self) -> Option<()> {
        let clear = some_clear(self.random);
        self.clear(clear);
        Some(())
    }
}

/// A good viewport.
pub fn some_viewport(random: &mut Random) -> Viewport {
    let [x, y] = [(); 2].map(|()| Asked::Finite.some(random));
    let [width, height] = [(); 2].map(|()| Asked::Side.some(random));
    let [one, other] = [(); 2].map(|()| Asked::Depth.some(random));
    if f32::from_bits(one) <= f32::from_bits(other) {
        [x, y, width, height, one, other]
    } else {
        [x, y, width, height, other, one]
    }
}

/// A good clear.
pub fn some_clear(random: &mut Random) -> Clear {
    Clear {
        flags: random.edgy(0..=MOST_CLEAR_FLAGS.into()) as u32,
        colour: [(); 4].map(|()| Asked::Finite.some(random)),
        depth: Asked::Depth.some(random),
        stencil: floats::any(random),
    }
}

/// A scissor that is good for any target, about the size of this one.
pub fn some_scissor(random: &mut Random, target: Resource) -> Scissor {
    let (x, width) = some_span(random, target.width);
    let (y, height) = some_span(random, target.height);
    Scissor {
        x,
        y,
        width,
        height,
    }
}

/// Where a scissor begins along a side of so many pixels, and how long it is there. It leaves something more often than not.
fn some_span(random: &mut Random, side: u32) -> (i32, i32) {
    let side = u64::from(side.clamp(1, LONGEST_SIDE));
    if random.percent(60) {
        let (start, length) = (random.within(0..=side - 1), random.within(1..=2 * side));
        return (start as i32, length as i32);
    }
    let start = match random.within(0..=5) {
        0 => random.pick(&[i32::MIN, i32::MIN + 1, i32::MAX]),
        1 => random.word() as i32,
        2 => -(random.within(0..=side + 2) as i32),
        _ => random.edgy(0..=side) as i32,
    };
    let length = match random.within(0..=5) {
        0 => random.pick(&[0, 1, i32::MAX]),
        1 => (random.word() >> 1) as i32,
        // Up to 0, or a pixel or two further.
        2 => {
            let reach = start.saturating_neg().max(0);
            reach.saturating_add(random.within(0..=2) as i32)
        }
        _ => random.edgy(0..=2 * side) as i32,
    };
    (start, length)
}

#[cfg(test)]
mod tests {
    use super::*;

    #[test]
    fn what_is_believed_to_be_good_keeps_the_rules() {
        let mut random = Random::new(7);
        for _ in 0..2_000 {
            let [x, y, width, height, near, far] = some_viewport(&mut random);
            assert!(Asked::Finite.fits(x) && Asked::Finite.fits(y));
            assert!(Asked::Side.fits(width) && Asked::Side.fits(height));
            assert!(Asked::Depth.fits(near) && Asked::Depth.fits(far));
            assert!(f32::from_bits(near) <= f32::from_bits(far));
            let clear = some_clear(&mut random);
            assert!(clear.flags <= MOST_CLEAR_FLAGS && Asked::Depth.fits(clear.depth));
            assert!(clear.colour.iter().all(|&part| Asked::Finite.fits(part)));
            let (_, length) = some_span(&mut random, 5);
            assert!(length >= 0);
        }
    }
}
