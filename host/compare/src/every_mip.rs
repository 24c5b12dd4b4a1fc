//! What the benchmark holds the packed size against: a sum over every mip of every layer, as document 01 has it, and no multiplication.

use crate::numbers::{LONGEST_SIDE, MOST_LAYERS};
use crate::shape::Shape;

/// A texture's packed size, 0 for a bad shape.
#[inline(never)]
pub fn packed_size(shape: Shape) -> u64 {
    if !is_good(&shape) {
        return 0;
    }
    let mut bytes = 0;
    for _layer in 0..shape.layers {
        for mip in 0..shape.mips {
            bytes += bytes_of_mip(&shape, mip);
        }
    }
    bytes
}

/// As a backed texture.
fn is_good(shape: &Shape) -> bool {
    let sides = 1..=LONGEST_SIDE;
    block(shape.format).1 > 0
        && sides.contains(&shape.width)
        && sides.contains(&shape.height)
        && (1..=shape.full_chain()).contains(&shape.mips)
        && (1..=MOST_LAYERS).contains(&shape.layers)
        && u64::from(shape.pitch) >= tight_row(shape, 0)
}

/// The side of a format's blocks in pixels, and the bytes of one; an unknown format's have none.
fn block(format: u32) -> (u32, u64) {
    match format {
        1..=3 => (1, 4),
        64 => (4, 8),
        65 | 66 => (4, 16),
        _ => (1, 0),
    }
}

/// How many blocks a side has at a mip.
fn blocks(format: u32, side: u32, mip: u32) -> u64 {
    let (across, _) = block(format);
    let side = (side >> mip).max(1);
    u64::from((side + across - 1) / across)
}

fn tight_row(shape: &Shape, mip: u32) -> u64 {
    blocks(shape.format, shape.width, mip) * block(shape.format).1
}

/// Mip 0 has the pitch, the others are tight.
fn bytes_of_mip(shape: &Shape, mip: u32) -> u64 {
    let row = match mip {
        0 => u64::from(shape.pitch),
        _ => tight_row(shape, mip),
    };
    row * blocks(shape.format, shape.height, mip)
}

#[cfg(test)]
mod tests {
    use super::packed_size;
    use crate::exports::some_shape;
    use crate::front::Front;
    use crate::random::Random;
    use crate::shape::Shape;

    /// Whether the shape is good.
    fn check(shape: Shape) -> bool {
        let bytes = packed_size(shape);
        assert_eq!(bytes, zelezmut::Desk::packed_size(shape), "{:?}", shape);
        assert_eq!(bytes, plain::Desk::packed_size(shape), "{:?}", shape);
        bytes != 0
    }

    /// One either side of every rule.
    #[test]
    fn every_mip_of_every_layer_adds_up_to_the_packed_size() {
        let sides = [0, 1, 2, 3, 5, 16, 100, 16_383, 16_384, 16_385];
        let (mut good, mut bad) = (0, 0);
        for format in [0, 1, 2, 3, 4, 63, 64, 65, 66, 67] {
            for (width, height) in sides
                .iter()
                .flat_map(|&width| sides.map(|height| (width, height)))
            {
                let shape = Shape {
                    format,
                    width,
                    height,
                    mips: 1,
                    layers: 1,
                    pitch: 0,
                };
                let (chain, least) = (shape.full_chain(), shape.least_pitch());
                for mips in [0, 1, chain, chain + 1] {
                    for layers in [0, 1, 2, 7, 255, 256, 257] {
                        for pitch in [least.wrapping_sub(1), least, least + 9, u32::MAX] {
                            let shape = Shape {
                                mips,
                                layers,
                                pitch,
                                ..shape
                            };
                            *if check(shape) { &mut good } else { &mut bad } += 1;
                        }
                    }
                }
            }
        }
        assert!(good > 10_000 && bad > 10_000, "{} {}", good, bad);
    }

    #[test]
    fn and_so_it_does_of_random_shapes() {
        let mut random = Random::new(4);
        for _ in 0..20_000 {
            check(some_shape(&mut random));
        }
    }
}
