//! Shapes: buffers and textures, and the packed size of a texture.

const MAX_SIDE: u32 = 16_384;
const MAX_LAYERS: u32 = 256;

/// How a format packs pixels: square blocks of `side` pixels, `bytes` each.
#[derive(Clone, Copy, Debug)]
struct Block {
    side: u32,
    bytes: u32,
}

impl Block {
    fn of(format: u32) -> Option<Block> {
        match format {
            1..=3 => Some(Block { side: 1, bytes: 4 }),
            64 => Some(Block { side: 4, bytes: 8 }),
            65 | 66 => Some(Block { side: 4, bytes: 16 }),
            _ => None,
        }
    }

    /// How many blocks cover `side` pixels.
    fn count(self, side: u32) -> u64 {
        u64::from((side + self.side - 1) / self.side)
    }

    /// The bytes of a tight row of `width` pixels.
    fn row(self, width: u32) -> u64 {
        self.count(width) * u64::from(self.bytes)
    }
}

/// A texture's shape, with the pitch of its mip 0.
#[derive(Clone, Copy, Debug, PartialEq)]
pub(crate) struct Texture {
    pub(crate) format: u32,
    pub(crate) width: u32,
    pub(crate) height: u32,
    pub(crate) mips: u32,
    pub(crate) layers: u32,
    pub(crate) pitch: u32,
}

impl Texture {
    /// The packed size, or nothing if the shape, judged as backed, is bad.
    fn packed(&self) -> Option<u64> {
        let block = self.checked_block()?;
        if u64::from(self.pitch) < block.row(self.width) {
            return None;
        }
        let layer: u64 = (0..self.mips).map(|mip| self.mip_bytes(block, mip)).sum();
        Some(layer * u64::from(self.layers))
    }

    /// The format's block if the shape is good, whatever the pitch.
    fn checked_block(&self) -> Option<Block> {
        let block = Block::of(self.format)?;
        let good = is_side(self.width)
            && is_side(self.height)
            && is_mip_count(self.mips, self.width, self.height)
            && is_layer_count(self.layers);
        if good {
            Some(block)
        } else {
            None
        }
    }

    /// The bytes of one mip of one layer: mip 0 uses the pitch, others are
    /// tight.
    fn mip_bytes(&self, block: Block, mip: u32) -> u64 {
        let row = if mip == 0 {
            u64::from(self.pitch)
        } else {
            block.row(mip_side(self.width, mip))
        };
        row * block.count(mip_side(self.height, mip))
    }
}

/// Whether textures have such a format.
pub(crate) fn is_format(format: u32) -> bool {
    Block::of(format).is_some()
}

/// Whether a texture may be so wide or so high.
pub(crate) fn is_side(side: u32) -> bool {
    (1..=MAX_SIDE).contains(&side)
}

/// Whether a texture with these sides may have so many mips.
pub(crate) fn is_mip_count(mips: u32, width: u32, height: u32) -> bool {
    (1..=full_chain(width.max(height))).contains(&mips)
}

/// Whether a texture may have so many layers.
pub(crate) fn is_layer_count(layers: u32) -> bool {
    (1..=MAX_LAYERS).contains(&layers)
}

fn mip_side(side: u32, mip: u32) -> u32 {
    (side >> mip).max(1)
}

/// The halvings of `side` until 1, plus one.
fn full_chain(side: u32) -> u32 {
    32 - side.leading_zeros()
}

/// What a resource is.
#[derive(Clone, Copy, Debug, PartialEq)]
pub(crate) enum Shape {
    Buffer { size: u64 },
    Texture(Texture),
}

impl Shape {
    /// The bytes of a backed resource, or nothing if the shape is bad.
    pub(crate) fn backed_bytes(&self) -> Option<u64> {
        match self {
            Shape::Buffer { size } => Some(*size).filter(|size| *size != 0),
            Shape::Texture(texture) => texture.packed(),
        }
    }

    /// The bytes of a host-backed resource, or nothing if the shape is bad.
    /// No rule asks for those of a texture, which has no pitch; it has 0.
    pub(crate) fn host_bytes(&self) -> Option<u64> {
        match self {
            Shape::Buffer { .. } => self.backed_bytes(),
            Shape::Texture(texture) => texture.checked_block().map(|_| 0),
        }
    }

    /// Whether it is a texture of one mip and one layer.
    pub(crate) fn is_one_image(&self) -> bool {
        match self {
            Shape::Buffer { .. } => false,
            Shape::Texture(texture) => texture.mips == 1 && texture.layers == 1,
        }
    }

    /// The same shape with the pitch kept as 0.
    pub(crate) fn without_pitch(self) -> Shape {
        match self {
            Shape::Buffer { .. } => self,
            Shape::Texture(texture) => Shape::Texture(Texture {
                pitch: 0,
                ..texture
            }),
        }
    }
}

/// A texture's packed size; 0 means a bad shape, judged as backed.
pub fn packed_size(
    format: u32,
    width: u32,
    height: u32,
    mips: u32,
    layers: u32,
    pitch: u32,
) -> u64 {
    let texture = Texture {
        format,
        width,
        height,
        mips,
        layers,
        pitch,
    };
    texture.packed().unwrap_or(0)
}

#[cfg(test)]
mod tests {
    use super::*;

    /// Where image `index` starts: layers outermost, no padding.
    fn image_offset(texture: &Texture, index: u32) -> u64 {
        let block = texture.checked_block().unwrap();
        let layer_bytes = texture.packed().unwrap() / u64::from(texture.layers);
        let (layer, mip) = (index / texture.mips, index % texture.mips);
        let before: u64 = (0..mip).map(|m| texture.mip_bytes(block, m)).sum();
        u64::from(layer) * layer_bytes + before
    }

    #[test]
    fn mip_1_of_layer_1_is_index_4_at_132() {
        let texture = Texture {
            format: 1,
            width: 5,
            height: 3,
            mips: 3,
            layers: 2,
            pitch: 20,
        };
        assert_eq!(texture.packed(), Some(144));
        assert_eq!(image_offset(&texture, 4), 132);
    }

    #[test]
    fn the_full_chain_counts_halvings() {
        for (side, chain) in [(1, 1), (2, 2), (3, 2), (4, 3), (5, 3), (16_384, 15)] {
            assert_eq!(full_chain(side), chain, "side {}", side);
        }
    }

    #[test]
    fn host_backed_textures_ignore_the_pitch() {
        let texture = Texture {
            format: 65,
            width: 8,
            height: 8,
            mips: 1,
            layers: 1,
            pitch: 31,
        };
        let shape = Shape::Texture(texture);
        assert_eq!(shape.backed_bytes(), None);
        assert_eq!(shape.host_bytes(), Some(0));
        let kept = Shape::Texture(Texture {
            pitch: 0,
            ..texture
        });
        assert_eq!(shape.without_pitch(), kept);
    }
}
