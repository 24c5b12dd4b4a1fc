//! Streams of 60 KiB to be listed, again and again.

use crate::host::Host;
use crate::image::Stream;
use crate::numbers::STREAM_HEADER;
use crate::packet::{self, Backing, Clear, Copying, Scissor};
use crate::random::Random;
use crate::shape::Shape;

const STREAM: usize = 60 * 1024;

/// What a stream consists of: as many packets as fit.
#[derive(Clone, Copy, Debug, PartialEq, Eq)]
pub enum Listing {
    /// Packets of an unknown opcode, 8 bytes each.
    Unknown,
    /// Targets, 16 bytes each.
    Target,
    /// Viewports, 32 bytes each.
    Viewport,
    /// Clears, 36 bytes each.
    Clear,
    /// Creates of buffers, 40 bytes each.
    Create,
    /// One of each known packet and an unknown one, in turn.
    Mixed,
}

pub const LISTINGS: [Listing; 6] = [
    Listing::Unknown,
    Listing::Target,
    Listing::Viewport,
    Listing::Clear,
    Listing::Create,
    Listing::Mixed,
];

impl Listing {
    pub fn key(self) -> &'static str {
        match self {
            Listing::Unknown => "list-unknown",
            Listing::Target => "list-target",
            Listing::Viewport => "list-viewport",
            Listing::Clear => "list-clear",
            Listing::Create => "list-create",
            Listing::Mixed => "list-mixed",
        }
    }

    /// What exactly is listed.
    pub fn input(self) -> String {
        let packets = match self {
            Listing::Unknown => "packets of an unknown opcode, 8 bytes each",
            Listing::Target => "target packets, 16 bytes each",
            Listing::Viewport => "viewports, 32 bytes each",
            Listing::Clear => "clears, 36 bytes each",
            Listing::Create => "creates of buffers, 40 bytes each",
            Listing::Mixed => "packets, one of each known kind and an unknown one in turn",
        };
        format!(
            "a stream of 60 KiB, {} {}",
            Listings::new(self).packets,
            packets
        )
    }

    fn packet(self, random: &mut Random, i: usize) -> Vec<u8> {
        let makers = match self {
            Listing::Unknown => &MAKERS[..1],
            Listing::Target => &MAKERS[1..2],
            Listing::Viewport => &MAKERS[2..3],
            Listing::Clear => &MAKERS[3..4],
            Listing::Create => &MAKERS[4..5],
            Listing::Mixed => &MAKERS[..],
        };
        makers[i % makers.len()](random)
    }
}

type Maker = fn(&mut Random) -> Vec<u8>;

/// Packets as a driver writes them: small handles, sizes of some digits, floats of any bits that such numbers have.
const MAKERS: [Maker; 13] = [
    |random| packet::any(random, 1537, 8),
    |random| {
        let handle = handle(random);
        packet::target(random, handle)
    },
    |random| {
        let viewport = [(); 6].map(|()| float(random));
        packet::viewport(random, viewport)
    },
    |random| {
        let clear = Clear {
            flags: random.within(0..=7) as u32,
            colour: [(); 4].map(|()| float(random)),
            depth: float(random),
            stencil: random.within(0..=255) as u32,
        };
        packet::clear(random, clear)
    },
    |random| {
        let (handle, size, backing) = (handle(random), size(random), backing(random));
        packet::create_buffer(random, handle, size, backing)
    },
    |random| {
        let (handle, shape, backing) = (handle(random), Shape::random(random), backing(random));
        packet::create_texture(random, handle, shape, backing)
    },
    |random| {
        let handle = handle(random);
        packet::destroy(random, handle)
    },
    |random| {
        let (handle, offset, size) = (handle(random), size(random), size(random));
        packet::dirty(random, handle, offset, size)
    },
    |random| {
        let copying = Copying {
            to: handle(random),
            from: handle(random),
            to_offset: size(random),
            from_offset: size(random),
            size: size(random),
            flags: random.within(0..=1) as u32,
        };
        packet::copy(random, copying)
    },
    |random| {
        let [x, y] = [(); 2].map(|()| random.within(0..=4096) as i32 - 2048);
        let [width, height] = [(); 2].map(|()| random.within(0..=4096) as i32);
        let scissor = Scissor {
            x,
            y,
            width,
            height,
        };
        packet::scissor(random, scissor)
    },
    |random| {
        let (handle, token) = (handle(random), random.word64());
        packet::export(random, handle, token)
    },
    |random| {
        let (handle, token) = (handle(random), random.word64());
        packet::import(random, handle, token)
    },
    |random| {
        let token = random.word64();
        packet::release(random, token)
    },
];

fn handle(random: &mut Random) -> u32 {
    random.within(1..=64) as u32
}

fn size(random: &mut Random) -> u64 {
    random.within(0..=1 << 20)
}

fn backing(random: &mut Random) -> Backing {
    Backing {
        id: random.within(0..=64) as u32,
        offset: random.within(0..=1 << 16) as u32,
    }
}

fn float(random: &mut Random) -> u32 {
    (random.within(0..=4096) as f32 / 4096.0).to_bits()
}

/// A stream made ready to be listed.
pub struct Listings {
    pub stream: Vec<u8>,
    pub packets: u64,
}

impl Listings {
    pub fn new(listing: Listing) -> Listings {
        let mut random = Random::new(1);
        let mut packets = Vec::new();
        let mut room = STREAM - STREAM_HEADER as usize;
        loop {
            let packet = listing.packet(&mut random, packets.len());
            match room.checked_sub(packet.len()) {
                Some(left) => room = left,
                None => break,
            }
            packets.push(packet);
        }
        Listings {
            packets: packets.len() as u64,
            stream: Stream::new(packets).bytes(&mut random),
        }
    }

    /// Lists in the rounds that are marked: the sum of the lengths.
    pub fn play<F: Host>(&self, rounds: &[bool]) -> u64 {
        let mut sum = 0;
        for &marked in rounds {
            if marked {
                sum += F::listed(&self.stream) as u64;
            }
        }
        sum
    }
}

#[cfg(test)]
mod tests {
    use super::{Listings, LISTINGS};

    #[test]
    fn the_streams_are_as_long_as_they_are_said_to_be() {
        let packets = LISTINGS.map(|listing| Listings::new(listing).packets);
        assert_eq!(packets, [7_677, 3_838, 1_919, 1_706, 1_535, 2_147]);
        for listing in LISTINGS {
            let left = 60 * 1024 - Listings::new(listing).stream.len();
            assert!(left < 56, "{:?}: {}", listing, left);
        }
    }
}
