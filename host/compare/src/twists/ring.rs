//! Twists of the ring and of its registers: 10.

use super::frame::{some_version, wrong_magic};
use super::{broken, judged, kept, Aim};
use crate::image::RingHeader;
use crate::numbers::error::RING;
use crate::numbers::{DESCRIPTOR, MOST_SLOTS, RING_HEADER};
use crate::random::Random;

/// A ring as the registers and its header in memory tell it.
#[derive(Clone, Debug)]
pub struct Ring {
    pub gpa: u64,
    pub size: u32,
    pub header: RingHeader,
}

impl Ring {
    pub fn slot_at(&self, index: u32) -> u64 {
        let slot = index % self.header.count;
        self.gpa + u64::from(RING_HEADER) + u64::from(slot) * u64::from(self.header.stride)
    }
}

/// Changes a good ring with work, for a memory of the given length; none where the rule cannot be met.
pub type RingTwist = fn(&mut Random, &mut Ring, u64) -> Option<Aim>;

pub const TWISTS: &[RingTwist] = &[
    size,
    end,
    far_out,
    magic,
    version,
    count,
    count_and_wrap,
    stride,
    header_size,
    pending,
    pending_far,
];

/// A ring too short for its header, so close to the memory's end that reading the header would leave it.
fn size(random: &mut Random, ring: &mut Ring, memory: u64) -> Option<Aim> {
    ring.size = random.pick(&[0, 1, RING_HEADER - 1]);
    if random.coin() {
        ring.gpa = memory.checked_sub(ring.size.into())?;
    }
    broken("ring: size", RING)
}

/// A ring that could end with the memory is made one byte longer.
fn end(_: &mut Random, ring: &mut Ring, memory: u64) -> Option<Aim> {
    ring.size = u32::try_from(memory + 1 - ring.gpa).ok()?;
    broken("ring: end of the memory", RING)
}

fn far_out(random: &mut Random, ring: &mut Ring, memory: u64) -> Option<Aim> {
    let size = u64::from(ring.size);
    ring.gpa = random.pick(&[
        memory - size + 1,
        memory,
        1 << 32,
        ring.gpa + (1 << 32),
        u64::MAX,
        u64::MAX - size,
        u64::MAX - size + 1,
        u64::MAX - size + 2,
    ]);
    broken("ring: far out", RING)
}

fn magic(random: &mut Random, ring: &mut Ring, _: u64) -> Option<Aim> {
    ring.header.magic = wrong_magic(random, ring.header.magic);
    broken("ring: magic", RING)
}

fn version(random: &mut Random, ring: &mut Ring, _: u64) -> Option<Aim> {
    let (version, good) = some_version(random);
    ring.header.version = version;
    judged("ring: version", good, RING)
}

/// A smaller number of slots always fits, so that only the number itself is wrong; larger ones are tried where they fit.
fn count(random: &mut Random, ring: &mut Ring, _: u64) -> Option<Aim> {
    let fitting = (ring.header.size - RING_HEADER) / ring.header.stride;
    let wrong: Vec<u32> = [0, 3, 5, 6, 7, 12, 1023, MOST_SLOTS * 2]
        .iter()
        .copied()
        .filter(|&count| count <= fitting)
        .collect();
    ring.header.count = random.pick(&wrong);
    broken("ring: count", RING)
}

/// Counts and strides whose product passes the header's end, or only seems not to because 2^32 wraps.
fn count_and_wrap(random: &mut Random, ring: &mut Ring, _: u64) -> Option<Aim> {
    let (count, stride) = random.pick(&[
        (4, 1 << 30),
        (1024, 1 << 22),
        (2, 1 << 31),
        (1, u32::MAX),
        (64, 1 << 26),
    ]);
    ring.header.count = count;
    ring.header.stride = stride;
    broken("ring: slots past the header size", RING)
}

fn stride(random: &mut Random, ring: &mut Ring, _: u64) -> Option<Aim> {
    ring.header.stride = random.pick(&[0, 1, DESCRIPTOR - 1]);
    broken("ring: stride", RING)
}

fn header_size(random: &mut Random, ring: &mut Ring, _: u64) -> Option<Aim> {
    let (least, most) = (
        RING_HEADER + ring.header.count * ring.header.stride,
        ring.size,
    );
    let size = random.pick(&[0, least - 1, least, most, most + 1, u32::MAX]);
    ring.header.size = size;
    judged("ring: header size", (least..=most).contains(&size), RING)
}

fn pending(random: &mut Random, ring: &mut Ring, _: u64) -> Option<Aim> {
    let count = ring.header.count;
    if ring.header.tail.wrapping_sub(ring.header.head) == count && random.coin() {
        return kept("ring: pending");
    }
    ring.header.tail = ring.header.head.wrapping_add(count + 1);
    broken("ring: pending", RING)
}

fn pending_far(random: &mut Random, ring: &mut Ring, _: u64) -> Option<Aim> {
    ring.header.tail = ring.header.head.wrapping_sub(random.pick(&[1, 2, 1 << 31]));
    broken("ring: tail behind the head", RING)
}
