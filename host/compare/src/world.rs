//! The guest's world: its memory, ring, fence page and the entries that its tables usually have, mostly good from the start.

use crate::event::Event;
use crate::floor::Floor;
use crate::image::{flags, Entry, RingHeader};
use crate::numbers::{FENCE_PAGE, MOST_ENTRIES, MOST_SLOTS, RING_HEAD, RING_HEADER};
use crate::random::Random;
use crate::twists::ring::Ring;

/// How much goes on in a desk, and so how large its memory is.
#[derive(Clone, Copy, Debug, PartialEq, Eq)]
pub enum Scale {
    /// Hardly a ring fits.
    Tiny,
    Small,
    /// There is room to meet the limits of 64.
    Full,
    /// There is room to meet the limit of 256 tokens.
    Shared,
    /// The largest memory that a desk script can have.
    Long,
    /// The longest ring, which no desk script's memory can hold.
    Wide,
}

impl Scale {
    fn random(random: &mut Random) -> Scale {
        match random.within(0..=999) {
            0..=24 => Scale::Tiny,
            25..=659 => Scale::Small,
            660..=909 => Scale::Full,
            910..=949 => Scale::Shared,
            950..=989 => Scale::Long,
            _ => Scale::Wide,
        }
    }

    fn memory(self, random: &mut Random) -> u64 {
        match self {
            Scale::Tiny => random.within(0..=400),
            Scale::Small => random.within(1_500..=5_000),
            Scale::Full => random.within(9_000..=14_000),
            Scale::Shared => random.within(22_000..=30_000),
            Scale::Long => 65_536 - random.pick(&[0, 0, 1, 7]),
            Scale::Wide => {
                u64::from(RING_HEADER + 2 * MOST_SLOTS * 64) + random.within(2_000..=5_000)
            }
        }
    }

    /// How many bytes of packets a stream has at most, to begin with.
    pub fn stream_room(self) -> usize {
        match self {
            Scale::Tiny => 60,
            Scale::Small | Scale::Wide => 700,
            Scale::Full => 5_000,
            Scale::Shared => 8_000,
            Scale::Long => 24_000,
        }
    }
}

pub struct World {
    pub scale: Scale,
    pub memory: u64,
    pub ring: Ring,
    /// The fence page's GPA, 0 for none.
    pub fence: u64,
    /// The ring and the fence page are taken.
    pub floor: Floor,
    /// Where the fence page is written, something of the guest's may lie.
    pub fence_overlaps: bool,
    pub usual_entries: Vec<Entry>,
}

impl World {
    pub fn random(random: &mut Random) -> World {
        let scale = Scale::random(random);
        let memory = scale.memory(random);
        let ring = some_ring(random, scale, memory);
        let mut floor = Floor::new(memory);
        floor.take(ring.gpa, ring.size.into());
        let (fence, fence_overlaps) = some_fence(random, &ring, memory, &mut floor);
        let usual_entries = some_entries(random, scale, memory);
        World {
            scale,
            memory,
            ring,
            fence,
            floor,
            fence_overlaps,
            usual_entries,
        }
    }

    /// What is out of the ordinary about it.
    pub fn events(&self) -> Vec<Event> {
        let page = u64::from(FENCE_PAGE);
        let ring_end = self.ring.gpa + u64::from(self.ring.size);
        let fence_end = self.fence.checked_add(page);
        let over_ring = fence_end.map_or(false, |end| self.fence < ring_end && end > self.ring.gpa);
        let told = [
            (self.fence == 0, Event::NoFencePage),
            (fence_end == Some(self.memory), Event::FencePageAtTheEnd),
            (
                fence_end.map_or(true, |end| end > self.memory),
                Event::FencePageOutside,
            ),
            (over_ring, Event::FencePageOverRing),
            (ring_end == self.memory, Event::RingAtTheEnd),
            (ring_end > self.memory, Event::RingTooLong),
            (self.ring.header.count == MOST_SLOTS, Event::LongestRing),
            (self.usual_entries.len() == MOST_ENTRIES, Event::FullTable),
        ];
        told.iter()
            .filter(|(is_so, _)| *is_so)
            .map(|(_, event)| *event)
            .collect()
    }
}

fn some_ring(random: &mut Random, scale: Scale, memory: u64) -> Ring {
    let (count, stride) = match scale {
        Scale::Tiny => (1, 64),
        Scale::Wide => (MOST_SLOTS, 64),
        Scale::Long => (random.pick(&[1, 8, 128, 256]), 64),
        _ => (
            random.pick(&[1, 2, 2, 4, 4, 8, 16]),
            random.pick(&[64, 64, 65, 67, 72, 128]),
        ),
    };
    let head = match random.within(0..=3) {
        0 => 0,
        1 => u32::MAX - random.within(0..=3) as u32,
        _ => random.word(),
    };
    let mut header = RingHeader::new(count, stride, head);
    match scale {
        Scale::Tiny => {}
        // So large that twice the slots would fit.
        Scale::Wide => header.size += MOST_SLOTS * stride,
        _ => header.size += random.pick(&[0, 0, 1, stride]),
    }
    let size = header.size
        + if scale == Scale::Small {
            random.pick(&[0, 0, 1, 30])
        } else {
            0
        };
    let last = memory.saturating_sub(size.into());
    let gpa = match random.within(0..=4) {
        0 => 0,
        1 => last,
        _ => random.within(0..=last),
    };
    Ring { gpa, size, header }
}

/// The fence page's GPA, and whether it may lie over something else.
fn some_fence(random: &mut Random, ring: &Ring, memory: u64, floor: &mut Floor) -> (u64, bool) {
    let page = u64::from(FENCE_PAGE);
    let last = memory.saturating_sub(page);
    match random.within(0..=99) {
        0..=9 => (0, false),
        10..=17 => (last, true),
        18..=21 => (last + random.within(1..=page), false),
        22..=23 => (
            random.pick(&[u64::MAX, u64::MAX - 15, u64::MAX - 16, 1 << 32, 1 << 63]),
            false,
        ),
        24..=27 => (
            (ring.gpa + u64::from(RING_HEAD) + 4).saturating_sub(random.within(0..=page + 4)),
            true,
        ),
        28..=31 => (random.within(0..=last), true),
        _ => (floor.place(random, page).unwrap_or(0), false),
    }
}

fn some_entries(random: &mut Random, scale: Scale, memory: u64) -> Vec<Entry> {
    let roomy = matches!(scale, Scale::Full | Scale::Long);
    let count = match random.within(0..=9) {
        0..=4 if roomy => random.within(MOST_ENTRIES as u64 - 6..=MOST_ENTRIES as u64),
        0 => 0,
        _ => random.within(1..=6),
    };
    let mut entries: Vec<Entry> = Vec::new();
    for _ in 0..count {
        entries.push(some_entry(random, memory, &entries));
    }
    entries
}

/// A good entry with an id of its own; in an empty memory there is none, and this one is bad.
pub fn some_entry(random: &mut Random, memory: u64, others: &[Entry]) -> Entry {
    let id = loop {
        let id = if random.percent(90) {
            random.within(1..=150) as u32
        } else {
            random.word()
        };
        if id != 0 && others.iter().all(|entry| entry.id != id) {
            break id;
        }
    };
    let read_only = random.percent(20);
    let flags = flags(random, read_only);
    let size = match random.within(0..=5) {
        0 => random.edgy(1..=memory.max(1)),
        1 => random.within(1..=64).min(memory),
        _ => random.within(64..=2_000).min(memory),
    };
    let gpa = random.edgy(0..=memory.saturating_sub(size));
    Entry {
        id,
        flags,
        gpa,
        size,
    }
}
