//! Random packets that a submission being written is believed to pass with.

use crate::draft::{Draft, Resource};
use crate::image::Entry;
use crate::numbers::{KNOWN_PACKETS, MOST_NAMES, MOST_RECORDS, UNKNOWN_OPCODES, WRITEBACK};
use crate::packet::{self, Backing, Copying};
use crate::random::Random;
use crate::shape::Shape;

impl Draft<'_> {
    /// A packet that is believed to pass, of a random kind.
    pub fn any_packet(&mut self) {
        let done = match self.random.within(0..=99) {
            0..=18 => self.any_buffer().map(drop),
            19..=33 => self.any_texture().map(drop),
            34..=41 => self.any_destroy().map(drop),
            42..=57 => self.any_dirty().map(drop),
            58..=69 => self.any_copy().map(drop),
            70..=82 => self.any_state_packet(),
            83..=95 => self.any_share_packet(),
            _ => None,
        };
        if done.is_none() {
            self.any_unknown();
        }
    }

    pub fn any_unknown(&mut self) {
        let opcode = if self.random.percent(35) {
            self.random.pick(&UNKNOWN_OPCODES)
        } else {
            some_unknown_opcode(self.random)
        };
        let size = 8 + 4 * self.random.pick(&[0, 0, 1, 2, 6, 10]);
        let packet = packet::any(self.random, opcode, size);
        self.push(packet);
    }

    /// An entry and an offset at which so many bytes still fit it.
    pub fn backing_for(&mut self, bytes: u64) -> Option<Backing> {
        let fitting: Vec<Entry> = self
            .entries
            .iter()
            .copied()
            .filter(|entry| entry.id != 0 && entry.size >= bytes)
            .collect();
        if fitting.is_empty() || self.records == MOST_RECORDS {
            return None;
        }
        let entry = self.random.pick(&fitting);
        let offset = self
            .random
            .edgy(0..=(entry.size - bytes).min(u32::MAX.into())) as u32;
        Some(Backing {
            id: entry.id,
            offset,
        })
    }

    /// A backing with room for so many bytes two times out of three, where the table has one, else the host's memory.
    fn some_backing(&mut self, bytes: u64) -> Backing {
        let host = Backing {
            id: 0,
            offset: self.random.pick(&[0, 0, 1, u32::MAX]),
        };
        if self.random.percent(66) {
            self.backing_for(bytes).unwrap_or(host)
        } else {
            host
        }
    }

    pub fn any_buffer(&mut self) -> Option<Resource> {
        let size = match self.random.within(0..=4) {
            0 => self.random.within(1..=8),
            _ => self.random.within(1..=300),
        };
        let backing = self.some_backing(size);
        self.buffer_at(size, backing)
    }

    pub fn backed_buffer(&mut self) -> Option<Resource> {
        let size = self.random.within(1..=64);
        let backing = self.backing_for(size)?;
        self.buffer_at(size, backing)
    }

    pub fn host_buffer(&mut self) -> Option<Resource> {
        let size = self.random.pick(&[1, 16, 100, u64::MAX - 1, u64::MAX]);
        self.buffer_at(size, Backing::default())
    }

    fn buffer_at(&mut self, size: u64, backing: Backing) -> Option<Resource> {
        if self.live.len() >= MOST_NAMES {
            return None;
        }
        let handle = self.fresh_handle();
        self.create_buffer(handle, size, backing);
        self.live.last().copied()
    }

    pub fn any_texture(&mut self) -> Option<Resource> {
        let shape = Shape::random(self.random);
        let backing = self.some_backing(shape.packed());
        self.texture_at(shape, backing)
    }

    pub fn backed_texture(&mut self) -> Option<Resource> {
        let shape = Shape::random(self.random);
        let backing = self.backing_for(shape.packed())?;
        self.texture_at(shape, backing)
    }

    pub fn texture_at(&mut self, mut shape: Shape, backing: Backing) -> Option<Resource> {
        if self.live.len() >= MOST_NAMES {
            return None;
        }
        if backing.id == 0 {
            shape.pitch = self.random.pick(&[0, shape.pitch, u32::MAX]);
        }
        let handle = self.fresh_handle();
        self.create_texture(handle, shape, backing);
        self.live.last().copied()
    }

    pub fn any_destroy(&mut self) -> Option<Resource> {
        let resource = self.find(|_, _| true)?;
        self.destroy(resource.handle);
        Some(resource)
    }

    pub fn any_dirty(&mut self) -> Option<Resource> {
        let resource = self.find(|draft, resource| draft.covered(resource).is_some())?;
        let covered = self.covered(&resource)?;
        let offset = self.random.edgy(0..=covered);
        let size = if self.records == MOST_RECORDS {
            0
        } else {
            self.random.edgy(0..=covered - offset)
        };
        self.dirty(resource.handle, offset, size);
        Some(resource)
    }

    pub fn any_copy(&mut self) -> Option<Resource> {
        let to = self.find(|_, resource| !resource.texture)?;
        let from = self.find(|_, resource| !resource.texture && resource.handle != to.handle)?;
        let may_write = self.covered(&to).filter(|_| self.writable(&to));
        let (flags, reach) = match may_write {
            Some(covered) if self.random.percent(70) => (WRITEBACK, covered),
            _ => (0, to.bytes),
        };
        let full = flags == WRITEBACK && self.records == MOST_RECORDS;
        let size = if full {
            0
        } else {
            self.random.edgy(0..=reach.min(from.bytes))
        };
        let to_offset = self.random.edgy(0..=reach - size);
        let from_offset = self.random.edgy(0..=from.bytes - size);
        self.copy(Copying {
            to: to.handle,
            from: from.handle,
            to_offset,
            from_offset,
            size,
            flags,
        });
        Some(to)
    }

    /// A handle that is not live: 0, one that never was, or one destroyed just now.
    pub fn dead_handle(&mut self) -> Option<u32> {
        match self.random.within(0..=2) {
            0 => Some(0),
            1 => Some(self.fresh_handle()),
            _ => {
                let resource = self.any_buffer()?;
                self.destroy(resource.handle);
                Some(resource.handle)
            }
        }
    }
}

/// Whatever lies between the opcodes that there are, too.
fn some_unknown_opcode(random: &mut Random) -> u32 {
    loop {
        let opcode = 300 + random.within(0..=5000) as u32;
        if KNOWN_PACKETS.iter().all(|&(known, _)| known != opcode) {
            return opcode;
        }
    }
}
