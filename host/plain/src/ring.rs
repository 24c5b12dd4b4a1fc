//! The ring: its header checks, the descriptor in a slot, the head write.

use crate::bytes::{fits, good_version, length, part, part_mut, put_u32, u32_at, u64_at, Field};
use crate::errors::Error;

const MAGIC: u32 = u32::from_le_bytes(*b"ARNG");
const HEADER: u32 = 64;
const DESCRIPTOR: u32 = 64;
const MAX_COUNT: u32 = 1024;
const HEAD: u64 = 24;

/// A ring that passed its checks, as its header stood when it was read.
#[derive(Clone, Copy, Debug)]
pub(crate) struct Ring {
    pub(crate) gpa: u64,
    pub(crate) head: u32,
    pub(crate) stride: u32,
    tail: u32,
    count: u32,
}

impl Ring {
    /// The named fields of a ring header.
    pub(crate) const FIELDS: &'static [Field] =
        &[(0, 4), (4, 4), (8, 4), (12, 4), (16, 4), (24, 4), (28, 4)];

    /// Whether the registers name a range within memory that has room for a
    /// header, so that the header is read.
    pub(crate) fn has_header(mem: &[u8], gpa: u64, size: u32) -> bool {
        size >= HEADER && fits(gpa, u64::from(size), length(mem))
    }

    /// Reads and checks the ring the registers name; error 10 if it is bad.
    pub(crate) fn read(mem: &[u8], gpa: u64, size: u32) -> Result<Ring, Error> {
        if !Ring::has_header(mem, gpa, size) {
            return Err(Error::Ring);
        }
        let header = part(mem, gpa, u64::from(HEADER));
        let header_size = u32_at(header, 8);
        let ring = Ring {
            gpa,
            head: u32_at(header, 24),
            stride: u32_at(header, 16),
            tail: u32_at(header, 28),
            count: u32_at(header, 12),
        };
        let good = u32_at(header, 0) == MAGIC
            && good_version(u32_at(header, 4))
            && ring.count.is_power_of_two()
            && ring.count <= MAX_COUNT
            && ring.stride >= DESCRIPTOR
            && ring.slots_end() <= u64::from(header_size)
            && header_size <= size
            && ring.pending() <= ring.count;
        if good {
            Ok(ring)
        } else {
            Err(Error::Ring)
        }
    }

    /// How many descriptors wait between head and tail.
    pub(crate) fn pending(&self) -> u32 {
        self.tail.wrapping_sub(self.head)
    }

    /// Where the head's slot starts in memory.
    pub(crate) fn slot_gpa(&self) -> u64 {
        let slot = self.head % self.count;
        self.gpa + u64::from(HEADER) + u64::from(slot) * u64::from(self.stride)
    }

    /// The descriptor in the head's slot.
    pub(crate) fn descriptor(&self, mem: &[u8]) -> Descriptor {
        Descriptor::read(part(mem, self.slot_gpa(), u64::from(DESCRIPTOR)))
    }

    /// Where the slots end, from the ring's start.
    fn slots_end(&self) -> u64 {
        u64::from(HEADER) + u64::from(self.count) * u64::from(self.stride)
    }
}

/// Writes the head of the ring at `gpa`, and no other byte.
pub(crate) fn write_head(mem: &mut [u8], gpa: u64, head: u32) {
    put_u32(part_mut(mem, gpa + HEAD, 4), 0, head);
}

/// A command or table range as a descriptor names it.
#[derive(Clone, Copy, Debug)]
pub(crate) struct Range {
    pub(crate) gpa: u64,
    pub(crate) size: u32,
}

impl Range {
    /// Whether the range is there at all.
    pub(crate) fn is_present(self) -> bool {
        self.size != 0
    }

    /// GPA and size both zero or both non-zero, and the end below 2^64.
    fn is_well_formed(self) -> bool {
        (self.gpa == 0) == (self.size == 0) && fits(self.gpa, u64::from(self.size), u64::MAX)
    }

    fn is_within(self, mem: &[u8]) -> bool {
        !self.is_present() || fits(self.gpa, u64::from(self.size), length(mem))
    }

    /// The range's bytes; the range has passed its checks.
    pub(crate) fn of(self, mem: &[u8]) -> &[u8] {
        part(mem, self.gpa, u64::from(self.size))
    }
}

/// A submission's descriptor.
#[derive(Clone, Copy, Debug)]
pub(crate) struct Descriptor {
    size: u32,
    pub(crate) no_irq: bool,
    pub(crate) cmd: Range,
    pub(crate) table: Range,
    pub(crate) signal_fence: u64,
}

impl Descriptor {
    /// The named fields of a descriptor.
    pub(crate) const FIELDS: &'static [Field] =
        &[(0, 4), (4, 4), (16, 8), (24, 4), (32, 8), (40, 4), (48, 8)];

    fn read(bytes: &[u8]) -> Descriptor {
        Descriptor {
            size: u32_at(bytes, 0),
            no_irq: u32_at(bytes, 4) & 1 != 0,
            cmd: Range {
                gpa: u64_at(bytes, 16),
                size: u32_at(bytes, 24),
            },
            table: Range {
                gpa: u64_at(bytes, 32),
                size: u32_at(bytes, 40),
            },
            signal_fence: u64_at(bytes, 48),
        }
    }

    /// The descriptor's own rules, then those of its ranges in memory.
    pub(crate) fn check(&self, mem: &[u8], stride: u32) -> Result<(), Error> {
        let size_is_good = self.size >= DESCRIPTOR && self.size <= stride;
        if !size_is_good || !self.cmd.is_well_formed() || !self.table.is_well_formed() {
            return Err(Error::Descriptor);
        }
        if !self.cmd.is_within(mem) || !self.table.is_within(mem) {
            return Err(Error::Range);
        }
        Ok(())
    }
}
