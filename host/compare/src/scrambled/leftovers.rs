//! The parts of a submission that is to be opened, and the bytes in and around them that it does not list.

use crate::numbers::{
    DESCRIPTOR, ENTRY, KNOWN_PACKETS, PACKET_HEADER, RING_HEADER, STREAM_HEADER, TABLE_HEADER,
};
use plain::listed::{listed_by, not_listed, Field, Layout};
use std::cell::RefCell;
use std::ops::Range;

/// Bytes that cannot matter, by where they are.
#[derive(Clone, Copy, Debug, PartialEq, Eq, PartialOrd, Ord)]
pub enum Leftover {
    /// Behind the header of a packet with an unknown opcode.
    UnknownPayload,
    /// Behind the table size of a known packet.
    AppendedFields,
    /// Between the end of an entry and the next one.
    EntryStride,
    /// Between the end of the opened slot and the next one.
    SlotStride,
    /// In slots that are not opened.
    OtherSlots,
    /// In the command range, but behind the stream.
    PastTheStreamSize,
    /// In a header, slot, entry or known packet, where no field is.
    Unnamed,
    /// Outside the ring's slots, the table and the stream's range.
    Elsewhere,
}

/// All that there are.
pub const LEFTOVERS: [Leftover; 8] = [
    Leftover::UnknownPayload,
    Leftover::AppendedFields,
    Leftover::EntryStride,
    Leftover::SlotStride,
    Leftover::OtherSlots,
    Leftover::PastTheStreamSize,
    Leftover::Unnamed,
    Leftover::Elsewhere,
];

/// A part that is listed, and where it begins.
type Part = (Layout, usize);

/// The parts that an opening comes upon.
pub struct Parts {
    /// The table and the stream of a submission that goes on behind its opening.
    pub ahead: Vec<Range<usize>>,
    /// Ranges that have bytes which are not listed.
    pub leftovers: Vec<(Leftover, Range<usize>)>,
}

impl Parts {
    /// Those of the submission that would be opened now, if the registers name this ring.
    pub fn found(memory: &[u8], ring: u64, ring_size: u32) -> Parts {
        let reader = Reader {
            memory,
            parts: parts(memory, ring, ring_size),
        };
        Parts {
            ahead: reader.ahead(),
            leftovers: reader.leftovers(),
        }
    }
}

/// In place of a part's fields: an empty range that shows where the part begins.
const BEGINNING: &[Field] = &[(0, 0)];

/// The listed parts, in the order in which they are listed.
fn parts(memory: &[u8], ring: u64, ring_size: u32) -> Vec<Part> {
    let layouts = RefCell::new(Vec::new());
    let mark = |layout| {
        layouts.borrow_mut().push(layout);
        BEGINNING
    };
    let marked = listed_by(mark, memory, ring, ring_size);
    let starts = marked.into_iter().map(|range| range.start);
    layouts.into_inner().into_iter().zip(starts).collect()
}

/// Memory as an opening finds it.
struct Reader<'m> {
    memory: &'m [u8],
    parts: Vec<Part>,
}

impl Reader<'_> {
    fn word(&self, at: usize) -> usize {
        let bytes = &self.memory[at..at + 4];
        u32::from_le_bytes(bytes.try_into().expect("four bytes")) as usize
    }

    /// Where the first part of this layout begins.
    fn start(&self, layout: Layout) -> Option<usize> {
        let mut parts = self.parts.iter();
        parts.find(|part| part.0 == layout).map(|part| part.1)
    }

    /// The table, if it has entries to judge; the stream, if it has a packet.
    fn ahead(&self) -> Vec<Range<usize>> {
        let table = self.start(Layout::Entry).map(|entries| {
            let at = entries - size(Layout::TableHeader);
            at..entries + self.word(at + 12) * self.word(at + 16)
        });
        let stream = self.start(Layout::PacketHeader).map(|packets| {
            let at = packets - size(Layout::StreamHeader);
            at..at + self.word(at + 8)
        });
        table.into_iter().chain(stream).collect()
    }

    fn leftovers(&self) -> Vec<(Leftover, Range<usize>)> {
        let parts = self.parts.iter();
        let leftovers: Vec<_> = parts.flat_map(|part| self.leftovers_of(*part)).collect();
        let inside = leftovers.iter().map(|(_, range)| range.clone());
        let inside: Vec<_> = inside.chain(self.ahead()).collect();
        let elsewhere = not_listed(self.memory.len(), &inside);
        let elsewhere = elsewhere.into_iter().map(|gap| (Leftover::Elsewhere, gap));
        leftovers.into_iter().chain(elsewhere).collect()
    }

    fn leftovers_of(&self, (layout, at): Part) -> Vec<(Leftover, Range<usize>)> {
        let end = at + size(layout);
        let mut leftovers = vec![(Leftover::Unnamed, at..end)];
        match layout {
            Layout::Descriptor => leftovers.extend(self.slots_around(at)),
            Layout::StreamHeader => {
                leftovers.extend(self.start(Layout::Descriptor).map(|slot| {
                    let (past, end) = (at + self.word(at + 8), at + self.word(slot + 24));
                    (Leftover::PastTheStreamSize, past..end)
                }));
            }
            Layout::Entry => {
                leftovers.extend(self.start(Layout::TableHeader).map(|table| {
                    let stride = self.word(table + 16);
                    (Leftover::EntryStride, end..at + stride)
                }));
            }
            Layout::Packet(opcode) => {
                let packet_end = at + self.word(at + 4);
                leftovers.push(match table_size(opcode) {
                    Some(_) => (Leftover::AppendedFields, end..packet_end),
                    None => (Leftover::UnknownPayload, end..packet_end),
                });
            }
            _ => {}
        }
        // The sizes of a refused opening may be any.
        leftovers.retain(|(_, range)| !range.is_empty() && range.end <= self.memory.len());
        leftovers
    }

    /// The rest of the opened slot's stride, and the slots before and behind it.
    fn slots_around(&self, slot: usize) -> Vec<(Leftover, Range<usize>)> {
        let ring = match self.start(Layout::RingHeader) {
            Some(ring) => ring,
            None => return Vec::new(),
        };
        let (count, stride) = (self.word(ring + 12), self.word(ring + 16));
        let first = ring + size(Layout::RingHeader);
        vec![
            (
                Leftover::SlotStride,
                slot + size(Layout::Descriptor)..slot + stride,
            ),
            (Leftover::OtherSlots, first..slot),
            (Leftover::OtherSlots, slot + stride..first + count * stride),
        ]
    }
}

/// How long a part is, without what a stride or a longer packet adds.
fn size(layout: Layout) -> usize {
    let size = match layout {
        Layout::RingHeader => RING_HEADER,
        Layout::Descriptor => DESCRIPTOR,
        Layout::TableHeader => TABLE_HEADER,
        Layout::Entry => ENTRY,
        Layout::StreamHeader => STREAM_HEADER,
        Layout::PacketHeader => PACKET_HEADER,
        Layout::Packet(opcode) => table_size(opcode).unwrap_or(PACKET_HEADER),
    };
    size as usize
}

/// The least size of a known packet.
fn table_size(opcode: u32) -> Option<u32> {
    let mut known = KNOWN_PACKETS.iter();
    known
        .find(|packet| packet.0 == opcode)
        .map(|packet| packet.1)
}
