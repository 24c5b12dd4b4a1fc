//! The bytes that can matter: those that the next submission lists, told from
//! memory as it is at the opening. No other byte can sway the submission's
//! result.

use crate::errors::Error;
use crate::packets::{
    opcode, packet_fields, CLEAR, COPY, CREATE_BUFFER, CREATE_TEXTURE, DESTROY, DIRTY, EXPORT,
    IMPORT, PACKET_HEADER_FIELDS, RELEASE, SCISSOR, TARGET, VIEWPORT,
};
use crate::ring::{self, Descriptor, Ring};
use crate::stream::{self, Stream};
use crate::table::{self, Entry, Header};
use std::ops::Range;

pub use crate::bytes::Field;

/// A layout whose named fields are listed.
#[derive(Clone, Copy, Debug, PartialEq, Eq)]
pub enum Layout {
    /// The header of the ring.
    RingHeader,
    /// The opened slot.
    Descriptor,
    /// The header of the table.
    TableHeader,
    /// Each entry of the table.
    Entry,
    /// The header of the stream.
    StreamHeader,
    /// Each packet's opcode and size.
    PacketHeader,
    /// The rest of each packet with this opcode.
    Packet(u32),
}

/// Every layout that has named fields.
pub const LAYOUTS: [Layout; 18] = [
    Layout::RingHeader,
    Layout::Descriptor,
    Layout::TableHeader,
    Layout::Entry,
    Layout::StreamHeader,
    Layout::PacketHeader,
    Layout::Packet(CREATE_BUFFER),
    Layout::Packet(CREATE_TEXTURE),
    Layout::Packet(DESTROY),
    Layout::Packet(DIRTY),
    Layout::Packet(COPY),
    Layout::Packet(TARGET),
    Layout::Packet(VIEWPORT),
    Layout::Packet(SCISSOR),
    Layout::Packet(CLEAR),
    Layout::Packet(EXPORT),
    Layout::Packet(IMPORT),
    Layout::Packet(RELEASE),
];

/// The named fields of a layout, by rising offset; none of an unknown packet.
pub fn fields(layout: Layout) -> &'static [Field] {
    match layout {
        Layout::RingHeader => Ring::FIELDS,
        Layout::Descriptor => Descriptor::FIELDS,
        Layout::TableHeader => Header::FIELDS,
        Layout::Entry => Entry::FIELDS,
        Layout::StreamHeader => Stream::FIELDS,
        Layout::PacketHeader => PACKET_HEADER_FIELDS,
        Layout::Packet(opcode) => packet_fields(opcode),
    }
}

/// The bytes that the next submission lists, if the registers name this ring
/// when it is opened: a range for each field, in the order of the opening's
/// checks, then of the entries, then of the packets. Ranges may overlap where
/// the guest's do.
///
/// A part is listed only where the opening gets to it. All entries are listed,
/// and all packets up to the first that breaks 17, also behind one that breaks
/// another rule; of the one that breaks 17 the header, if it has one.
pub fn submission_listed(memory: &[u8], ring: u64, ring_size: u32) -> Vec<Range<usize>> {
    listed_by(fields, memory, ring, ring_size)
}

/// As [`submission_listed`], with other fields for the layouts: with
/// [`fields`] less one, the rest of the memory may sway the result.
pub fn listed_by<'f>(
    fields: impl Fn(Layout) -> &'f [Field],
    memory: &[u8],
    ring: u64,
    ring_size: u32,
) -> Vec<Range<usize>> {
    let mut listing = Listing {
        memory,
        fields,
        ranges: Vec::new(),
    };
    listing.add_ring(ring, ring_size);
    listing.ranges
}

/// The bytes of a memory of this length that are in none of the ranges, as
/// ranges by rising start. No two of them touch and none is empty.
pub fn not_listed(memory_len: usize, listed: &[Range<usize>]) -> Vec<Range<usize>> {
    let mut listed = listed.to_vec();
    listed.sort_by_key(|range| range.start);
    let mut gaps = Vec::new();
    let mut end = 0;
    for range in listed {
        let gap = end..range.start.min(memory_len);
        if !gap.is_empty() {
            gaps.push(gap);
        }
        end = end.max(range.end);
    }
    if end < memory_len {
        gaps.push(end..memory_len);
    }
    gaps
}

/// What is listed so far.
struct Listing<'m, F> {
    memory: &'m [u8],
    fields: F,
    ranges: Vec<Range<usize>>,
}

impl<'f, F: Fn(Layout) -> &'f [Field]> Listing<'_, F> {
    /// Lists the fields of this layout, which starts at `gpa`.
    fn add(&mut self, layout: Layout, gpa: u64) {
        let start = gpa as usize;
        let fields = (self.fields)(layout).iter();
        self.ranges
            .extend(fields.map(|(at, width)| start + at..start + at + width));
    }

    fn add_ring(&mut self, gpa: u64, size: u32) {
        if !Ring::has_header(self.memory, gpa, size) {
            return;
        }
        self.add(Layout::RingHeader, gpa);
        match Ring::read(self.memory, gpa, size) {
            Ok(ring) if ring.pending() != 0 => self.add_submission(&ring),
            _ => (),
        }
    }

    fn add_submission(&mut self, ring: &Ring) {
        self.add(Layout::Descriptor, ring.slot_gpa());
        let descriptor = ring.descriptor(self.memory);
        if let Ok((table, stream)) = self.add_headers(ring, &descriptor) {
            for index in 0..table.count {
                self.add(
                    Layout::Entry,
                    descriptor.table.gpa + table.entry_start(index),
                );
            }
            self.add_packets(descriptor.cmd.gpa, stream);
        }
    }

    /// Lists the headers that the opening gets to. Gives them, the default for
    /// an absent one, if it is not refused.
    fn add_headers(
        &mut self,
        ring: &Ring,
        descriptor: &Descriptor,
    ) -> Result<(Header, Stream), Error> {
        descriptor.check(self.memory, ring.stride)?;
        let table = self.add_table_header(descriptor.table)?;
        let stream = self.add_stream_header(descriptor.cmd)?;
        Ok((table, stream))
    }

    fn add_table_header(&mut self, table: ring::Range) -> Result<Header, Error> {
        if !table.is_present() {
            return Ok(Header::default());
        }
        if table.size >= table::HEADER {
            self.add(Layout::TableHeader, table.gpa);
        }
        Header::read(table.of(self.memory))
    }

    fn add_stream_header(&mut self, cmd: ring::Range) -> Result<Stream, Error> {
        if !cmd.is_present() {
            return Ok(Stream::default());
        }
        if cmd.size >= stream::HEADER {
            self.add(Layout::StreamHeader, cmd.gpa);
        }
        Stream::read(cmd.of(self.memory))
    }

    /// Lists the packets of the stream that starts at `gpa`.
    fn add_packets(&mut self, gpa: u64, mut stream: Stream) {
        while stream.has_packet_header() {
            let start = gpa + u64::from(stream.place());
            self.add(Layout::PacketHeader, start);
            match stream.next_packet(self.memory, gpa) {
                Ok(packet) => self.add(Layout::Packet(opcode(packet)), start),
                Err(_) => return,
            }
        }
    }
}
