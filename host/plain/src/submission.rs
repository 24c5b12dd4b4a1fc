//! A submission in work: the numbers read at opening, and its steps.

use crate::bytes::length;
use crate::errors::{Error, Fault};
use crate::packets::Kept;
use crate::ring::{Descriptor, Ring};
use crate::stream::Stream;
use crate::table::{self, Entry};
use crate::tokens::Tokens;

/// What settling needs of an opened submission.
#[derive(Clone, Copy, Debug, PartialEq)]
pub(crate) struct Ticket {
    pub(crate) ring_gpa: u64,
    pub(crate) head: u32,
    pub(crate) no_irq: bool,
    pub(crate) signal_fence: u64,
}

impl Ticket {
    pub(crate) fn new(ring: &Ring, descriptor: &Descriptor) -> Ticket {
        Ticket {
            ring_gpa: ring.gpa,
            head: ring.head,
            no_irq: descriptor.no_irq,
            signal_fence: descriptor.signal_fence,
        }
    }
}

/// An opened submission. Its entries, resources and records are in [`Kept`],
/// its tokens in [`Tokens`].
#[derive(Clone, Copy, Debug, PartialEq)]
pub(crate) struct Submission {
    pub(crate) ticket: Ticket,
    table_gpa: u64,
    table: table::Header,
    stream_gpa: u64,
    stream: Stream,
}

impl Submission {
    /// Checks the descriptor, then the table header, then the stream header.
    pub(crate) fn open(
        mem: &[u8],
        stride: u32,
        descriptor: &Descriptor,
        ticket: Ticket,
    ) -> Result<Submission, Error> {
        descriptor.check(mem, stride)?;
        let table = if descriptor.table.is_present() {
            table::Header::read(descriptor.table.of(mem))?
        } else {
            table::Header::default()
        };
        let stream = if descriptor.cmd.is_present() {
            Stream::read(descriptor.cmd.of(mem))?
        } else {
            Stream::default()
        };
        Ok(Submission {
            ticket,
            table_gpa: descriptor.table.gpa,
            table,
            stream_gpa: descriptor.cmd.gpa,
            stream,
        })
    }

    /// Whether every entry and packet is done, so that the host is awaited.
    pub(crate) fn is_waiting(&self, kept: &Kept) -> bool {
        !self.has_entries_left(kept) && self.stream.is_done()
    }

    /// Judges the next entry or, after the last one, the next packet. A fault
    /// has its place.
    pub(crate) fn step(
        &mut self,
        mem: &[u8],
        kept: &mut Kept,
        tokens: &mut Tokens,
    ) -> Result<(), Fault> {
        if self.has_entries_left(kept) {
            let entry =
                Entry::read_next(mem, self.table_gpa, &self.table, &kept.entries, length(mem))?;
            kept.entries.push(entry);
            Ok(())
        } else {
            let place = self.stream.place();
            self.take_packet(mem, kept, tokens)
                .map_err(|error| error.at(place))
        }
    }

    fn take_packet(
        &mut self,
        mem: &[u8],
        kept: &mut Kept,
        tokens: &mut Tokens,
    ) -> Result<(), Error> {
        let packet = self.stream.next_packet(mem, self.stream_gpa)?;
        kept.take(packet, tokens)
    }

    fn has_entries_left(&self, kept: &Kept) -> bool {
        kept.entries.len() < self.table.count
    }
}
