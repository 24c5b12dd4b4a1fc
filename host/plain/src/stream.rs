//! The command stream: its header and the packet reader.

use crate::bytes::{good_version, length, part, u32_at, Field};
use crate::errors::Error;
use crate::packets::{least_size, PACKET_HEADER};

const MAGIC: u32 = u32::from_le_bytes(*b"ACMD");
/// The size of a stream header.
pub(crate) const HEADER: u32 = 24;

/// The stream's size and the place of the next packet in it. The default is
/// no stream.
#[derive(Clone, Copy, Debug, Default, PartialEq)]
pub(crate) struct Stream {
    size: u32,
    place: u32,
}

impl Stream {
    /// The named fields of a stream header.
    pub(crate) const FIELDS: &'static [Field] = &[(0, 4), (4, 4), (8, 4)];

    /// Reads and checks the header of a stream; the length of `cmd` is the
    /// command size.
    pub(crate) fn read(cmd: &[u8]) -> Result<Stream, Error> {
        if length(cmd) < u64::from(HEADER) {
            return Err(Error::Stream);
        }
        let size = u32_at(cmd, 8);
        let good = u32_at(cmd, 0) == MAGIC
            && good_version(u32_at(cmd, 4))
            && size >= HEADER
            && u64::from(size) <= length(cmd);
        if good {
            Ok(Stream {
                size,
                place: HEADER,
            })
        } else {
            Err(Error::Stream)
        }
    }

    /// Whether every packet has been read.
    pub(crate) fn is_done(&self) -> bool {
        self.place >= self.size
    }

    /// The offset of the next packet, or of the bytes left, in the stream.
    pub(crate) fn place(&self) -> u32 {
        self.place
    }

    /// Whether the bytes left have room for a packet header.
    pub(crate) fn has_packet_header(&self) -> bool {
        self.size - self.place >= PACKET_HEADER
    }

    /// The next packet as a part of the lent memory, all its bytes by its own
    /// size, from the stream that starts at `gpa`; error 17 if it is bad.
    /// Moves the place past it.
    pub(crate) fn next_packet<'m>(&mut self, mem: &'m [u8], gpa: u64) -> Result<&'m [u8], Error> {
        if !self.has_packet_header() {
            return Err(Error::Packet);
        }
        let left = self.size - self.place;
        let start = gpa + u64::from(self.place);
        let header = part(mem, start, u64::from(PACKET_HEADER));
        let opcode = u32_at(header, 0);
        let size = u32_at(header, 4);
        if size < least_size(opcode) || size % 4 != 0 || size > left {
            return Err(Error::Packet);
        }
        self.place += size;
        Ok(part(mem, start, u64::from(size)))
    }
}

#[cfg(test)]
mod tests {
    use super::*;
    use crate::bytes::put_u32;

    #[test]
    fn a_grown_packet_is_handed_back_whole() {
        const GPA: u64 = 4;
        const DESTROY: u32 = 258;
        // Two destroys, the first longer by two words.
        let mut mem: Vec<u8> = (0..80).collect();
        put_u32(&mut mem, 28, DESTROY);
        put_u32(&mut mem, 32, 24);
        put_u32(&mut mem, 52, DESTROY);
        put_u32(&mut mem, 56, 16);
        let mut stream = Stream {
            size: 64,
            place: HEADER,
        };
        assert_eq!(stream.next_packet(&mem, GPA), Ok(&mem[28..52]));
        assert_eq!(stream.place, 48);
        assert_eq!(stream.next_packet(&mem, GPA), Ok(&mem[52..68]));
        assert!(stream.is_done());
    }
}
