//! A stream lent by itself: its packets, one after the other.

use crate::errors::Error;
use crate::stream::Stream;

/// The most bytes of a stream in the input of a program.
pub(crate) const MAX_STREAM: usize = 65_536;

/// A packet and where it starts, from the stream's first byte.
#[derive(Clone, Copy, Debug, PartialEq)]
pub(crate) struct Packet<'s> {
    pub(crate) offset: u32,
    pub(crate) bytes: &'s [u8],
}

/// The packets of a stream with a good header. The first that breaks 17 is an
/// error and the last item.
#[derive(Clone, Debug)]
pub(crate) struct Packets<'s> {
    bytes: &'s [u8],
    left: Stream,
}

impl<'s> Packets<'s> {
    /// Checks the header of a stream; the length of `bytes` is the command
    /// size.
    pub(crate) fn read(bytes: &'s [u8]) -> Result<Packets<'s>, Error> {
        let left = Stream::read(bytes)?;
        Ok(Packets { bytes, left })
    }
}

impl<'s> Iterator for Packets<'s> {
    type Item = Result<Packet<'s>, Error>;

    fn next(&mut self) -> Option<Self::Item> {
        if self.left.is_done() {
            return None;
        }
        let offset = self.left.place();
        match self.left.next_packet(self.bytes, 0) {
            Ok(bytes) => Some(Ok(Packet { offset, bytes })),
            Err(error) => {
                self.left = Stream::default();
                Some(Err(error))
            }
        }
    }
}

#[cfg(test)]
mod tests {
    use super::*;
    use crate::bytes::put_u32;

    #[test]
    fn a_bad_packet_is_the_last_item() {
        let mut bytes = vec![0; 48];
        bytes[..4].copy_from_slice(b"ACMD");
        put_u32(&mut bytes, 4, 0x1_0000);
        put_u32(&mut bytes, 8, 44);
        put_u32(&mut bytes, 28, 12);
        put_u32(&mut bytes, 40, 4);
        let mut packets = Packets::read(&bytes).expect("a good header");
        let first = Packet {
            offset: 24,
            bytes: &bytes[24..36],
        };
        assert_eq!(packets.next(), Some(Ok(first)));
        assert_eq!(packets.next(), Some(Err(Error::Packet)));
        assert_eq!(packets.next(), None);
        assert_eq!(Packets::read(&bytes[..43]).err(), Some(Error::Stream));
    }
}
