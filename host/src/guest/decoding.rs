//! A stream's packets, read back from its bytes by a host that carries the submission out.
use super::fields::Fields;
use super::packet::{
    Backing, Packet, Row, Shape, CLEAR, COPY_BUFFER, CREATE_BUFFER, CREATE_TEXTURE, DESTROY,
    DIRTY_RANGE, EXPORT, IMPORT, PACKET_HEADER, RELEASE, SCISSOR, TARGET, VIEWPORT, WRITEBACK,
};
use super::state_packets::{Clear, Scissor, Viewport};
use super::{MAJOR, STREAM_HEADER, STREAM_MAGIC};
use crate::place::{write_error_at, Place};
use crate::DeviceError;
use std::error::Error;
use std::fmt;
use std::iter::FusedIterator;

/// Reads the packets of a command stream, one by one, from the bytes that a submission's descriptor names.
///
/// The header and each packet's frame are judged by the front's own rules, so a stream that the front has checked is read to its end,
/// as long as it is still the same stream. It need not be: between the slices of a run, and before the host comes to read it, the guest
/// may have written there. So a host takes nothing for granted that it reads here, neither handles nor ranges; it reads the stream
/// once, from a copy if virtual processors run meanwhile; and it answers [`Failed`](crate::HostAnswer::Failed) where a packet does not
/// fit what it knows. `examples/emulator.rs` does so.
///
/// Bytes behind the stream's own size are not looked at, nor those behind a known packet's last field: a driver of a higher minor
/// version appends fields. Whether a handle is live, a shape good or a viewport one that can be, is not asked: floats come as their bits
/// have them, a NaN too, which [`Packet::has_nan`] tells.
///
/// ```
/// use zelezmut::guest::{self, Packet};
///
/// let packets = [Packet::Destroy { handle: 7 }, Packet::Unknown { opcode: 9, size: 12 }];
/// let stream = guest::stream(&packets);
/// let mut read = guest::decode(&stream)?;
/// let destroy = read.next().expect("a packet")?;
/// assert_eq!((destroy.offset, destroy.packet), (24, packets[0]));
/// let unknown = read.next().expect("another one")?;
/// assert_eq!((unknown.offset, unknown.packet), (40, packets[1]));
/// assert_eq!(unknown.bytes, &stream[40..52]);
/// assert_eq!(read.next(), None);
/// # Ok::<(), guest::StreamError>(())
/// ```
///
/// # Errors
/// [`DeviceError::BadStream`] if the header breaks a rule. Of a packet that breaks one, the iterator tells, and then ends.
pub fn decode(stream: &[u8]) -> Result<Packets<'_>, StreamError> {
    let bytes = sized_stream(Fields(stream)).ok_or(StreamError {
        error: DeviceError::BadStream,
        packet: None,
    })?;
    Ok(Packets {
        bytes,
        at: STREAM_HEADER,
    })
}

/// The bytes that the stream's own size names, its header too, if that is a good one.
fn sized_stream(stream: Fields<'_>) -> Option<&[u8]> {
    let (magic, version, size) = (stream.field(0)?, stream.word(4)?, stream.word(8)? as usize);
    let good = magic == STREAM_MAGIC && version >> 16 == MAJOR && size >= STREAM_HEADER;
    stream.part(0, size).filter(|_| good)
}

/// The packets of a stream, as [`decode`] reads them. It ends with the stream, or behind the first error.
#[derive(Clone, Debug)]
pub struct Packets<'a> {
    /// The stream as far as its own size goes, and where the next packet starts in it: never behind its end.
    bytes: &'a [u8],
    at: usize,
}

/// A packet that was read from a stream.
#[derive(Clone, Copy, Debug, PartialEq)]
pub struct Decoded<'a> {
    /// Where it starts: bytes from where the stream starts. The first packet stands at 24, behind the stream's header.
    pub offset: u32,
    /// What it says. An opcode that the front does not know is [`Packet::Unknown`].
    pub packet: Packet,
    /// All of its bytes: the header, its fields, and what a newer driver has appended.
    pub bytes: &'a [u8],
}

impl<'a> Iterator for Packets<'a> {
    type Item = Result<Decoded<'a>, StreamError>;

    fn next(&mut self) -> Option<Self::Item> {
        let rest = self.bytes.get(self.at..).filter(|rest| !rest.is_empty())?;
        // A stream's size has 32 bits.
        let offset = self.at as u32;
        match packet_of(rest) {
            Ok((packet, bytes)) => {
                self.at += bytes.len();
                Some(Ok(Decoded {
                    offset,
                    packet,
                    bytes,
                }))
            }
            Err(error) => {
                self.at = self.bytes.len();
                let packet = Some(offset);
                Some(Err(StreamError { error, packet }))
            }
        }
    }
}

impl FusedIterator for Packets<'_> {}

/// The first packet of the bytes that are left, and those of them that are its own.
fn packet_of(rest: &[u8]) -> Result<(Packet, &[u8]), DeviceError> {
    let (opcode, bytes) = framed(Fields(rest)).ok_or(DeviceError::BadPacket)?;
    let size = bytes.len() as u32;
    let packet = match KNOWN.iter().find(|((known, _), _)| *known == opcode) {
        None => Packet::Unknown { opcode, size },
        Some(((_, least), _)) if size < *least => return Err(DeviceError::BadPacket),
        Some((_, read)) => read(PacketFields(Fields(bytes)))?,
    };
    Ok((packet, bytes))
}

/// A packet's opcode and its bytes, which its own size names: a multiple of 4 with room for the header, within what is left.
fn framed(rest: Fields<'_>) -> Option<(u32, &[u8])> {
    let (opcode, size) = (rest.word(0)?, rest.word(4)?);
    let good = size >= PACKET_HEADER && size % 4 == 0;
    let bytes = rest.part(0, size as usize).filter(|_| good)?;
    Some((opcode, bytes))
}

/// The fields of a packet. One that is missing is a packet too short.
#[derive(Clone, Copy)]
struct PacketFields<'a>(Fields<'a>);

impl PacketFields<'_> {
    fn word(self, at: usize) -> Result<u32, DeviceError> {
        self.0.word(at).ok_or(DeviceError::BadPacket)
    }

    fn long(self, at: usize) -> Result<u64, DeviceError> {
        self.0.long(at).ok_or(DeviceError::BadPacket)
    }

    /// Any bits are some float's.
    fn float(self, at: usize) -> Result<f32, DeviceError> {
        self.word(at).map(f32::from_bits)
    }

    fn signed(self, at: usize) -> Result<i32, DeviceError> {
        self.word(at).map(|word| word as i32)
    }

    /// Of a resource that lives with the host the offset says nothing.
    fn backing(self, at: usize) -> Result<Option<Backing>, DeviceError> {
        let (id, offset) = (self.word(at)?, self.word(at + 4)?);
        Ok(Some(Backing { id, offset }).filter(|_| id != 0))
    }
}

/// How a packet's fields are read.
type Reader = fn(PacketFields<'_>) -> Result<Packet, DeviceError>;

/// Every packet that the front knows: its row of the documents' tables, and its reader. A new packet is a row here and a reader below.
const KNOWN: [(Row, Reader); 12] = [
    (CREATE_BUFFER, create_buffer),
    (CREATE_TEXTURE, create_texture),
    (DESTROY, destroy),
    (DIRTY_RANGE, dirty_range),
    (COPY_BUFFER, copy_buffer),
    (TARGET, target),
    (VIEWPORT, viewport),
    (SCISSOR, scissor),
    (CLEAR, clear),
    (EXPORT, export),
    (IMPORT, import),
    (RELEASE, release),
];

fn create_buffer(fields: PacketFields<'_>) -> Result<Packet, DeviceError> {
    Ok(Packet::CreateBuffer {
        handle: fields.word(8)?,
        size: fields.long(16)?,
        backing: fields.backing(24)?,
    })
}

fn create_texture(fields: PacketFields<'_>) -> Result<Packet, DeviceError> {
    Ok(Packet::CreateTexture {
        handle: fields.word(8)?,
        shape: Shape {
            format: fields.word(16)?,
            width: fields.word(20)?,
            height: fields.word(24)?,
            mips: fields.word(28)?,
            layers: fields.word(32)?,
            pitch: fields.word(36)?,
        },
        backing: fields.backing(40)?,
    })
}

fn destroy(fields: PacketFields<'_>) -> Result<Packet, DeviceError> {
    Ok(Packet::Destroy {
        handle: fields.word(8)?,
    })
}

fn dirty_range(fields: PacketFields<'_>) -> Result<Packet, DeviceError> {
    Ok(Packet::DirtyRange {
        handle: fields.word(8)?,
        offset: fields.long(16)?,
        size: fields.long(24)?,
    })
}

/// Flags that nobody knows are an error, by the front's rule: they cannot be told in a [`Packet`].
fn copy_buffer(fields: PacketFields<'_>) -> Result<Packet, DeviceError> {
    let flags = fields.word(40)?;
    if flags > WRITEBACK {
        return Err(DeviceError::BadCopy);
    }
    Ok(Packet::CopyBuffer {
        destination: fields.word(8)?,
        source: fields.word(12)?,
        destination_offset: fields.long(16)?,
        source_offset: fields.long(24)?,
        size: fields.long(32)?,
        writeback: flags == WRITEBACK,
    })
}

fn target(fields: PacketFields<'_>) -> Result<Packet, DeviceError> {
    Ok(Packet::Target {
        handle: fields.word(8)?,
    })
}

fn viewport(fields: PacketFields<'_>) -> Result<Packet, DeviceError> {
    Ok(Packet::Viewport(Viewport {
        x: fields.float(8)?,
        y: fields.float(12)?,
        width: fields.float(16)?,
        height: fields.float(20)?,
        near: fields.float(24)?,
        far: fields.float(28)?,
    }))
}

fn scissor(fields: PacketFields<'_>) -> Result<Packet, DeviceError> {
    Ok(Packet::Scissor(Scissor {
        x: fields.signed(8)?,
        y: fields.signed(12)?,
        width: fields.signed(16)?,
        height: fields.signed(20)?,
    }))
}

/// Its flags are told as they stand, those that nobody knows too.
fn clear(fields: PacketFields<'_>) -> Result<Packet, DeviceError> {
    Ok(Packet::Clear(Clear {
        flags: fields.word(8)?,
        colour: [
            fields.float(12)?,
            fields.float(16)?,
            fields.float(20)?,
            fields.float(24)?,
        ],
        depth: fields.float(28)?,
        stencil: fields.word(32)?,
    }))
}

fn export(fields: PacketFields<'_>) -> Result<Packet, DeviceError> {
    Ok(Packet::Export {
        handle: fields.word(8)?,
        token: fields.long(16)?,
    })
}

fn import(fields: PacketFields<'_>) -> Result<Packet, DeviceError> {
    Ok(Packet::Import {
        handle: fields.word(8)?,
        token: fields.long(16)?,
    })
}

fn release(fields: PacketFields<'_>) -> Result<Packet, DeviceError> {
    Ok(Packet::Release {
        token: fields.long(8)?,
    })
}

/// What is wrong with a stream that [`decode`] reads.
///
/// Displayed it is a line for a log: `error 17 at byte 40 of the stream: ..`, with the error's own words behind.
#[derive(Clone, Copy, Debug, PartialEq, Eq, Hash)]
pub struct StreamError {
    /// The rule that is broken: [`DeviceError::BadStream`] of the header, [`DeviceError::BadPacket`] of a packet's size or of bytes left
    /// over, [`DeviceError::BadCopy`] of a copy's flags.
    pub error: DeviceError,
    /// Where the packet that breaks it starts, in bytes from where the stream starts; `None` if it is the header that does.
    pub packet: Option<u32>,
}

impl fmt::Display for StreamError {
    fn fmt(&self, f: &mut fmt::Formatter<'_>) -> fmt::Result {
        let place = self.packet.map_or(Place::Nowhere, Place::Packet);
        write_error_at(f, self.error, place)?;
        write!(f, ": {}", self.error)
    }
}

impl Error for StreamError {}

#[cfg(test)]
mod tests {
    use super::super::{stream, stream_of};
    use super::*;

    fn copy(writeback: bool) -> Packet {
        Packet::CopyBuffer {
            destination: 13,
            source: 14,
            destination_offset: 1 << 40,
            source_offset: 1 << 41,
            size: 1 << 42,
            writeback,
        }
    }

    const SHAPE: Shape = Shape {
        format: 1,
        width: 2,
        height: 3,
        mips: 4,
        layers: 5,
        pitch: 6,
    };

    /// One of each kind, every field with another number.
    fn every_packet() -> Vec<Packet> {
        let backing = Some(Backing { id: 11, offset: 12 });
        let create = |backing| Packet::CreateBuffer {
            handle: 7,
            size: u64::MAX - 1,
            backing,
        };
        let texture = |backing| Packet::CreateTexture {
            handle: 8,
            shape: SHAPE,
            backing,
        };
        let dirty = Packet::DirtyRange {
            handle: 9,
            offset: 1 << 33,
            size: 1 << 34,
        };
        let destroy = Packet::Destroy { handle: u32::MAX };
        let unknown = Packet::Unknown {
            opcode: 260,
            size: 20,
        };
        [create(None), create(backing), texture(None)]
            .into_iter()
            .chain([texture(backing), destroy, dirty])
            .chain([copy(false), copy(true)])
            .chain(every_state_packet())
            .chain(every_token_packet())
            .chain([unknown])
            .collect()
    }

    fn every_state_packet() -> [Packet; 4] {
        let target = Packet::Target { handle: 15 };
        let viewport = Viewport {
            x: -1.5,
            y: f32::MAX,
            width: 0.5,
            height: f32::MIN_POSITIVE,
            near: -0.0,
            far: 1.0,
        };
        let scissor = Scissor {
            x: i32::MIN,
            y: -1,
            width: i32::MAX,
            height: 0,
        };
        let clear = Clear {
            flags: 16,
            colour: [0.25, 0.5, f32::NEG_INFINITY, 2.0],
            depth: 0.75,
            stencil: u32::MAX,
        };
        [
            target,
            Packet::Viewport(viewport),
            Packet::Scissor(scissor),
            Packet::Clear(clear),
        ]
    }

    fn every_token_packet() -> [Packet; 3] {
        [
            Packet::Export {
                handle: 16,
                token: 1 << 35,
            },
            Packet::Import {
                handle: 17,
                token: u64::MAX,
            },
            Packet::Release { token: 1 << 36 },
        ]
    }

    fn packets(stream: &[u8]) -> Result<Vec<Packet>, StreamError> {
        decode(stream)?.map(|read| Ok(read?.packet)).collect()
    }

    fn bad(error: DeviceError, packet: impl Into<Option<u32>>) -> StreamError {
        let packet = packet.into();
        StreamError { error, packet }
    }

    #[test]
    fn what_is_written_is_read_back() {
        let written = every_packet();
        let mut bytes = stream(&written);
        assert_eq!(packets(&bytes), Ok(written.clone()));
        let grown: Vec<Vec<u8>> = written.iter().map(|p| p.grown(&[1, u32::MAX])).collect();
        let read = packets(&stream_of(&grown)).unwrap();
        assert_eq!(read[..15], written[..15]);
        let longer = Packet::Unknown {
            opcode: 260,
            size: 28,
        };
        assert_eq!(read[15..], [longer]);
        // What stands behind the stream's own size is nobody's.
        bytes.extend([0xEE; 5]);
        assert_eq!(packets(&bytes), Ok(written));
    }

    #[test]
    fn packets_stand_one_behind_the_other() {
        let bytes = stream(&every_packet());
        let mut at = STREAM_HEADER;
        for read in decode(&bytes).unwrap() {
            let Decoded {
                offset,
                packet,
                bytes: own,
            } = read.unwrap();
            assert_eq!(offset as usize, at);
            assert_eq!(own, packet.to_bytes());
            assert_eq!(own, &bytes[at..at + own.len()]);
            at += own.len();
        }
        assert_eq!(at, bytes.len());
    }

    #[test]
    fn a_bad_header_is_told() {
        let good = stream(&every_packet());
        let refused = Err(bad(DeviceError::BadStream, None));
        for length in 0..good.len() {
            assert_eq!(packets(&good[..length]), refused);
        }
        for at in [0, 1, 2, 3, 6, 7] {
            let mut bytes = good.clone();
            bytes[at] ^= 4;
            assert_eq!(packets(&bytes), refused, "byte {}", at);
        }
        // Any minor version will do.
        let mut bytes = good.clone();
        bytes[4..6].fill(0xFF);
        assert_eq!(packets(&bytes), Ok(every_packet()));
        for size in [0, 23, good.len() as u32 + 1, u32::MAX] {
            let mut bytes = good.clone();
            bytes[8..12].copy_from_slice(&size.to_le_bytes());
            assert_eq!(packets(&bytes), refused, "size {}", size);
        }
        assert_eq!(packets(&stream(&[])), Ok(Vec::new()));
    }

    /// Every size that a packet can say, in a stream that ends behind its real one.
    #[test]
    fn a_packet_of_a_bad_size_is_told_where_it_stands() {
        let first = Packet::Unknown { opcode: 1, size: 8 };
        for packet in every_packet() {
            let real = packet.to_bytes();
            let least = match packet {
                Packet::Unknown { .. } => 8,
                _ => real.len() as u32,
            };
            for size in (0..=real.len() as u32 + 4).chain([u32::MAX - 3, u32::MAX]) {
                let mut told = real.clone();
                told[4..8].copy_from_slice(&size.to_le_bytes());
                let bytes = stream_of(&[first.to_bytes(), told]);
                let mut read = decode(&bytes).unwrap();
                assert_eq!(read.next().unwrap().unwrap().packet, first);
                let good = size >= least && size % 4 == 0 && size as usize <= real.len();
                let second = read.next().unwrap();
                assert_eq!(second.is_ok(), good, "{:?} of size {}", packet, size);
                if !good {
                    assert_eq!(second, Err(bad(DeviceError::BadPacket, 32)));
                    assert_eq!(read.next(), None);
                }
            }
        }
    }

    #[test]
    fn bytes_left_over_are_told() {
        for over in 1..8 {
            let bytes = stream_of(&[Packet::Destroy { handle: 1 }.to_bytes(), vec![0; over]]);
            let left = Err(bad(DeviceError::BadPacket, 40));
            assert_eq!(packets(&bytes), left);
        }
    }

    #[test]
    fn a_copys_unknown_flags_are_told() {
        let copy = copy(true).to_bytes();
        for flags in [2, 3, 1 << 31, u32::MAX] {
            let mut other = copy.clone();
            other[40..44].copy_from_slice(&flags.to_le_bytes());
            let refused = Err(bad(DeviceError::BadCopy, 24));
            assert_eq!(packets(&stream_of(&[other])), refused);
        }
    }

    /// Infinities, NaNs of every sort, and whatever else: each comes back as the bits that it was.
    #[test]
    fn floats_are_read_bit_for_bit() {
        let [_, viewport, _, clear] = every_state_packet().map(|packet| packet.to_bytes());
        for (bytes, floats) in [(viewport, 8..32), (clear, 12..32)] {
            for at in floats.step_by(4) {
                for bits in (0..=u32::MAX)
                    .step_by(0x00ff_fff1)
                    .chain([0x7f80_0001, 0xffc0_0000])
                {
                    let mut other = bytes.clone();
                    other[at..at + 4].copy_from_slice(&bits.to_le_bytes());
                    let packet = packets(&stream_of(&[other.clone()])).unwrap()[0];
                    assert_eq!(packet.to_bytes(), other);
                    assert_eq!(packet.has_nan(), f32::from_bits(bits).is_nan());
                }
            }
        }
    }

    #[test]
    fn errors_are_told_in_words() {
        assert_eq!(
            bad(DeviceError::BadStream, None).to_string(),
            "error 16: the stream's header breaks a rule"
        );
        assert_eq!(
            bad(DeviceError::BadPacket, 40).to_string(),
            "error 17 at byte 40 of the stream: a packet's size breaks a rule, or bytes are left over"
        );
    }
}
