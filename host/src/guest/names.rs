//! Names for the bytes of packets: those that the dump of a stream prints, with the place of each field.
use super::packet::{
    Row, CLEAR, COPY_BUFFER, CREATE_BUFFER, CREATE_TEXTURE, DESTROY, DIRTY_RANGE, EXPORT, IMPORT,
    PACKET_HEADER, RELEASE, SCISSOR, TARGET, VIEWPORT,
};
use std::fmt;

/// A named field of a packet.
#[derive(Clone, Copy, Debug, PartialEq, Eq, Hash)]
pub struct PacketField {
    /// Its name in a dump.
    pub name: &'static str,
    /// Where it starts: bytes from the packet's first.
    pub offset: u32,
    /// Its bytes, 4 or 8.
    pub width: u32,
}

/// What is fixed of a packet that the front knows.
#[derive(Clone, Copy, Debug, PartialEq, Eq, Hash)]
pub struct PacketLayout {
    /// Its name in a dump.
    pub name: &'static str,
    /// Its opcode.
    pub opcode: u32,
    /// The bytes that it has at least, its header among them. Those of a longer one behind these are appended.
    pub size: u32,
    /// Its fields, by rising offset. Bytes between them are unnamed.
    pub fields: &'static [PacketField],
}

/// A field of 32 bits.
const fn word(name: &'static str, offset: u32) -> PacketField {
    let width = 4;
    PacketField {
        name,
        offset,
        width,
    }
}

/// A field of 64 bits.
const fn long(name: &'static str, offset: u32) -> PacketField {
    let width = 8;
    PacketField {
        name,
        offset,
        width,
    }
}

const fn layout(name: &'static str, row: Row, fields: &'static [PacketField]) -> PacketLayout {
    let (opcode, size) = row;
    PacketLayout {
        name,
        opcode,
        size,
        fields,
    }
}

/// Every packet that the front knows, by rising opcode.
pub const PACKET_LAYOUTS: [PacketLayout; 12] = [
    layout(
        "CreateBuffer",
        CREATE_BUFFER,
        &[
            word("handle", 8),
            long("size", 16),
            word("backing_id", 24),
            word("backing_offset", 28),
        ],
    ),
    layout(
        "CreateTexture",
        CREATE_TEXTURE,
        &[
            word("handle", 8),
            word("format", 16),
            word("width", 20),
            word("height", 24),
            word("mips", 28),
            word("layers", 32),
            word("pitch", 36),
            word("backing_id", 40),
            word("backing_offset", 44),
        ],
    ),
    layout("Destroy", DESTROY, &[word("handle", 8)]),
    layout(
        "DirtyRange",
        DIRTY_RANGE,
        &[word("handle", 8), long("offset", 16), long("size", 24)],
    ),
    layout(
        "CopyBuffer",
        COPY_BUFFER,
        &[
            word("dst", 8),
            word("src", 12),
            long("dst_offset", 16),
            long("src_offset", 24),
            long("size", 32),
            word("flags", 40),
        ],
    ),
    layout("Target", TARGET, &[word("handle", 8)]),
    layout(
        "Viewport",
        VIEWPORT,
        &[
            word("x", 8),
            word("y", 12),
            word("width", 16),
            word("height", 20),
            word("near", 24),
            word("far", 28),
        ],
    ),
    layout(
        "Scissor",
        SCISSOR,
        &[
            word("x", 8),
            word("y", 12),
            word("width", 16),
            word("height", 20),
        ],
    ),
    layout(
        "Clear",
        CLEAR,
        &[
            word("flags", 8),
            word("red", 12),
            word("green", 16),
            word("blue", 20),
            word("alpha", 24),
            word("depth", 28),
            word("stencil", 32),
        ],
    ),
    layout("Export", EXPORT, &[word("handle", 8), long("token", 16)]),
    layout("Import", IMPORT, &[word("handle", 8), long("token", 16)]),
    layout("Release", RELEASE, &[long("token", 8)]),
];

/// What a byte of a packet belongs to. Displayed it is the field's name, or one of `header`, `unnamed`, `appended`, `payload`.
#[derive(Clone, Copy, Debug, PartialEq, Eq, Hash)]
pub enum PacketByte {
    /// The packet's opcode and size.
    Header,
    /// A field of this name.
    Field(&'static str),
    /// No field, but within the bytes that such a packet always has.
    Unnamed,
    /// Behind the bytes that such a packet always has.
    Appended,
    /// Behind the header of a packet that the front does not know.
    Payload,
}

impl PacketLayout {
    /// The layout of the packets with this opcode; `None` if the front does not know it.
    pub fn of(opcode: u32) -> Option<&'static PacketLayout> {
        PACKET_LAYOUTS.iter().find(|layout| layout.opcode == opcode)
    }

    fn byte(&self, offset: u64) -> PacketByte {
        let within = |field: &&PacketField| {
            let start = u64::from(field.offset);
            (start..start + u64::from(field.width)).contains(&offset)
        };
        match self.fields.iter().find(within) {
            Some(field) => PacketByte::Field(field.name),
            None if offset < u64::from(self.size) => PacketByte::Unnamed,
            None => PacketByte::Appended,
        }
    }
}

impl PacketByte {
    /// What the byte at this offset of a packet with this opcode belongs to.
    ///
    /// ```
    /// use zelezmut::guest::PacketByte;
    ///
    /// const DESTROY: u32 = 258;
    /// assert_eq!(PacketByte::at(DESTROY, 4), PacketByte::Header);
    /// assert_eq!(PacketByte::at(DESTROY, 9), PacketByte::Field("handle"));
    /// assert_eq!(PacketByte::at(DESTROY, 12), PacketByte::Unnamed);
    /// assert_eq!(PacketByte::at(DESTROY, 16), PacketByte::Appended);
    /// assert_eq!(PacketByte::at(7, 8), PacketByte::Payload);
    /// ```
    pub fn at(opcode: u32, offset: u64) -> PacketByte {
        if offset < u64::from(PACKET_HEADER) {
            return PacketByte::Header;
        }
        PacketLayout::of(opcode).map_or(PacketByte::Payload, |layout| layout.byte(offset))
    }
}

impl fmt::Display for PacketByte {
    fn fmt(&self, f: &mut fmt::Formatter<'_>) -> fmt::Result {
        f.write_str(match self {
            PacketByte::Header => "header",
            PacketByte::Field(name) => name,
            PacketByte::Unnamed => "unnamed",
            PacketByte::Appended => "appended",
            PacketByte::Payload => "payload",
        })
    }
}

#[cfg(test)]
mod tests {
    use super::super::{Backing, Clear, Packet, Scissor, Shape, Viewport};
    use super::*;

    /// A packet of each layout, with each field's number by its name.
    fn packets() -> Vec<(Packet, Vec<(&'static str, u64)>)> {
        let backing = Some(Backing {
            id: 0x0101_0001,
            offset: 0x0202_0002,
        });
        let float = f32::from_bits;
        let (handle, token) = (0x0303_0003, 0x0404_0004_0404_0004);
        let backed = [("backing_id", 0x0101_0001), ("backing_offset", 0x0202_0002)];
        vec![
            (
                Packet::CreateBuffer {
                    handle,
                    size: 0x0606_0006_0606_0006,
                    backing,
                },
                [
                    &[("handle", 0x0303_0003), ("size", 0x0606_0006_0606_0006)][..],
                    &backed,
                ]
                .concat(),
            ),
            (
                Packet::CreateTexture {
                    handle,
                    shape: Shape {
                        format: 11,
                        width: 12,
                        height: 13,
                        mips: 14,
                        layers: 15,
                        pitch: 16,
                    },
                    backing,
                },
                [
                    &[
                        ("handle", 0x0303_0003),
                        ("format", 11),
                        ("width", 12),
                        ("height", 13),
                    ][..],
                    &[("mips", 14), ("layers", 15), ("pitch", 16)],
                    &backed,
                ]
                .concat(),
            ),
            (Packet::Destroy { handle }, vec![("handle", 0x0303_0003)]),
            (
                Packet::DirtyRange {
                    handle,
                    offset: 1 << 40,
                    size: 1 << 50,
                },
                vec![
                    ("handle", 0x0303_0003),
                    ("offset", 1 << 40),
                    ("size", 1 << 50),
                ],
            ),
            (
                Packet::CopyBuffer {
                    destination: 21,
                    source: 22,
                    destination_offset: 1 << 41,
                    source_offset: 1 << 42,
                    size: 1 << 43,
                    writeback: true,
                },
                vec![
                    ("dst", 21),
                    ("src", 22),
                    ("dst_offset", 1 << 41),
                    ("src_offset", 1 << 42),
                    ("size", 1 << 43),
                    ("flags", 1),
                ],
            ),
            (Packet::Target { handle }, vec![("handle", 0x0303_0003)]),
            (
                Packet::Viewport(Viewport {
                    x: float(31),
                    y: float(32),
                    width: float(33),
                    height: float(34),
                    near: float(35),
                    far: float(36),
                }),
                vec![
                    ("x", 31),
                    ("y", 32),
                    ("width", 33),
                    ("height", 34),
                    ("near", 35),
                    ("far", 36),
                ],
            ),
            (
                Packet::Scissor(Scissor {
                    x: 41,
                    y: 42,
                    width: 43,
                    height: 44,
                }),
                vec![("x", 41), ("y", 42), ("width", 43), ("height", 44)],
            ),
            (
                Packet::Clear(Clear {
                    flags: 51,
                    colour: [52, 53, 54, 55].map(float),
                    depth: float(56),
                    stencil: 57,
                }),
                ["flags", "red", "green", "blue", "alpha", "depth", "stencil"]
                    .into_iter()
                    .zip(51..)
                    .collect(),
            ),
            (
                Packet::Export { handle, token },
                vec![("handle", 0x0303_0003), ("token", token)],
            ),
            (
                Packet::Import { handle, token },
                vec![("handle", 0x0303_0003), ("token", token)],
            ),
            (Packet::Release { token }, vec![("token", token)]),
        ]
    }

    #[test]
    fn fields_are_where_packets_are_written() {
        let packets = packets();
        assert_eq!(packets.len(), PACKET_LAYOUTS.len());
        for ((packet, values), layout) in packets.into_iter().zip(&PACKET_LAYOUTS) {
            let bytes = packet.to_bytes();
            assert_eq!(bytes[..4], layout.opcode.to_le_bytes(), "{}", layout.name);
            assert_eq!(bytes.len(), layout.size as usize, "{}", layout.name);
            let mut unnamed = bytes.clone();
            let read = |field: &PacketField| {
                let (start, width) = (field.offset as usize, field.width as usize);
                unnamed[start..start + width].fill(0);
                let mut value = [0; 8];
                value[..width].copy_from_slice(&bytes[start..start + width]);
                (field.name, u64::from_le_bytes(value))
            };
            let read: Vec<(&str, u64)> = layout.fields.iter().map(read).collect();
            assert_eq!(read, values, "{}", layout.name);
            assert!(
                unnamed[8..].iter().all(|&byte| byte == 0),
                "{}",
                layout.name
            );
        }
    }

    #[test]
    fn fields_rise_and_lie_behind_the_header_and_within_the_packet() {
        for layout in &PACKET_LAYOUTS {
            let mut end = PACKET_HEADER;
            for field in layout.fields {
                assert!(field.offset >= end, "{} {}", layout.name, field.name);
                end = field.offset + field.width;
            }
            assert!(end <= layout.size, "{}", layout.name);
            assert_eq!(PacketLayout::of(layout.opcode), Some(layout));
        }
        assert!(PACKET_LAYOUTS
            .windows(2)
            .all(|two| two[0].opcode < two[1].opcode));
    }

    #[test]
    fn every_byte_belongs_to_something() {
        let texture = |offset| PacketByte::at(257, offset).to_string();
        let words = [0, 7, 8, 11, 12, 16, 47, 48, 55, 56, u64::MAX].map(texture);
        assert_eq!(
            words,
            [
                "header",
                "header",
                "handle",
                "handle",
                "unnamed",
                "format",
                "backing_offset",
                "unnamed",
                "unnamed",
                "appended",
                "appended"
            ]
        );
        assert_eq!(PacketByte::at(260, 8).to_string(), "payload");
        assert_eq!(PacketByte::at(260, 7).to_string(), "header");
        assert_eq!(PacketLayout::of(260), None);
    }
}
