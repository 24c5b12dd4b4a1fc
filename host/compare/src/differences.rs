//! Pairs of streams for the difference of two dumps: the second is the first with one thing changed, or one of them is bad.

use crate::image::{put32, Stream};
use crate::numbers::{error, KNOWN_PACKETS, PACKET_HEADER, STREAM_HEADER, UNKNOWN_OPCODES};
use crate::packet::any;
use crate::random::Random;
use zelezmut::guest::PacketByte;

/// How the second stream differs from the first.
#[derive(Clone, Copy, Debug, PartialEq, Eq, PartialOrd, Ord)]
pub enum Change {
    Nothing,
    /// A byte of the stream's header that no rule asks for, or of its minor version.
    StreamHeader,
    /// A byte of a packet's header. Most often the stream is bad then.
    PacketHeader,
    /// A byte of a field.
    Field,
    /// A byte between the fields.
    Unnamed,
    /// A byte behind the table size of a known packet.
    Appended,
    /// A byte behind the header of an unknown packet.
    Payload,
    /// Bytes behind the stream's size.
    Trailing,
    /// A packet has more bytes.
    Grown,
    /// A packet has fewer bytes.
    Cut,
    OtherOpcode,
    /// The second is the first without its last packets, or the other way round.
    Prefix,
    /// One of them has no packets.
    Empty,
    /// They have nothing in common.
    Others,
    /// One of them breaks a rule.
    OneBad,
    BothBad,
}

impl Change {
    pub const ALL: [Change; 16] = [
        Change::Nothing,
        Change::StreamHeader,
        Change::PacketHeader,
        Change::Field,
        Change::Unnamed,
        Change::Appended,
        Change::Payload,
        Change::Trailing,
        Change::Grown,
        Change::Cut,
        Change::OtherOpcode,
        Change::Prefix,
        Change::Empty,
        Change::Others,
        Change::OneBad,
        Change::BothBad,
    ];

    /// Whether bytes that never count are all that is changed.
    pub fn leaves_all_equal(self) -> bool {
        matches!(
            self,
            Change::Nothing | Change::StreamHeader | Change::Trailing
        )
    }

    /// Whether a packet's byte is of the kind that is to be changed.
    fn is_of(self, byte: PacketByte) -> bool {
        match self {
            Change::PacketHeader => byte == PacketByte::Header,
            Change::Field => matches!(byte, PacketByte::Field(_)),
            Change::Unnamed => byte == PacketByte::Unnamed,
            Change::Appended => byte == PacketByte::Appended,
            Change::Payload => byte == PacketByte::Payload,
            _ => false,
        }
    }
}

/// Two streams, each in a slice that may go on behind its size.
#[derive(Clone, Debug)]
pub struct Drawn {
    pub first: Vec<u8>,
    pub second: Vec<u8>,
    pub change: Change,
    /// The packet and its only byte that differ, where one byte behind a packet's header was changed.
    pub only: Option<(u64, u64)>,
}

type Packets = Vec<Vec<u8>>;

/// Draws a pair. Where a change cannot be made, none is.
pub fn some_pair(random: &mut Random) -> Drawn {
    let mut packets = some_packets(random);
    let mut other = packets.clone();
    let drawn = random.pick(&Change::ALL);
    let (change, only) = match change_packets(random, &mut other, drawn) {
        Some(only) => (drawn, only),
        None => (Change::Nothing, None),
    };
    if random.coin() {
        std::mem::swap(&mut packets, &mut other);
    }
    let mut streams = [packets, other].map(|packets| Stream::new(packets).bytes(random));
    if random.coin() {
        // The same header, too: all bytes are equal where nothing else is changed.
        let [first, second] = &mut streams;
        let unnamed = 12..STREAM_HEADER as usize;
        second[unnamed.clone()].copy_from_slice(&first[unnamed]);
    }
    change_streams(random, &mut streams, change);
    let [first, second] = streams;
    Drawn {
        first,
        second,
        change,
        only,
    }
}

/// Makes a change to packets; `None` if there is no place for it. Gives the only byte that differs, if it is one behind a header.
fn change_packets(
    random: &mut Random,
    packets: &mut Packets,
    change: Change,
) -> Option<Option<(u64, u64)>> {
    let done = match change {
        Change::Field | Change::Unnamed | Change::Appended | Change::Payload => {
            return turn_byte(random, packets, change).map(Some)
        }
        Change::PacketHeader => turn_byte(random, packets, change).is_some(),
        Change::Grown => resize(random, packets, grown),
        Change::Cut => resize(random, packets, cut),
        Change::OtherOpcode => rename(random, packets),
        Change::Prefix => shorten(random, packets),
        Change::Empty => {
            packets.clear();
            true
        }
        Change::Others => {
            *packets = some_packets(random);
            true
        }
        _ => true,
    };
    Some(None).filter(|_| done)
}

fn some_packets(random: &mut Random) -> Packets {
    let count = random.within(0..=7);
    (0..count).map(|_| some_packet(random)).collect()
}

/// What is changed of a stream as a whole.
fn change_streams(random: &mut Random, streams: &mut [Vec<u8>; 2], change: Change) {
    match change {
        Change::StreamHeader => {
            let at = random.pick(&[4, 5, 12, 13, 19, 23]);
            streams[1][at] ^= 1 << random.within(0..=7);
        }
        Change::Trailing => {
            let bytes = random.within(1..=12) as usize;
            let stream = &mut streams[random.index(2)];
            let end = stream.len();
            stream.resize(end + bytes, 0);
            random.noise(&mut stream[end..]);
        }
        Change::OneBad => {
            let which = random.index(2);
            spoil(random, &mut streams[which]);
        }
        Change::BothBad => streams.iter_mut().for_each(|stream| spoil(random, stream)),
        _ => {}
    }
}

fn some_packet(random: &mut Random) -> Vec<u8> {
    let (opcode, size) = if random.percent(60) {
        let (opcode, least) = random.pick(&KNOWN_PACKETS);
        let more = 4 * random.within(1..=5) as u32;
        (
            opcode,
            if random.percent(40) {
                least + more
            } else {
                least
            },
        )
    } else {
        let size = PACKET_HEADER + 4 * random.within(0..=6) as u32;
        (random.pick(&UNKNOWN_OPCODES), size)
    };
    any(random, opcode, size)
}

fn opcode_of(packet: &[u8]) -> u32 {
    u32::from_le_bytes([packet[0], packet[1], packet[2], packet[3]])
}

/// Changes one byte of a kind, if there is one: the packet's index and the byte's offset.
fn turn_byte(random: &mut Random, packets: &mut Packets, change: Change) -> Option<(u64, u64)> {
    let mut places = Vec::new();
    for (index, packet) in packets.iter().enumerate() {
        let opcode = opcode_of(packet);
        let of_kind = |&offset: &usize| change.is_of(PacketByte::at(opcode, offset as u64));
        places.extend((0..packet.len()).filter(of_kind).map(|at| (index, at)));
    }
    if places.is_empty() {
        return None;
    }
    let (index, at) = random.pick(&places);
    packets[index][at] ^= random.within(1..=255) as u8;
    Some((index as u64, at as u64))
}

/// Gives a packet another size, if it can have one.
fn resize(
    random: &mut Random,
    packets: &mut Packets,
    resized: fn(&mut Random, &mut Vec<u8>),
) -> bool {
    if packets.is_empty() {
        return false;
    }
    let index = random.index(packets.len());
    let packet = &mut packets[index];
    let before = packet.len();
    resized(random, packet);
    let size = packet.len() as u32;
    put32(packet, 4, size);
    packet.len() != before
}

fn grown(random: &mut Random, packet: &mut Vec<u8>) {
    let more = 4 * random.within(1..=5) as usize;
    let end = packet.len();
    packet.resize(end + more, 0);
    if random.coin() {
        random.noise(&mut packet[end..]);
    }
}

/// To any size that such a packet may have.
fn cut(random: &mut Random, packet: &mut Vec<u8>) {
    let opcode = opcode_of(packet);
    let row = KNOWN_PACKETS.iter().find(|(known, _)| *known == opcode);
    let least = row.map_or(PACKET_HEADER, |(_, least)| *least) as usize;
    let words = (packet.len() - least) / 4;
    packet.truncate(least + 4 * random.within(0..=words as u64) as usize);
}

/// Gives a packet another opcode, of a packet that is not longer.
fn rename(random: &mut Random, packets: &mut Packets) -> bool {
    if packets.is_empty() {
        return false;
    }
    let index = random.index(packets.len());
    let packet = &mut packets[index];
    let fits = |(_, least): &&(u32, u32)| *least as usize <= packet.len();
    let mut opcodes: Vec<u32> = KNOWN_PACKETS.iter().filter(fits).map(|row| row.0).collect();
    opcodes.extend(UNKNOWN_OPCODES);
    opcodes.retain(|opcode| *opcode != opcode_of(packet));
    let opcode = random.pick(&opcodes);
    put32(packet, 0, opcode);
    true
}

fn shorten(random: &mut Random, packets: &mut Packets) -> bool {
    if packets.is_empty() {
        return false;
    }
    packets.truncate(random.index(packets.len()));
    true
}

/// Breaks rule 16 or 17, whichever the last change breaks.
fn spoil(random: &mut Random, stream: &mut Vec<u8>) {
    let size = stream.len() as u32;
    if random.coin() {
        spoil_header(random, stream, size);
    } else if size == STREAM_HEADER || random.percent(30) {
        // Bytes are left over behind the last packet, too few for another one.
        let left = random.within(1..=7) as u32;
        stream.resize((size + left) as usize, 0);
        put32(stream, 8, size + left);
    } else {
        spoil_packet(random, stream, size);
    }
}

fn spoil_header(random: &mut Random, stream: &mut Vec<u8>, size: u32) {
    match random.within(0..=4) {
        0 => stream[random.index(4)] ^= 0x20,
        1 => stream[6] = random.pick(&[0, 2, 255]),
        2 => put32(stream, 8, random.pick(&[0, 23, size + 1, u32::MAX])),
        3 => stream.truncate(random.index(size as usize)),
        _ => stream.clear(),
    }
}

/// The size of one of its packets, found by their own sizes.
fn spoil_packet(random: &mut Random, stream: &mut [u8], size: u32) {
    let mut places = vec![STREAM_HEADER as usize];
    loop {
        let at = places[places.len() - 1];
        let next = at + opcode_of(&stream[at + 4..]) as usize;
        if next >= size as usize {
            break;
        }
        places.push(next);
    }
    let at = random.pick(&places);
    let bad = random.pick(&[0, 4, 7, 9, 10, size, u32::MAX, u32::MAX - 3]);
    put32(stream, at + 4, bad);
}

/// The rules that a stream is refused for.
pub const REFUSALS: [u32; 2] = [error::STREAM, error::PACKET];

/// Indices to ask about: all that there are, the next ones, and some far behind.
pub fn some_indices(random: &mut Random, packets: u64) -> Vec<u64> {
    let far = [
        1 << 32,
        (1 << 32) + random.within(0..=packets),
        u64::MAX,
        random.any_size(),
    ];
    (0..=packets + 1).chain(far).collect()
}

/// Offsets to ask from: near those of a packet, and some far behind.
pub fn some_offset(random: &mut Random) -> u64 {
    match random.within(0..=9) {
        0 => 0,
        1 => (1 << 32) + random.within(0..=40),
        2 => u64::MAX,
        3 => random.any_size(),
        _ => random.within(0..=60),
    }
}
