//! Pairs of dumps for the benchmark of their difference: 60 KiB each.

use crate::image::{put32, Stream};
use crate::numbers::{DIRTY_RANGE, PACKET_HEADER, STREAM_HEADER, UNKNOWN_OPCODES};

const STREAM: u32 = 60 * 1024;
const DIRTY_BYTES: u32 = 32;

#[derive(Clone, Copy, Debug, PartialEq, Eq)]
pub enum Dumps {
    /// Dirty ranges, the last byte of the last differs.
    LastByte,
    /// The same, all equal.
    Equal,
    /// The shortest packets that nobody knows, all equal.
    Unknown,
    /// One packet that nobody knows, its last byte differs.
    OnePacket,
    /// The same, all equal.
    OneEqual,
    /// The same, all bytes behind the header differ.
    OneAll,
}

pub const DUMPS: [Dumps; 6] = [
    Dumps::LastByte,
    Dumps::Equal,
    Dumps::Unknown,
    Dumps::OnePacket,
    Dumps::OneEqual,
    Dumps::OneAll,
];

impl Dumps {
    pub fn key(self) -> &'static str {
        match self {
            Dumps::LastByte => "diff-last-byte",
            Dumps::Equal => "diff-equal",
            Dumps::Unknown => "diff-unknown",
            Dumps::OnePacket => "diff-one-packet",
            Dumps::OneEqual => "diff-one-equal",
            Dumps::OneAll => "diff-one-all",
        }
    }

    pub fn input(self) -> &'static str {
        match self {
            Dumps::LastByte => "two streams of 1,919 dirty ranges that differ in their last byte: the class of every pair, and every differing offset",
            Dumps::Equal => "the same of equal streams",
            Dumps::Unknown => "the same of equal streams of 7,677 unknown packets of 8 bytes",
            Dumps::OnePacket => "the same of streams of one unknown packet that differ in their last byte",
            Dumps::OneEqual => "the same of equal streams of one unknown packet",
            Dumps::OneAll => "the same of streams of one unknown packet that differ in all bytes behind its header",
        }
    }

    /// Both streams.
    pub fn streams(self) -> [Vec<u8>; 2] {
        let room = STREAM - STREAM_HEADER;
        let (opcode, size) = match self {
            Dumps::LastByte | Dumps::Equal => (DIRTY_RANGE, DIRTY_BYTES),
            Dumps::Unknown => (UNKNOWN_OPCODES[1], PACKET_HEADER),
            Dumps::OnePacket | Dumps::OneEqual | Dumps::OneAll => (UNKNOWN_OPCODES[1], room),
        };
        let mut packet = vec![0; size as usize];
        put32(&mut packet, 0, opcode);
        put32(&mut packet, 4, size);
        let first = stream(vec![packet; (room / size) as usize]);
        let mut second = first.clone();
        let from = match self {
            Dumps::LastByte | Dumps::OnePacket => second.len() - 1,
            Dumps::Equal | Dumps::Unknown | Dumps::OneEqual => second.len(),
            Dumps::OneAll => (STREAM_HEADER + PACKET_HEADER) as usize,
        };
        second[from..].fill(1);
        [first, second]
    }
}

/// A stream whose header has zeros where nothing is named.
fn stream(packets: Vec<Vec<u8>>) -> Vec<u8> {
    let stream = Stream::new(packets);
    let mut bytes = vec![0; STREAM_HEADER as usize];
    put32(&mut bytes, 0, stream.magic);
    put32(&mut bytes, 4, stream.version);
    put32(&mut bytes, 8, stream.size);
    bytes.extend(stream.packets.concat());
    bytes
}

#[cfg(test)]
mod tests {
    use super::{Dumps, DUMPS};
    use zelezmut::diff::Difference;

    #[test]
    fn the_dumps_are_as_long_as_they_are_said_to_be() {
        let told = DUMPS.map(|dumps| {
            let [first, second] = dumps.streams();
            let difference = Difference::of(&first, &second).expect("good streams");
            let offsets = difference.pairs().map(|pair| pair.offsets().count());
            (difference.pairs().count(), offsets.sum::<usize>())
        });
        let all = 60 * 1024 - 32;
        assert_eq!(
            told,
            [(1_919, 1), (1_919, 0), (7_677, 0), (1, 1), (1, 0), (1, all)]
        );
        for dumps in DUMPS {
            let long = dumps.streams().map(|stream| stream.len() > 60 * 1024 - 32);
            assert_eq!(long, [true, true], "{:?}", dumps);
        }
        assert_eq!(Dumps::OnePacket.streams()[0].len(), 60 * 1024);
    }
}
