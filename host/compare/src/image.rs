//! What a guest writes into memory: ring header, descriptor, table and stream, as bytes.
//! Every number can be set by itself, also to one that fits nothing else.

use crate::numbers::{
    DESCRIPTOR, ENTRY, RING_HEADER, RING_MAGIC, STREAM_HEADER, STREAM_MAGIC, TABLE_HEADER,
    TABLE_MAGIC, VERSION,
};
use crate::random::Random;

pub fn put32(bytes: &mut [u8], at: usize, value: u32) {
    bytes[at..at + 4].copy_from_slice(&value.to_le_bytes());
}

/// Words from the first byte on, one behind the other.
pub fn put_words(bytes: &mut [u8], words: &[u32]) {
    for (i, &value) in words.iter().enumerate() {
        put32(bytes, 4 * i, value);
    }
}

pub fn put64(bytes: &mut [u8], at: usize, value: u64) {
    bytes[at..at + 8].copy_from_slice(&value.to_le_bytes());
}

/// Bytes that no field has been put into yet: zeros or noise, since bytes not named are ignored.
pub fn blank(random: &mut Random, length: usize) -> Vec<u8> {
    let mut bytes = vec![0; length];
    if random.percent(40) {
        random.noise(&mut bytes);
    }
    bytes
}

/// A flags field of which bit 0 is named; the others are set now and then, since they are ignored.
pub fn flags(random: &mut Random, named: bool) -> u32 {
    let others = if random.percent(20) {
        random.word() & !1
    } else {
        0
    };
    others | u32::from(named)
}

#[derive(Clone, Debug)]
pub struct RingHeader {
    pub magic: u32,
    pub version: u32,
    pub size: u32,
    pub count: u32,
    pub stride: u32,
    pub head: u32,
    pub tail: u32,
}

impl RingHeader {
    /// A ring without work whose header size is just what its slots need.
    pub fn new(count: u32, stride: u32, head: u32) -> RingHeader {
        RingHeader {
            magic: RING_MAGIC,
            version: VERSION,
            size: RING_HEADER + count * stride,
            count,
            stride,
            head,
            tail: head,
        }
    }

    pub fn bytes(&self, random: &mut Random) -> Vec<u8> {
        let mut bytes = blank(random, RING_HEADER as usize);
        let begins = [self.magic, self.version, self.size, self.count, self.stride];
        put_words(&mut bytes, &begins);
        put32(&mut bytes, 24, self.head);
        put32(&mut bytes, 28, self.tail);
        bytes
    }
}

/// A range of guest memory as a descriptor names it; none is both zero.
#[derive(Clone, Copy, Debug, Default, PartialEq, Eq)]
pub struct Range {
    pub gpa: u64,
    pub size: u32,
}

#[derive(Clone, Debug)]
pub struct Descriptor {
    pub size: u32,
    pub flags: u32,
    pub stream: Range,
    pub table: Range,
    pub signal: u64,
}

impl Descriptor {
    pub fn bytes(&self, random: &mut Random) -> Vec<u8> {
        let mut bytes = blank(random, DESCRIPTOR as usize);
        put32(&mut bytes, 0, self.size);
        put32(&mut bytes, 4, self.flags);
        put64(&mut bytes, 16, self.stream.gpa);
        put32(&mut bytes, 24, self.stream.size);
        put64(&mut bytes, 32, self.table.gpa);
        put32(&mut bytes, 40, self.table.size);
        put64(&mut bytes, 48, self.signal);
        bytes
    }
}

#[derive(Clone, Copy, Debug)]
pub struct Entry {
    pub id: u32,
    pub flags: u32,
    pub gpa: u64,
    pub size: u64,
}

impl Entry {
    pub fn put(&self, bytes: &mut [u8]) {
        put32(bytes, 0, self.id);
        put32(bytes, 4, self.flags);
        put64(bytes, 8, self.gpa);
        put64(bytes, 16, self.size);
    }
}

#[derive(Clone, Debug)]
pub struct Table {
    pub magic: u32,
    pub version: u32,
    pub size: u32,
    pub count: u32,
    pub stride: u32,
    pub entries: Vec<Entry>,
    /// Where the entries really lie, whatever the header's stride says.
    step: usize,
}

impl Table {
    /// A table whose header fits its entries.
    pub fn new(entries: Vec<Entry>, stride: u32) -> Table {
        let count = entries.len() as u32;
        Table {
            magic: TABLE_MAGIC,
            version: VERSION,
            size: TABLE_HEADER + count * stride,
            count,
            stride,
            entries,
            step: stride.max(ENTRY) as usize,
        }
    }

    pub fn entry_at(&self, i: usize) -> usize {
        TABLE_HEADER as usize + i * self.step
    }

    pub fn bytes(&self, random: &mut Random) -> Vec<u8> {
        let mut bytes = blank(random, self.entry_at(self.entries.len()));
        let begins = [self.magic, self.version, self.size, self.count, self.stride];
        put_words(&mut bytes, &begins);
        for (i, entry) in self.entries.iter().enumerate() {
            entry.put(&mut bytes[self.entry_at(i)..]);
        }
        bytes
    }
}

#[derive(Clone, Debug)]
pub struct Stream {
    pub magic: u32,
    pub version: u32,
    pub size: u32,
    /// Each packet as its bytes, header included.
    pub packets: Vec<Vec<u8>>,
}

impl Stream {
    /// A stream whose header fits its packets.
    pub fn new(packets: Vec<Vec<u8>>) -> Stream {
        let length: usize = packets.iter().map(Vec::len).sum();
        Stream {
            magic: STREAM_MAGIC,
            version: VERSION,
            size: STREAM_HEADER + length as u32,
            packets,
        }
    }

    /// Where packet `i` begins, or the end of the stream.
    pub fn packet_at(&self, i: usize) -> usize {
        STREAM_HEADER as usize + self.packets[..i].iter().map(Vec::len).sum::<usize>()
    }

    pub fn bytes(&self, random: &mut Random) -> Vec<u8> {
        let mut bytes = blank(random, STREAM_HEADER as usize);
        put32(&mut bytes, 0, self.magic);
        put32(&mut bytes, 4, self.version);
        put32(&mut bytes, 8, self.size);
        for packet in &self.packets {
            bytes.extend_from_slice(packet);
        }
        bytes
    }
}
