//! Random dumps: streams of every packet, grown, cut, damaged or noise, with the strict setting; and what their listings reach.

use crate::floats;
use crate::image::{put32, put64, Stream};
use crate::numbers::{KNOWN_PACKETS, PACKET_HEADER, STREAM_HEADER, UNKNOWN_OPCODES};
use crate::packet;
use crate::random::Random;
use crate::twists::frame::{some_version, wrong_magic};
use std::collections::BTreeMap;

/// The most bytes of a dump that a program reads.
pub const LONGEST_DUMP: usize = 65_536;

/// A stream to be listed.
#[derive(Clone, Debug)]
pub struct Dump {
    pub stream: Vec<u8>,
    pub strict: bool,
}

impl Dump {
    /// What a program reads: the setting, and the stream.
    pub fn input(&self) -> Vec<u8> {
        [&[self.strict.into()], &self.stream[..]].concat()
    }
}

/// A dump of any kind, most of them with a few packets.
pub fn some_dump(random: &mut Random) -> Dump {
    let stream = if random.percent(5) {
        noise(random)
    } else {
        let mut stream = some_stream(random);
        for _ in 0..random.pick(&[0, 0, 1, 1, 2]) {
            twist(random, &mut stream);
        }
        stream
    };
    let strict = random.coin();
    Dump { stream, strict }
}

/// A stream whose header fits its packets.
fn some_stream(random: &mut Random) -> Vec<u8> {
    // A listing that is to stop nowhere has no unknown packet in it.
    let unknown = random.pick(&[0, 20, 50]);
    let count = match random.within(0..=99) {
        0 => random.within(500..=2_000),
        _ => random.edgy(0..=12),
    };
    let packets = (0..count).map(|_| some_packet(random, unknown)).collect();
    Stream::new(packets).bytes(random)
}

/// A packet with any numbers, unknown this many times in a hundred.
fn some_packet(random: &mut Random, unknown: u64) -> Vec<u8> {
    let mut bytes = if random.percent(unknown) {
        let opcode = match random.coin() {
            true => random.pick(&UNKNOWN_OPCODES),
            false => random.word(),
        };
        let size = PACKET_HEADER + 4 * random.edgy(0..=16) as u32;
        packet::any(random, opcode, size)
    } else {
        let (opcode, least) = random.pick(&KNOWN_PACKETS);
        let more = match random.percent(25) {
            true => 4 * random.within(1..=5) as u32,
            false => 0,
        };
        packet::any(random, opcode, least + more)
    };
    put_numbers(random, &mut bytes[PACKET_HEADER as usize..]);
    bytes
}

/// Puts numbers of all sizes, those at the ends of their types more often than the rest.
fn put_numbers(random: &mut Random, fields: &mut [u8]) {
    for at in (0..fields.len()).step_by(4) {
        match random.within(0..=5) {
            0 => put32(fields, at, random.within(0..=100) as u32),
            1 => put32(fields, at, floats::any(random)),
            2 => put32(fields, at, random.any_size() as u32),
            3 => put32(
                fields,
                at,
                random.pick(&[0, 1 << 31, (1 << 31) - 1, u32::MAX]),
            ),
            4 if fields.len() - at >= 8 => put64(fields, at, u64::MAX),
            _ => (),
        }
    }
}

/// Bytes of any kind, behind a good header as often as not.
fn noise(random: &mut Random) -> Vec<u8> {
    let length = random.edgy(0..=200) as usize;
    let mut bytes = vec![0; length];
    random.noise(&mut bytes);
    if random.coin() {
        let mut stream = Stream::new(vec![bytes]).bytes(random);
        // Sizes of noise are mostly far too large.
        if length >= 8 && random.coin() {
            put32(&mut stream, 28, random.within(0..=16) as u32 * 4);
        }
        return stream;
    }
    bytes
}

/// Damages a stream, or leaves it good with something that is ignored.
fn twist(random: &mut Random, stream: &mut Vec<u8>) {
    if stream.len() < STREAM_HEADER as usize {
        return;
    }
    match random.within(0..=7) {
        0 => {
            let magic = u32::from_le_bytes([stream[0], stream[1], stream[2], stream[3]]);
            put32(stream, 0, wrong_magic(random, magic));
        }
        1 => put32(stream, 4, some_version(random).0),
        2 => {
            let size = stream.len() as u32;
            let sizes = [0, 8, 23, 24, size - 1, size, size + 1, size / 2, u32::MAX];
            put32(stream, 8, random.pick(&sizes));
        }
        3 => {
            let behind = random.within(1..=40) as usize;
            stream.resize(stream.len() + behind, 0xAB);
        }
        4 => stream.truncate(random.index(stream.len() + 1)),
        5 => cut(random.index(stream.len() + 1), stream),
        6 => {
            let at = random.index(stream.len());
            stream[at] ^= 1 << random.within(0..=7);
        }
        _ => spoil_size(random, stream),
    }
}

/// Cuts a stream at a byte, and its header's size with it; the header itself is not cut.
pub fn cut(at: usize, stream: &mut Vec<u8>) {
    stream.truncate(at.max(STREAM_HEADER as usize));
    let size = stream.len() as u32;
    put32(stream, 8, size);
}

/// Gives a packet another size.
fn spoil_size(random: &mut Random, stream: &mut [u8]) {
    let starts = packet_starts(stream);
    if starts.is_empty() {
        return;
    }
    let at = random.pick(&starts);
    let left = (stream.len() - at) as u32;
    let size = random.edgy(0..=u64::from(left) + 4) as u32;
    put32(
        stream,
        at + 4,
        random.pick(&[size, size / 4 * 4, left, left + 4, 0, 4, 8, u32::MAX]),
    );
}

/// Where packets start, as far as their sizes lead.
fn packet_starts(stream: &[u8]) -> Vec<usize> {
    let mut starts = Vec::new();
    let mut at = STREAM_HEADER as usize;
    while let Some(header) = stream.get(at..at + PACKET_HEADER as usize) {
        starts.push(at);
        let size = u32::from_le_bytes([header[4], header[5], header[6], header[7]]);
        at += size.max(PACKET_HEADER) as usize;
    }
    starts
}

/// One of each packet, grown ones and unknown ones too.
pub fn every_packet(random: &mut Random) -> Vec<u8> {
    let mut packets = Vec::new();
    for (opcode, least) in KNOWN_PACKETS {
        for more in [0, 4, 12] {
            let mut bytes = packet::any(random, opcode, least + more);
            put_numbers(random, &mut bytes[PACKET_HEADER as usize..]);
            packets.push(bytes);
        }
    }
    for (opcode, size) in UNKNOWN_OPCODES.into_iter().zip((8..).step_by(4)) {
        packets.push(packet::any(random, opcode, size));
    }
    Stream::new(packets).bytes(random)
}

/// A good stream of just this many bytes: packets of 8 bytes, and the last one longer. What is left over is behind the stream.
pub fn stream_of_length(random: &mut Random, length: usize) -> Vec<u8> {
    let room = length - STREAM_HEADER as usize;
    let mut packets: Vec<Vec<u8>> = (0..room / 8)
        .map(|_| packet::any(random, UNKNOWN_OPCODES[0], 8))
        .collect();
    if let Some(last) = packets.last_mut().filter(|_| room % 8 >= 4) {
        *last = packet::any(random, u32::MAX, 12);
    }
    let mut bytes = Stream::new(packets).bytes(random);
    bytes.resize(length, 0xAB);
    bytes
}

/// What listings reached, by a key for each thing.
#[derive(Debug, Default)]
pub struct Reached(BTreeMap<String, u32>);

/// What every run of many dumps reaches, besides each packet, and each packet grown.
pub const REACHED: [&str; 16] = [
    "UNKNOWN",
    "STOPPED",
    "error=16",
    "error=17",
    "error=17 behind a line",
    "no line",
    "strict and not stopped",
    "not strict, unknown, and on",
    "bytes behind the stream",
    "quiet NaN",
    "signalling NaN",
    "least i32",
    "largest i32",
    "-1",
    "largest u64",
    "largest opcode",
];

impl Reached {
    /// Notes what a dump's listing has.
    pub fn note(&mut self, dump: &Dump, text: &str) {
        let lines: Vec<&str> = text.lines().collect();
        let has = |words: &str| lines.iter().any(|line| line.contains(words));
        let mut reached = Vec::new();
        for line in &lines {
            let words: Vec<&str> = line.split(' ').collect();
            reached.extend(noted_of_a_line(&words));
        }
        let (stopped, unknown) = (has(" STOPPED "), has(" UNKNOWN "));
        for (key, met) in [
            ("no line", lines.is_empty()),
            ("error=17 behind a line", lines.len() > 1 && has("error=17")),
            (
                "strict and not stopped",
                dump.strict && !stopped && !has("error="),
            ),
            (
                "not strict, unknown, and on",
                unknown && lines.last().map_or(false, |last| !last.contains("UNKNOWN")),
            ),
            (
                "bytes behind the stream",
                is_longer(&dump.stream) && !has("error=16"),
            ),
        ] {
            if met {
                reached.push(key.to_string());
            }
        }
        reached.sort();
        reached.dedup();
        for key in reached {
            *self.0.entry(key).or_insert(0) += 1;
        }
    }

    /// How many dumps reached it.
    pub fn times(&self, key: &str) -> u32 {
        self.0.get(key).copied().unwrap_or(0)
    }
}

/// Whether a stream's own size is less than its bytes.
fn is_longer(stream: &[u8]) -> bool {
    stream.get(8..12).map_or(false, |size| {
        (u32::from_le_bytes([size[0], size[1], size[2], size[3]]) as usize) < stream.len()
    })
}

/// What a line has: its packet's name, whether that is grown, and the numbers at the ends.
fn noted_of_a_line(words: &[&str]) -> Vec<String> {
    let (name, size, fields) = match words {
        [_, name, size, fields @ ..] => (*name, *size, fields),
        words => return words.iter().map(|word| word.to_string()).collect(),
    };
    let mut noted = vec![name.to_string()];
    let least = KNOWN_NAMES.iter().find(|(known, _)| *known == name);
    if least.map_or(false, |(_, least)| size != format!("size_bytes={}", least)) {
        noted.push(format!("{} grown", name));
    }
    for field in fields {
        let (_, value) = field.split_once('=').unwrap_or(("", ""));
        let key = match (name, value) {
            ("Scissor", "-2147483648") => "least i32",
            ("Scissor", "2147483647") => "largest i32",
            ("Scissor", "-1") => "-1",
            ("UNKNOWN" | "STOPPED", "4294967295") => "largest opcode",
            (_, "18446744073709551615") => "largest u64",
            ("Viewport" | "Clear", bits) => match nan_of(field, bits) {
                Some(key) => key,
                None => continue,
            },
            _ => continue,
        };
        noted.push(key.to_string());
    }
    noted
}

fn nan_of(field: &str, bits: &str) -> Option<&'static str> {
    let bits: u32 = bits.parse().ok()?;
    let is_float = !field.starts_with("flags=") && !field.starts_with("stencil=");
    match (
        is_float && f32::from_bits(bits).is_nan(),
        bits & 0x0040_0000,
    ) {
        (false, _) => None,
        (true, 0) => Some("signalling NaN"),
        (true, _) => Some("quiet NaN"),
    }
}

/// The names in listings, and the table sizes.
pub const KNOWN_NAMES: [(&str, u32); 12] = [
    ("CreateBuffer", 40),
    ("CreateTexture", 56),
    ("Destroy", 16),
    ("DirtyRange", 32),
    ("CopyBuffer", 48),
    ("Target", 16),
    ("Viewport", 32),
    ("Scissor", 24),
    ("Clear", 36),
    ("Export", 24),
    ("Import", 24),
    ("Release", 16),
];
