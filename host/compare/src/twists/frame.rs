//! Twists of a submission's frame: descriptor (11), ranges (12), table header (13) and stream header (16).

use super::{broken, judged, kept, Aim};
use crate::image::{Descriptor, Range, Stream, Table};
use crate::numbers::error::{DESCRIPTOR as DESCRIPTOR_ERROR, PACKET, RANGE, STREAM, TABLE};
use crate::numbers::{DESCRIPTOR, ENTRY, STREAM_HEADER, TABLE_HEADER};
use crate::random::Random;

/// A good submission that has its place in memory, or one with a twist already.
pub struct Frame<'a> {
    pub random: &'a mut Random,
    pub memory: u64,
    /// The ring's stride.
    pub stride: u32,
    pub descriptor: &'a mut Descriptor,
    pub table: Option<&'a mut Table>,
    pub stream: Option<&'a mut Stream>,
}

/// None, with nothing spoilt, where the submission has not what the rule speaks of.
pub type FrameTwist = fn(&mut Frame) -> Option<Aim>;

pub const TWISTS: &[FrameTwist] = &[
    descriptor_size,
    half_a_range,
    range_sum,
    range_end,
    range_far_out,
    table_range_before_stream_range,
    table_size,
    table_magic,
    table_version,
    table_header_size,
    table_stride,
    table_count,
    stream_size,
    stream_magic,
    stream_version,
    stream_header_size,
    stream_cut,
];

impl Frame<'_> {
    /// One of the descriptor's ranges that is present.
    fn range(&mut self) -> Option<&mut Range> {
        match (self.table.is_some(), self.stream.is_some()) {
            (false, false) => None,
            (true, true) if self.random.coin() => Some(&mut self.descriptor.table),
            (true, false) => Some(&mut self.descriptor.table),
            _ => Some(&mut self.descriptor.stream),
        }
    }
}

/// A version, and whether its major number is 1.
pub fn some_version(random: &mut Random) -> (u32, bool) {
    random.pick(&[
        (0x0001_0000, true),
        (0x0001_0004, true),
        (0x0001_ffff, true),
        (0x0000_ffff, false),
        (0x0002_0000, false),
        (0x0002_0003, false),
        (0, false),
        (0x0003_0001, false),
        (u32::MAX, false),
    ])
}

/// A magic with one bit wrong.
pub fn wrong_magic(random: &mut Random, magic: u32) -> u32 {
    magic ^ 1 << random.within(0..=31)
}

fn descriptor_size(frame: &mut Frame) -> Option<Aim> {
    let size = frame.random.pick(&[
        0,
        DESCRIPTOR - 1,
        DESCRIPTOR,
        frame.stride,
        frame.stride + 1,
        u32::MAX,
    ]);
    frame.descriptor.size = size;
    judged(
        "descriptor: size",
        (DESCRIPTOR..=frame.stride).contains(&size),
        DESCRIPTOR_ERROR,
    )
}

fn half_a_range(frame: &mut Frame) -> Option<Aim> {
    let range = if frame.random.coin() {
        &mut frame.descriptor.stream
    } else {
        &mut frame.descriptor.table
    };
    let half = *range;
    match (half == Range::default(), frame.random.coin()) {
        (true, true) => range.gpa = frame.random.pick(&[1, 64, 1 << 32, u64::MAX]),
        (true, false) => range.size = frame.random.pick(&[1, 24, u32::MAX]),
        (false, true) => range.gpa = 0,
        (false, false) => range.size = 0,
    }
    if *range == half {
        return None;
    }
    broken("descriptor: half a range", DESCRIPTOR_ERROR)
}

fn range_sum(frame: &mut Frame) -> Option<Aim> {
    let past = frame.random.within(0..=1);
    let range = frame.range()?;
    range.gpa = (u64::MAX - u64::from(range.size)).checked_add(past)?;
    if past == 1 {
        broken("descriptor: sum above 2^64 - 1", DESCRIPTOR_ERROR)
    } else {
        broken("descriptor: sum just 2^64 - 1", RANGE)
    }
}

/// The other side, a range that ends with the memory, is met where one is placed so.
fn range_end(frame: &mut Frame) -> Option<Aim> {
    let memory = frame.memory;
    let range = frame.range()?;
    range.gpa = (memory + 1).checked_sub(range.size.into())?;
    broken("range: end of the memory", RANGE)
}

fn range_far_out(frame: &mut Frame) -> Option<Aim> {
    let (gpa, size) = frame.random.pick(&[
        (1 << 63, 24),
        (1 << 32, 24),
        ((1 << 32) + 64, 64),
        (64, u32::MAX),
        (1, 1 << 31),
        (u64::MAX - u64::from(u32::MAX), u32::MAX),
    ]);
    *frame.range()? = Range { gpa, size };
    broken("range: far out", RANGE)
}

/// 11 is judged of both ranges before 12 of either.
fn table_range_before_stream_range(frame: &mut Frame) -> Option<Aim> {
    frame.descriptor.stream = Range {
        gpa: frame.memory + 1,
        size: STREAM_HEADER,
    };
    frame.descriptor.table = frame.random.pick(&[
        Range { gpa: 0, size: 24 },
        Range { gpa: 1, size: 0 },
        Range {
            gpa: u64::MAX,
            size: 1,
        },
    ]);
    broken(
        "descriptor: 11 of the table before 12 of the stream",
        DESCRIPTOR_ERROR,
    )
}

fn table_size(frame: &mut Frame) -> Option<Aim> {
    let table = frame.table.as_mut()?;
    if !table.entries.is_empty() || frame.random.percent(20) {
        frame.descriptor.table.size = frame.random.pick(&[1, TABLE_HEADER - 1]);
        return broken("table: size", TABLE);
    }
    frame.descriptor.table.size = TABLE_HEADER;
    table.size = TABLE_HEADER;
    kept("table: size")
}

fn table_magic(frame: &mut Frame) -> Option<Aim> {
    let table = frame.table.as_mut()?;
    table.magic = wrong_magic(frame.random, table.magic);
    broken("table: magic", TABLE)
}

fn table_version(frame: &mut Frame) -> Option<Aim> {
    let (version, good) = some_version(frame.random);
    frame.table.as_mut()?.version = version;
    judged("table: version", good, TABLE)
}

fn table_header_size(frame: &mut Frame) -> Option<Aim> {
    let table = frame.table.as_mut()?;
    let least = table
        .count
        .saturating_mul(table.stride)
        .saturating_add(TABLE_HEADER);
    let most = frame.descriptor.table.size;
    let size = frame.random.pick(&[
        0,
        TABLE_HEADER - 1,
        least - 1,
        least,
        most,
        most.saturating_add(1),
        u32::MAX,
    ]);
    table.size = size;
    judged("table: header size", (least..=most).contains(&size), TABLE)
}

fn table_stride(frame: &mut Frame) -> Option<Aim> {
    let table = frame.table.as_mut()?;
    if table.entries.is_empty() {
        table.stride = frame.random.pick(&[0, ENTRY - 1, ENTRY, u32::MAX]);
    } else {
        table.stride = frame.random.pick(&[0, ENTRY - 1]);
    }
    judged("table: stride", table.stride >= ENTRY, TABLE)
}

/// Counts whose product with the stride passes the header's end, or only seems not to because 2^32 wraps.
fn table_count(frame: &mut Frame) -> Option<Aim> {
    let table = frame.table.as_mut()?;
    let fitting = table.size.saturating_sub(TABLE_HEADER) / table.stride.max(1);
    let wrapping = [1 << 27, 1 << 31, u32::MAX, 1 << 28];
    if frame.random.coin() {
        table.count = fitting.saturating_add(1);
    } else {
        table.count = frame.random.pick(&wrapping);
        table.stride = frame.random.pick(&[32, 64, 1 << 16, 1 << 31, u32::MAX]);
    }
    broken("table: entries past the header size", TABLE)
}

fn stream_size(frame: &mut Frame) -> Option<Aim> {
    let stream = frame.stream.as_mut()?;
    if !stream.packets.is_empty() || frame.random.percent(20) {
        frame.descriptor.stream.size = frame.random.pick(&[1, STREAM_HEADER - 1]);
        return broken("stream: size", STREAM);
    }
    frame.descriptor.stream.size = STREAM_HEADER;
    kept("stream: size")
}

fn stream_magic(frame: &mut Frame) -> Option<Aim> {
    let stream = frame.stream.as_mut()?;
    stream.magic = wrong_magic(frame.random, stream.magic);
    broken("stream: magic", STREAM)
}

fn stream_version(frame: &mut Frame) -> Option<Aim> {
    let (version, good) = some_version(frame.random);
    frame.stream.as_mut()?.version = version;
    judged("stream: version", good, STREAM)
}

fn stream_header_size(frame: &mut Frame) -> Option<Aim> {
    let stream = frame.stream.as_mut()?;
    let given = frame.descriptor.stream.size;
    if given == stream.size && frame.random.percent(30) {
        return kept("stream: header size");
    }
    stream.size = frame
        .random
        .pick(&[0, STREAM_HEADER - 1, given.saturating_add(1), u32::MAX]);
    broken("stream: header size", STREAM)
}

/// The stream ends within its last packet.
fn stream_cut(frame: &mut Frame) -> Option<Aim> {
    let stream = frame.stream.as_mut()?;
    let last = stream.packets.last()?.len() as u64;
    let cut = frame.random.edgy(1..=last.checked_sub(2)? + 1) as u32;
    stream.size = stream.size.saturating_sub(cut);
    broken("stream: ends within a packet", PACKET)
}
