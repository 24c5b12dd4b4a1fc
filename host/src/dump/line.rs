//! A line of a listing, read from its text.
use crate::DeviceError;
use std::fmt;

/// Where the first packet of a stream starts, behind the stream's header.
pub(super) const FIRST_PACKET: u32 = 24;

/// Where a bad header is.
const HEADER: u32 = 0;

/// The packet whose fields are i32. A text alone does not tell: a number that is not negative looks the same.
const SIGNED: &str = "Scissor";

/// A line of a listing. Displayed it is the text that the front has written, without its line feed.
#[derive(Clone, Debug, PartialEq, Eq, Hash)]
pub struct Line {
    text: String,
    offset: u32,
    what: What,
}

/// What a line says.
#[derive(Clone, Debug, PartialEq, Eq, Hash)]
pub enum What {
    /// A packet that the front knows.
    Packet {
        /// Its name in `docs/DUMP.md`.
        name: String,
        /// Its bytes, as its header says. They may be more than its fields take.
        size: u32,
        /// Its fields, in the order of the packet's layout.
        fields: Vec<Field>,
    },
    /// A packet of an opcode that the front does not know.
    Unknown {
        /// Its bytes, as its header says.
        size: u32,
        /// The opcode.
        opcode: u32,
    },
    /// The same, where a strict listing ends.
    Stopped {
        /// Its bytes, as its header says.
        size: u32,
        /// The opcode.
        opcode: u32,
    },
    /// The rule that the stream breaks, where its listing ends: [`DeviceError::BadStream`] or [`DeviceError::BadPacket`].
    Error(DeviceError),
}

/// A field of a packet.
#[derive(Clone, Debug, PartialEq, Eq, Hash)]
pub struct Field {
    /// Its name in `docs/DUMP.md`.
    pub name: String,
    /// Its number.
    pub value: Value,
}

/// The number of a field.
#[derive(Clone, Copy, Debug, PartialEq, Eq, Hash)]
pub enum Value {
    /// Of a field of 32 or 64 bits. A float is the number of its bits, which [`f32::from_bits`] takes.
    Unsigned(u64),
    /// Of a scissor's field.
    Signed(i32),
}

impl fmt::Display for Value {
    fn fmt(&self, f: &mut fmt::Formatter<'_>) -> fmt::Result {
        match self {
            Value::Unsigned(number) => number.fmt(f),
            Value::Signed(number) => number.fmt(f),
        }
    }
}

impl Line {
    /// Reads a line; `packet` is where the packet before it ends.
    pub(super) fn read(text: &str, packet: u32) -> Line {
        let (offset, what) = read_error(text, packet)
            .or_else(|| read_packet(text))
            .unwrap_or_else(|| no_line(text));
        Line {
            text: text.to_string(),
            offset,
            what,
        }
    }

    /// Where the line's packet starts, in bytes from where the stream starts. The text does not say it of an error: a bad header is
    /// at 0, and a bad packet is where the one before it ends.
    pub fn offset(&self) -> u32 {
        self.offset
    }

    /// What it says.
    pub fn what(&self) -> &What {
        &self.what
    }

    /// The value of the field of this name; `None` if the line is of no packet that has it.
    pub fn field(&self, name: &str) -> Option<Value> {
        match &self.what {
            What::Packet { fields, .. } => fields
                .iter()
                .find(|field| field.name == name)
                .map(|field| field.value),
            _ => None,
        }
    }

    /// The text, without its line feed.
    pub fn as_str(&self) -> &str {
        &self.text
    }

    /// Where the line's packet ends.
    pub(super) fn end(&self) -> u32 {
        match self.what {
            What::Packet { size, .. } | What::Unknown { size, .. } | What::Stopped { size, .. } => {
                self.offset.saturating_add(size)
            }
            What::Error(_) => self.offset,
        }
    }
}

impl fmt::Display for Line {
    fn fmt(&self, f: &mut fmt::Formatter<'_>) -> fmt::Result {
        f.pad(&self.text)
    }
}

fn read_error(text: &str, packet: u32) -> Option<(u32, What)> {
    let number = text.strip_prefix("error=")?.parse().ok()?;
    let error = DeviceError::from_number(number)?;
    let offset = match error {
        DeviceError::BadStream => HEADER,
        _ => packet,
    };
    Some((offset, What::Error(error)))
}

fn read_packet(text: &str) -> Option<(u32, What)> {
    let mut words = text.split(' ');
    let offset = words.next()?.strip_prefix("0x")?;
    let name = words.next()?;
    let size = words.next()?.strip_prefix("size_bytes=")?.parse().ok()?;
    let what = match name {
        "UNKNOWN" => What::Unknown {
            size,
            opcode: opcode(words.next()?)?,
        },
        "STOPPED" => What::Stopped {
            size,
            opcode: opcode(words.next()?)?,
        },
        _ => What::Packet {
            name: name.to_string(),
            size,
            fields: words.map(|word| field(name, word)).collect::<Option<_>>()?,
        },
    };
    Some((u32::from_str_radix(offset, 16).ok()?, what))
}

fn opcode(word: &str) -> Option<u32> {
    word.strip_prefix("opcode=")?.parse().ok()
}

fn field(packet: &str, word: &str) -> Option<Field> {
    let (name, number) = word.split_once('=')?;
    let value = match packet {
        SIGNED => Value::Signed(number.parse().ok()?),
        _ => Value::Unsigned(number.parse().ok()?),
    };
    Some(Field {
        name: name.to_string(),
        value,
    })
}

/// By the rule book there is no other line.
#[cold]
fn no_line(text: &str) -> ! {
    unreachable!(
        "the proved front writes no line {:?}; was another libzelezmut.a linked?",
        text
    )
}
