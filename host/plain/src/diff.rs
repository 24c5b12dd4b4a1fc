//! The difference between two streams, packet by packet. The length of each
//! slice stands for its command size.

use crate::answers::BAD_INPUT;
use crate::bytes::u32_at;
use crate::errors::Error;
use crate::packets::opcode;
use crate::reader::{Packets, MAX_STREAM};
use std::fmt::{self, Write};

/// One of the two streams.
#[derive(Clone, Copy, Debug, PartialEq, Eq)]
pub enum Which {
    /// The first.
    First = 1,
    /// The second.
    Second = 2,
}

/// Why no question about two streams is answered.
#[derive(Clone, Copy, Debug, PartialEq, Eq)]
pub struct Refused {
    /// The rule that is broken, 16 or 17.
    pub error: u32,
    /// The stream that breaks it, the first if both break a rule.
    pub stream: Which,
}

/// How the packets at an index compare.
#[derive(Clone, Copy, Debug, PartialEq, Eq)]
pub enum Class {
    /// All bytes are equal.
    Equal,
    /// The opcodes are equal, some other byte is not.
    SameOpcode,
    /// The opcodes differ.
    OtherOpcode,
    /// Only the first stream has a packet there.
    OnlyFirst,
    /// Only the second stream has a packet there.
    OnlySecond,
    /// Neither stream has a packet there.
    Neither,
}

/// Whether both streams keep rules 16 and 17.
pub fn check(first: &[u8], second: &[u8]) -> Result<(), Refused> {
    pairs(first, second).map(|_| ())
}

/// The first index, from 0, at which the packets are not equal, if there is one.
pub fn parts(first: &[u8], second: &[u8]) -> Result<Option<u64>, Refused> {
    Ok(pairs(first, second)?.parting())
}

/// How the packets at an index compare.
pub fn class(first: &[u8], second: &[u8], index: u64) -> Result<Class, Refused> {
    Ok(pairs(first, second)?.at(index).class())
}

/// The next offset, from `from` on, at which the packets at an index differ.
/// There are such offsets only where the class is [`Class::SameOpcode`].
pub fn next(first: &[u8], second: &[u8], index: u64, from: u64) -> Result<Option<u64>, Refused> {
    Ok(pairs(first, second)?.at(index).offsets(from).next())
}

/// Both streams' packets, paired by index, from the first. The walk takes time
/// linear in the bytes of the streams.
pub fn pairs<'s>(first: &'s [u8], second: &'s [u8]) -> Result<Pairs<'s>, Refused> {
    Ok(Pairs {
        first: good_packets(first, Which::First)?,
        second: good_packets(second, Which::Second)?,
    })
}

/// The packets of a stream that keeps 16 and 17.
fn good_packets(bytes: &[u8], stream: Which) -> Result<Packets<'_>, Refused> {
    let refused = |error: Error| Refused {
        error: error.code(),
        stream,
    };
    let packets = Packets::read(bytes).map_err(refused)?;
    match packets.clone().find_map(Result::err) {
        Some(error) => Err(refused(error)),
        None => Ok(packets),
    }
}

/// The pairs of packets of two streams that keep 16 and 17.
#[derive(Clone, Debug)]
pub struct Pairs<'s> {
    first: Packets<'s>,
    second: Packets<'s>,
}

impl<'s> Pairs<'s> {
    /// The index, from here, of the first pair that is not equal.
    fn parting(mut self) -> Option<u64> {
        self.position(|pair| pair.class() != Class::Equal)
            .map(|index| index as u64)
    }

    /// The pair at this index, from here; past the last, the pair of no packets.
    fn at(mut self, index: u64) -> Pair<'s> {
        usize::try_from(index)
            .ok()
            .and_then(|index| self.nth(index))
            .unwrap_or_default()
    }
}

impl<'s> Iterator for Pairs<'s> {
    type Item = Pair<'s>;

    fn next(&mut self) -> Option<Pair<'s>> {
        let pair = Pair {
            first: next_bytes(&mut self.first),
            second: next_bytes(&mut self.second),
        };
        if pair.first.is_some() || pair.second.is_some() {
            Some(pair)
        } else {
            None
        }
    }
}

/// The bytes of the next packet of a stream that keeps 17.
fn next_bytes<'s>(packets: &mut Packets<'s>) -> Option<&'s [u8]> {
    let packet = packets.next()?.ok()?;
    Some(packet.bytes)
}

/// The packets of both streams at one index.
#[derive(Clone, Copy, Debug, Default, PartialEq, Eq)]
pub struct Pair<'s> {
    first: Option<&'s [u8]>,
    second: Option<&'s [u8]>,
}

impl<'s> Pair<'s> {
    /// How the two compare.
    pub fn class(self) -> Class {
        match (self.first, self.second) {
            (Some(first), Some(second)) if first == second => Class::Equal,
            (Some(first), Some(second)) if opcode(first) == opcode(second) => Class::SameOpcode,
            (Some(_), Some(_)) => Class::OtherOpcode,
            (Some(_), None) => Class::OnlyFirst,
            (None, Some(_)) => Class::OnlySecond,
            (None, None) => Class::Neither,
        }
    }

    /// The offsets in the packet at which the two differ, from `from` on, in
    /// rising order. All past the end of the shorter one are among them. There
    /// are none where the class is not [`Class::SameOpcode`].
    pub fn offsets(self, from: u64) -> impl Iterator<Item = u64> + 's {
        let (first, second) = self.same_opcode().unwrap_or_default();
        let both = first.len().min(second.len());
        let longer = first.len().max(second.len());
        let from = usize::try_from(from).unwrap_or(longer).min(longer);
        let within = from.min(both)..both;
        let differing = first[within.clone()]
            .iter()
            .zip(&second[within.clone()])
            .zip(within)
            .filter(|((first, second), _)| first != second)
            .map(|(_, at)| at);
        differing.chain(from.max(both)..longer).map(|at| at as u64)
    }

    /// Both packets, if their class is [`Class::SameOpcode`].
    fn same_opcode(self) -> Option<(&'s [u8], &'s [u8])> {
        match self.class() {
            Class::SameOpcode => Some((self.first?, self.second?)),
            _ => None,
        }
    }
}

/// The text for two streams: the one that is refused; or the first index where
/// they part, then a line for each index up to the end of the longer one.
pub fn report(first: &[u8], second: &[u8]) -> String {
    let mut text = String::with_capacity(first.len() + second.len());
    write_report(&mut text, first, second).expect("a String takes every write");
    text
}

/// The text of the program that compares: for an input of the first stream's
/// length as a u32, that stream and the second one, neither above 65,536 bytes,
/// the text of [`report`], else the line `bad input` alone.
pub fn program(input: &[u8]) -> String {
    match split(input) {
        Some((first, second)) => report(first, second),
        None => String::from(BAD_INPUT),
    }
}

/// The two streams of an input, if it is good.
fn split(input: &[u8]) -> Option<(&[u8], &[u8])> {
    let streams = input.get(4..)?;
    let length = u32_at(input, 0) as usize;
    let first = streams.get(..length)?;
    let second = &streams[length..];
    if first.len() <= MAX_STREAM && second.len() <= MAX_STREAM {
        Some((first, second))
    } else {
        None
    }
}

fn write_report(text: &mut String, first: &[u8], second: &[u8]) -> fmt::Result {
    let pairs = match pairs(first, second) {
        Ok(pairs) => pairs,
        Err(Refused { error, stream }) => {
            return writeln!(text, "refused={} stream={}", error, stream as u32)
        }
    };
    let mut parting = None;
    for (index, pair) in pairs.enumerate() {
        let class = pair.class();
        if class != Class::Equal {
            parting.get_or_insert(index);
        }
        write!(text, "{}", index)?;
        match class {
            Class::Equal => text.push_str(" equal\n"),
            Class::SameOpcode => write_offsets(text, pair)?,
            Class::OtherOpcode => text.push_str(" other_opcode\n"),
            Class::OnlyFirst => text.push_str(" only_first\n"),
            Class::OnlySecond => text.push_str(" only_second\n"),
            Class::Neither => unreachable!("an index below the longer one's count"),
        }
    }
    // Known only now, so that one walk is enough.
    let first = match parting {
        Some(index) => format!("first={}\n", index),
        None => String::from("first=none\n"),
    };
    text.insert_str(0, &first);
    Ok(())
}

/// Writes the rest of the line of a pair with the same opcode.
fn write_offsets(text: &mut String, pair: Pair) -> fmt::Result {
    text.push_str(" same_opcode offsets");
    let mut separator = '=';
    for offset in pair.offsets(0) {
        text.push(separator);
        write!(text, "{}", offset)?;
        separator = ',';
    }
    text.push('\n');
    Ok(())
}
