//! The report of two streams in lines: each pair's class, with the names of packets and of the bytes that differ.
use crate::colour::class_word;
use std::io::{self, Write};
use zelezmut::diff::{Class, Difference, Pair, Which};
use zelezmut::guest::{PacketByte, PacketLayout};

/// Writes all lines.
pub fn write_report(
    out: &mut impl Write,
    difference: &Difference<'_>,
    coloured: bool,
) -> io::Result<()> {
    match difference.parts() {
        Some(index) => writeln!(out, "first={}", index)?,
        None => writeln!(out, "first=none")?,
    }
    for pair in difference.pairs() {
        write!(out, "{} {}", pair.index, class_word(pair.class, coloured))?;
        write_names(out, &pair)?;
        if pair.class == Class::SameOpcode {
            write_offsets(out, &pair)?;
        }
        writeln!(out)?;
    }
    Ok(())
}

/// A packet's opcode; its header is whole in a good stream.
fn opcode(packet: &[u8]) -> Option<u32> {
    let bytes = packet.get(..4)?.try_into().ok()?;
    Some(u32::from_le_bytes(bytes))
}

/// The names of the packets: one where both have the same.
fn write_names(out: &mut impl Write, pair: &Pair<'_>) -> io::Result<()> {
    let named = |which| pair.packet(which).and_then(opcode).map(name);
    let first = named(Which::First);
    let second =
        named(Which::Second).filter(|_| first.is_none() || pair.class == Class::OtherOpcode);
    let names: Vec<String> = first.into_iter().chain(second).collect();
    write!(out, " {}", names.join(", "))
}

fn name(opcode: u32) -> String {
    match PacketLayout::of(opcode) {
        Some(layout) => layout.name.to_string(),
        None => format!("UNKNOWN opcode={}", opcode),
    }
}

/// Offsets that follow one another within one field, header or other part of a packet.
struct Run {
    start: u64,
    end: u64,
    byte: PacketByte,
}

/// The offsets of two packets with one opcode, each run of them with its name.
fn write_offsets(out: &mut impl Write, pair: &Pair<'_>) -> io::Result<()> {
    let opcode = pair.packet(Which::First).and_then(opcode).unwrap_or(0);
    let mut separator = " offsets=";
    let mut last: Option<Run> = None;
    for offset in pair.offsets() {
        let byte = PacketByte::at(opcode, offset);
        match &mut last {
            Some(run) if run.byte == byte && run.end + 1 == offset => run.end = offset,
            _ => {
                write_run(out, &mut separator, &last)?;
                let (start, end) = (offset, offset);
                last = Some(Run { start, end, byte });
            }
        }
    }
    write_run(out, &mut separator, &last)
}

fn write_run(out: &mut impl Write, separator: &mut &str, run: &Option<Run>) -> io::Result<()> {
    match *run {
        None => return Ok(()),
        Some(Run { start, end, byte }) if start == end => {
            write!(out, "{}{} {}", separator, start, byte)?
        }
        Some(Run { start, end, byte }) => write!(out, "{}{}-{} {}", separator, start, end, byte)?,
    }
    *separator = ", ";
    Ok(())
}
