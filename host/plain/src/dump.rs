//! The dump of a stream: a line of text for each packet.

use crate::answers::BAD_INPUT;
use crate::bytes::{i32_at, u32_at, u64_at};
use crate::packets::{
    opcode, CLEAR, COPY, CREATE_BUFFER, CREATE_TEXTURE, DESTROY, DIRTY, EXPORT, IMPORT, RELEASE,
    SCISSOR, TARGET, VIEWPORT,
};
use crate::reader::{Packet, Packets, MAX_STREAM};
use std::fmt::{self, Write};

/// The first byte of an input whose listing goes on at unknown opcodes.
const GO_ON: u8 = 0;
/// The first byte of an input whose listing stops at one.
const STRICT: u8 = 1;

/// No line is longer for its packet's bytes than that of an unknown packet of
/// 8 bytes with the largest opcode.
const LONGEST_LINE: usize = "0x00000018 UNKNOWN size_bytes=8 opcode=4294967295\n".len();
const SHORTEST_PACKET: usize = 8;

/// The text of the program that reads a dump: for an input of the setting, 0 or
/// 1 (strict), and at most 65,536 bytes of dump the text of [`dump`], else the
/// line `bad input` alone.
pub fn listing(input: &[u8]) -> String {
    match input.split_first() {
        Some((&setting, stream)) if setting <= STRICT && stream.len() <= MAX_STREAM => {
            dump(stream, setting != GO_ON)
        }
        _ => String::from(BAD_INPUT),
    }
}

/// The text for a stream of any length, which is its command size: a line for
/// each packet up to the first that breaks 17, then that error; or error 16
/// alone. If it is strict, the first unknown packet is the last line.
pub fn dump(stream: &[u8], strict: bool) -> String {
    let room = stream.len().min(MAX_STREAM) / SHORTEST_PACKET * LONGEST_LINE;
    let mut text = String::with_capacity(room);
    write_dump(&mut text, stream, strict).expect("a String takes every write");
    text
}

fn write_dump(text: &mut String, stream: &[u8], strict: bool) -> fmt::Result {
    let packets = match Packets::read(stream) {
        Ok(packets) => packets,
        Err(error) => return writeln!(text, "error={}", error.code()),
    };
    for packet in packets {
        let packet = match packet {
            Ok(packet) => packet,
            Err(error) => return writeln!(text, "error={}", error.code()),
        };
        match packet.write_known(text) {
            Some(written) => written?,
            None if strict => return packet.write_stopped(text),
            None => packet.write_unknown(text)?,
        }
    }
    Ok(())
}

/// The line of a packet. It has at least its opcode's least size.
impl Packet<'_> {
    /// Writes the line of a known packet; an unknown one has none.
    fn write_known(&self, text: &mut String) -> Option<fmt::Result> {
        let written = match opcode(self.bytes) {
            CREATE_BUFFER => self.write_create_buffer(text),
            CREATE_TEXTURE => self.write_create_texture(text),
            DESTROY => self.write_destroy(text),
            DIRTY => self.write_dirty_range(text),
            COPY => self.write_copy_buffer(text),
            TARGET => self.write_target(text),
            VIEWPORT => self.write_viewport(text),
            SCISSOR => self.write_scissor(text),
            CLEAR => self.write_clear(text),
            EXPORT => self.write_export(text),
            IMPORT => self.write_import(text),
            RELEASE => self.write_release(text),
            _ => return None,
        };
        Some(written)
    }

    fn write_create_buffer(&self, text: &mut String) -> fmt::Result {
        writeln!(
            text,
            "0x{:08x} CreateBuffer size_bytes={} handle={} size={} backing_id={} \
             backing_offset={}",
            self.offset,
            self.word(4),
            self.word(8),
            self.long(16),
            self.word(24),
            self.word(28)
        )
    }

    fn write_create_texture(&self, text: &mut String) -> fmt::Result {
        writeln!(
            text,
            "0x{:08x} CreateTexture size_bytes={} handle={} format={} width={} height={} \
             mips={} layers={} pitch={} backing_id={} backing_offset={}",
            self.offset,
            self.word(4),
            self.word(8),
            self.word(16),
            self.word(20),
            self.word(24),
            self.word(28),
            self.word(32),
            self.word(36),
            self.word(40),
            self.word(44)
        )
    }

    fn write_dirty_range(&self, text: &mut String) -> fmt::Result {
        writeln!(
            text,
            "0x{:08x} DirtyRange size_bytes={} handle={} offset={} size={}",
            self.offset,
            self.word(4),
            self.word(8),
            self.long(16),
            self.long(24)
        )
    }

    fn write_copy_buffer(&self, text: &mut String) -> fmt::Result {
        writeln!(
            text,
            "0x{:08x} CopyBuffer size_bytes={} dst={} src={} dst_offset={} src_offset={} \
             size={} flags={}",
            self.offset,
            self.word(4),
            self.word(8),
            self.word(12),
            self.long(16),
            self.long(24),
            self.long(32),
            self.word(40)
        )
    }

    /// Floats are printed as their bits.
    fn write_viewport(&self, text: &mut String) -> fmt::Result {
        writeln!(
            text,
            "0x{:08x} Viewport size_bytes={} x={} y={} width={} height={} near={} far={}",
            self.offset,
            self.word(4),
            self.word(8),
            self.word(12),
            self.word(16),
            self.word(20),
            self.word(24),
            self.word(28)
        )
    }

    fn write_scissor(&self, text: &mut String) -> fmt::Result {
        writeln!(
            text,
            "0x{:08x} Scissor size_bytes={} x={} y={} width={} height={}",
            self.offset,
            self.word(4),
            self.signed(8),
            self.signed(12),
            self.signed(16),
            self.signed(20)
        )
    }

    /// Floats are printed as their bits.
    fn write_clear(&self, text: &mut String) -> fmt::Result {
        writeln!(
            text,
            "0x{:08x} Clear size_bytes={} flags={} red={} green={} blue={} alpha={} depth={} \
             stencil={}",
            self.offset,
            self.word(4),
            self.word(8),
            self.word(12),
            self.word(16),
            self.word(20),
            self.word(24),
            self.word(28),
            self.word(32)
        )
    }

    fn write_export(&self, text: &mut String) -> fmt::Result {
        writeln!(
            text,
            "0x{:08x} Export size_bytes={} handle={} token={}",
            self.offset,
            self.word(4),
            self.word(8),
            self.long(16)
        )
    }

    fn write_import(&self, text: &mut String) -> fmt::Result {
        writeln!(
            text,
            "0x{:08x} Import size_bytes={} handle={} token={}",
            self.offset,
            self.word(4),
            self.word(8),
            self.long(16)
        )
    }

    fn write_release(&self, text: &mut String) -> fmt::Result {
        writeln!(
            text,
            "0x{:08x} Release size_bytes={} token={}",
            self.offset,
            self.word(4),
            self.long(8)
        )
    }

    fn write_destroy(&self, text: &mut String) -> fmt::Result {
        writeln!(
            text,
            "0x{:08x} Destroy size_bytes={} handle={}",
            self.offset,
            self.word(4),
            self.word(8)
        )
    }

    fn write_target(&self, text: &mut String) -> fmt::Result {
        writeln!(
            text,
            "0x{:08x} Target size_bytes={} handle={}",
            self.offset,
            self.word(4),
            self.word(8)
        )
    }

    fn write_unknown(&self, text: &mut String) -> fmt::Result {
        writeln!(
            text,
            "0x{:08x} UNKNOWN size_bytes={} opcode={}",
            self.offset,
            self.word(4),
            self.word(0)
        )
    }

    fn write_stopped(&self, text: &mut String) -> fmt::Result {
        writeln!(
            text,
            "0x{:08x} STOPPED size_bytes={} opcode={}",
            self.offset,
            self.word(4),
            self.word(0)
        )
    }

    fn word(&self, at: usize) -> u32 {
        u32_at(self.bytes, at)
    }

    fn long(&self, at: usize) -> u64 {
        u64_at(self.bytes, at)
    }

    fn signed(&self, at: usize) -> i32 {
        i32_at(self.bytes, at)
    }
}
