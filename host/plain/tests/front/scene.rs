//! Memory images and a device set up over them.

use plain::{move_form, Desk, Ended, Ran, Record};

pub const MEMORY: usize = 16_384;
pub const FENCE: usize = 512;
pub const RING: usize = 1024;
pub const COUNT: u32 = 8;
pub const STRIDE: u32 = 64;
pub const RING_SIZE: u32 = 64 + COUNT * STRIDE;
pub const HEAD: usize = RING + 24;
pub const TAIL: usize = RING + 28;
pub const TABLE: usize = 2048;
pub const STREAM: usize = 4608;
pub const VERSION: u32 = 0x0001_0000;

pub fn put32(bytes: &mut [u8], at: usize, value: u32) {
    bytes[at..at + 4].copy_from_slice(&value.to_le_bytes());
}

pub fn put64(bytes: &mut [u8], at: usize, value: u64) {
    bytes[at..at + 8].copy_from_slice(&value.to_le_bytes());
}

pub fn get32(bytes: &[u8], at: usize) -> u32 {
    let mut field = [0; 4];
    field.copy_from_slice(&bytes[at..at + 4]);
    u32::from_le_bytes(field)
}

pub fn get64(bytes: &[u8], at: usize) -> u64 {
    u64::from(get32(bytes, at)) | u64::from(get32(bytes, at + 4)) << 32
}

/// A table entry: id, flags, gpa, size.
pub type Entry = (u32, u32, u64, u64);

/// A table with this entry stride.
pub fn table_with_stride(entries: &[Entry], stride: u32) -> Vec<u8> {
    let size = 24 + entries.len() * stride as usize;
    let mut bytes = vec![0xEE; size];
    bytes[0..4].copy_from_slice(b"ALOC");
    put32(&mut bytes, 4, VERSION);
    put32(&mut bytes, 8, size as u32);
    put32(&mut bytes, 12, entries.len() as u32);
    put32(&mut bytes, 16, stride);
    for (i, (id, flags, gpa, size)) in entries.iter().enumerate() {
        let at = 24 + i * stride as usize;
        put32(&mut bytes, at, *id);
        put32(&mut bytes, at + 4, *flags);
        put64(&mut bytes, at + 8, *gpa);
        put64(&mut bytes, at + 16, *size);
    }
    bytes
}

pub fn table(entries: &[Entry]) -> Vec<u8> {
    table_with_stride(entries, 32)
}

pub fn stream(packets: &[Vec<u8>]) -> Vec<u8> {
    let mut bytes = vec![0xEE; 24];
    for packet in packets {
        bytes.extend_from_slice(packet);
    }
    bytes[0..4].copy_from_slice(b"ACMD");
    put32(&mut bytes, 4, VERSION);
    let size = bytes.len() as u32;
    put32(&mut bytes, 8, size);
    bytes
}

/// A packet of `size` bytes, the unnamed ones filled with junk.
pub fn packet(opcode: u32, size: u32) -> Vec<u8> {
    let mut bytes = vec![0xDD; size.max(8) as usize];
    put32(&mut bytes, 0, opcode);
    put32(&mut bytes, 4, size);
    bytes
}

/// This packet with `extra` appended, its size grown by as much.
pub fn grown(mut packet: Vec<u8>, extra: &[u8]) -> Vec<u8> {
    let size = get32(&packet, 4);
    put32(&mut packet, 4, size + extra.len() as u32);
    packet.extend_from_slice(extra);
    packet
}

/// This packet with another size in its header, its bytes as they were.
pub fn sized(mut packet: Vec<u8>, size: u32) -> Vec<u8> {
    put32(&mut packet, 4, size);
    packet
}

pub fn create_buffer(handle: u32, size: u64, id: u32, offset: u32) -> Vec<u8> {
    let mut bytes = packet(256, 40);
    put32(&mut bytes, 8, handle);
    put64(&mut bytes, 16, size);
    put32(&mut bytes, 24, id);
    put32(&mut bytes, 28, offset);
    bytes
}

/// Format, width, height, mips, layers, pitch.
pub type Texture = (u32, u32, u32, u32, u32, u32);

pub fn create_texture(handle: u32, shape: Texture, id: u32, offset: u32) -> Vec<u8> {
    let mut bytes = packet(257, 56);
    put32(&mut bytes, 8, handle);
    put32(&mut bytes, 16, shape.0);
    put32(&mut bytes, 20, shape.1);
    put32(&mut bytes, 24, shape.2);
    put32(&mut bytes, 28, shape.3);
    put32(&mut bytes, 32, shape.4);
    put32(&mut bytes, 36, shape.5);
    put32(&mut bytes, 40, id);
    put32(&mut bytes, 44, offset);
    bytes
}

pub fn destroy(handle: u32) -> Vec<u8> {
    let mut bytes = packet(258, 16);
    put32(&mut bytes, 8, handle);
    bytes
}

pub fn dirty(handle: u32, offset: u64, size: u64) -> Vec<u8> {
    let mut bytes = packet(259, 32);
    put32(&mut bytes, 8, handle);
    put64(&mut bytes, 16, offset);
    put64(&mut bytes, 24, size);
    bytes
}

pub fn copy(dst: (u32, u64), src: (u32, u64), size: u64, flags: u32) -> Vec<u8> {
    let mut bytes = packet(261, 48);
    put32(&mut bytes, 8, dst.0);
    put32(&mut bytes, 12, src.0);
    put64(&mut bytes, 16, dst.1);
    put64(&mut bytes, 24, src.1);
    put64(&mut bytes, 32, size);
    put32(&mut bytes, 40, flags);
    bytes
}

pub fn target(handle: u32) -> Vec<u8> {
    let mut bytes = packet(1024, 16);
    put32(&mut bytes, 8, handle);
    bytes
}

/// X, y, width, height, near and far, each by its bits.
pub fn viewport(floats: [u32; 6]) -> Vec<u8> {
    let mut bytes = packet(1025, 32);
    for (i, bits) in floats.iter().enumerate() {
        put32(&mut bytes, 8 + 4 * i, *bits);
    }
    bytes
}

pub fn scissor(corner: (i32, i32), sides: (i32, i32)) -> Vec<u8> {
    let mut bytes = packet(1026, 24);
    put32(&mut bytes, 8, corner.0 as u32);
    put32(&mut bytes, 12, corner.1 as u32);
    put32(&mut bytes, 16, sides.0 as u32);
    put32(&mut bytes, 20, sides.1 as u32);
    bytes
}

/// The colour and the depth by their bits.
pub fn clear(flags: u32, colour: [u32; 4], depth: u32, stencil: u32) -> Vec<u8> {
    let mut bytes = packet(1536, 36);
    put32(&mut bytes, 8, flags);
    for (i, bits) in colour.iter().enumerate() {
        put32(&mut bytes, 12 + 4 * i, *bits);
    }
    put32(&mut bytes, 28, depth);
    put32(&mut bytes, 32, stencil);
    bytes
}

fn share(opcode: u32, handle: u32, token: u64) -> Vec<u8> {
    let mut bytes = packet(opcode, 24);
    put32(&mut bytes, 8, handle);
    put64(&mut bytes, 16, token);
    bytes
}

pub fn export(handle: u32, token: u64) -> Vec<u8> {
    share(1808, handle, token)
}

pub fn import(handle: u32, token: u64) -> Vec<u8> {
    share(1809, handle, token)
}

pub fn release(token: u64) -> Vec<u8> {
    let mut bytes = packet(1810, 16);
    put64(&mut bytes, 8, token);
    bytes
}

pub fn record(kind: u32, handle: u32, id: u32, gpa: u64, length: u64) -> Record {
    Record {
        kind,
        handle,
        id,
        gpa,
        length,
    }
}

/// The bytes of these fields.
pub fn file(fields: &[u32]) -> Vec<u8> {
    fields
        .iter()
        .flat_map(|field| field.to_le_bytes())
        .collect()
}

/// No file is longer: form 2, 64 resources and 256 tokens.
pub const LONGEST: usize = 4 * (25 + 64 * 12 + 1 + 1 + 256 * 3);

/// The file that a call has written to the start of a buffer.
fn written(write: impl FnOnce(&mut [u8]) -> (u32, usize)) -> Vec<u8> {
    let mut buffer = vec![0xAA; LONGEST];
    let (answer, length) = write(&mut buffer);
    assert_eq!(answer, 0);
    buffer.truncate(length);
    buffer
}

/// The device's file in form 1.
pub fn saved(desk: &Desk) -> Vec<u8> {
    written(|buffer| desk.save(buffer))
}

/// The device's file in form 2.
pub fn saved_2(desk: &Desk) -> Vec<u8> {
    written(|buffer| desk.save_form_2(buffer))
}

/// The file in the other form.
pub fn moved(bytes: &[u8]) -> Vec<u8> {
    written(|buffer| move_form(bytes, buffer))
}

/// An old file with the number of form 1 in front.
pub fn numbered(old: &[u8]) -> Vec<u8> {
    [&file(&[1]), old].concat()
}

/// Tries to move a file into a buffer of this length; gives the answer, once
/// nothing else has come of it.
pub fn not_moved(bytes: &[u8], length: usize) -> u32 {
    let mut buffer: Vec<u8> = (0..length).map(|at| at as u8).collect();
    let before = buffer.clone();
    let (answer, length) = move_form(bytes, &mut buffer);
    assert_ne!(answer, 0);
    assert_eq!(length, 0);
    assert_eq!(buffer, before);
    answer
}

/// A device and its memory.
#[derive(Clone, Debug, PartialEq)]
pub struct Scene {
    pub desk: Desk,
    pub mem: Vec<u8>,
}

impl Scene {
    /// An enabled device over a good, empty ring.
    pub fn new() -> Scene {
        let mut scene = Scene {
            desk: Desk::new(MEMORY),
            mem: vec![0xCC; MEMORY],
        };
        scene.put_ring(RING, 0);
        scene.write(0x100, RING as u32);
        scene.write(0x108, RING_SIZE);
        scene.write(0x120, FENCE as u32);
        scene.write(0x10C, 1);
        scene
    }

    /// A device that awaits its first unit over one submission.
    pub fn with(entries: &[Entry], packets: &[Vec<u8>]) -> Scene {
        let mut scene = Scene::new();
        scene.submit(entries, packets, 1);
        scene
    }

    /// Puts an empty ring header with this head and tail.
    pub fn put_ring(&mut self, at: usize, head: u32) {
        self.mem[at..at + 4].copy_from_slice(b"ARNG");
        put32(&mut self.mem, at + 4, VERSION);
        put32(&mut self.mem, at + 8, RING_SIZE);
        put32(&mut self.mem, at + 12, COUNT);
        put32(&mut self.mem, at + 16, STRIDE);
        put32(&mut self.mem, at + 24, head);
        put32(&mut self.mem, at + 28, head);
    }

    /// Where the descriptor in the tail's slot starts.
    pub fn slot(&self) -> usize {
        let tail = get32(&self.mem, TAIL);
        RING + 64 + (tail % COUNT * STRIDE) as usize
    }

    /// Fills the tail's slot, moves the tail, rings the doorbell. No entries
    /// means no table, no packets no stream.
    pub fn submit(&mut self, entries: &[Entry], packets: &[Vec<u8>], fence: u64) {
        let at = self.slot();
        put32(&mut self.mem, at, 64);
        put32(&mut self.mem, at + 4, 0);
        let cmd = if packets.is_empty() {
            Vec::new()
        } else {
            stream(packets)
        };
        self.place(at + 16, STREAM, &cmd);
        let table = if entries.is_empty() {
            Vec::new()
        } else {
            table(entries)
        };
        self.place(at + 32, TABLE, &table);
        put64(&mut self.mem, at + 48, fence);
        let tail = get32(&self.mem, TAIL);
        put32(&mut self.mem, TAIL, tail.wrapping_add(1));
        self.write(0x200, 0);
    }

    /// Writes `bytes` to `gpa`, and its range to the descriptor field `at`.
    pub fn place(&mut self, at: usize, gpa: usize, bytes: &[u8]) {
        self.mem[gpa..gpa + bytes.len()].copy_from_slice(bytes);
        put64(
            &mut self.mem,
            at,
            if bytes.is_empty() { 0 } else { gpa as u64 },
        );
        put32(&mut self.mem, at + 8, bytes.len() as u32);
    }

    pub fn put32(&mut self, at: usize, value: u32) {
        put32(&mut self.mem, at, value);
    }

    pub fn put64(&mut self, at: usize, value: u64) {
        put64(&mut self.mem, at, value);
    }

    pub fn write(&mut self, offset: u32, value: u32) {
        assert_eq!(self.desk.write(offset, value), 0, "write {:#x}", offset);
    }

    pub fn read(&self, offset: u32) -> u32 {
        let (answer, value) = self.desk.read(offset);
        assert_eq!(answer, 0, "read {:#x}", offset);
        value
    }

    pub fn read64(&self, offset: u32) -> u64 {
        u64::from(self.read(offset)) | u64::from(self.read(offset + 4)) << 32
    }

    pub fn run(&mut self, allowance: u16) -> Ran {
        self.desk.run(&mut self.mem, allowance)
    }

    /// The host's answer and no unit after it; gives the call answer.
    pub fn answer(&mut self, good: bool) -> u32 {
        let ran = self.answer_and_run(good, 0);
        assert_eq!(ran.units, 0);
        ran.answer
    }

    pub fn answer_and_run(&mut self, good: bool, allowance: u16) -> Ran {
        self.desk.answer(&mut self.mem, good, allowance)
    }

    /// Submits, runs to the wait, has the host answer good.
    pub fn settle_good(&mut self, entries: &[Entry], packets: &[Vec<u8>], fence: u64) {
        self.submit(entries, packets, fence);
        assert_eq!(self.run(1000).ended, Ended::Waiting);
        assert_eq!(self.answer(true), 0);
    }

    /// Submits and runs to the end, with the host's good answer if it waits;
    /// gives the error, or 0.
    pub fn settle(&mut self, entries: &[Entry], packets: &[Vec<u8>]) -> u32 {
        self.submit(entries, packets, 1);
        let error = self.verdict().0;
        if error == 0 {
            assert_eq!(self.answer(true), 0);
        }
        error
    }

    pub fn completed(&self) -> u64 {
        self.read64(0x130)
    }

    pub fn status(&self) -> u32 {
        self.read(0x300)
    }

    pub fn error(&self) -> u32 {
        self.read(0x310)
    }

    pub fn error_fence(&self) -> u64 {
        self.read64(0x314)
    }

    pub fn errors(&self) -> u32 {
        self.read(0x31C)
    }

    pub fn detail(&self) -> u32 {
        self.read(0x320)
    }

    pub fn head(&self) -> u32 {
        get32(&self.mem, HEAD)
    }

    pub fn records(&self) -> Vec<Record> {
        let mut records = Vec::new();
        loop {
            match self.desk.record(records.len() as u32) {
                (0, record) => records.push(record),
                refused => {
                    assert_eq!(refused, (4, Record::default()));
                    return records;
                }
            }
        }
    }

    /// Runs this one submission to its end: its error, or 0 if it waits, and
    /// the units spent until then.
    pub fn verdict(&mut self) -> (u32, u16) {
        let errors = self.errors();
        let mut units = 0;
        loop {
            let ran = self.run(1);
            assert_eq!((ran.answer, ran.units), (0, 1));
            units += 1;
            if self.errors() != errors {
                return (self.error(), units);
            }
            if ran.ended == Ended::Waiting {
                return (0, units);
            }
        }
    }
}

/// The error of this submission on a new device, or 0 if it waits.
pub fn verdict(entries: &[Entry], packets: &[Vec<u8>]) -> u32 {
    Scene::with(entries, packets).verdict().0
}

/// The records of this submission on a new device, once it waits.
pub fn records(entries: &[Entry], packets: &[Vec<u8>]) -> Vec<Record> {
    let mut scene = Scene::with(entries, packets);
    assert_eq!(scene.verdict().0, 0);
    scene.records()
}
