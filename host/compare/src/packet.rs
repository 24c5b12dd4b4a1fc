//! The packets of documents 01 and 02 as bytes.

use crate::image::{blank, put32, put64, put_words};
use crate::numbers::{
    CLEAR, COPY_BUFFER, CREATE_BUFFER, CREATE_TEXTURE, DESTROY, DIRTY_RANGE, EXPORT, IMPORT,
    KNOWN_PACKETS, RELEASE, SCISSOR, TARGET, VIEWPORT,
};
use crate::random::Random;
use crate::shape::Shape;

/// Where a resource's bytes lie: an entry of a table, from an offset on. Id 0 is the host's own memory.
#[derive(Clone, Copy, Debug, Default, PartialEq, Eq)]
pub struct Backing {
    pub id: u32,
    pub offset: u32,
}

#[derive(Clone, Copy, Debug)]
pub struct Copying {
    pub to: u32,
    pub from: u32,
    pub to_offset: u64,
    pub from_offset: u64,
    pub size: u64,
    pub flags: u32,
}

/// A viewport's six floats by their bits: x, y, width, height, near, far.
pub type Viewport = [u32; 6];

#[derive(Clone, Copy, Debug)]
pub struct Scissor {
    pub x: i32,
    pub y: i32,
    pub width: i32,
    pub height: i32,
}

/// Its floats are their bits: those of the colour, and the depth's.
#[derive(Clone, Copy, Debug)]
pub struct Clear {
    pub flags: u32,
    pub colour: [u32; 4],
    pub depth: u32,
    pub stencil: u32,
}

/// A packet of this opcode and size with no field put in; a size below 8 still has its header.
pub fn any(random: &mut Random, opcode: u32, size: u32) -> Vec<u8> {
    let mut bytes = blank(random, size.max(8) as usize);
    put32(&mut bytes, 0, opcode);
    put32(&mut bytes, 4, size);
    bytes
}

/// Whether a known packet has more bytes than its table size.
pub fn is_grown(packet: &[u8]) -> bool {
    KNOWN_PACKETS.iter().any(|(opcode, least)| {
        packet.len() > *least as usize && packet[..4] == opcode.to_le_bytes()
    })
}

pub fn create_buffer(random: &mut Random, handle: u32, size: u64, backing: Backing) -> Vec<u8> {
    let mut bytes = any(random, CREATE_BUFFER, 40);
    put32(&mut bytes, 8, handle);
    put64(&mut bytes, 16, size);
    put32(&mut bytes, 24, backing.id);
    put32(&mut bytes, 28, backing.offset);
    bytes
}

pub fn create_texture(random: &mut Random, handle: u32, shape: Shape, backing: Backing) -> Vec<u8> {
    let mut bytes = any(random, CREATE_TEXTURE, 56);
    let fields = [
        (8, handle),
        (16, shape.format),
        (20, shape.width),
        (24, shape.height),
        (28, shape.mips),
        (32, shape.layers),
        (36, shape.pitch),
        (40, backing.id),
        (44, backing.offset),
    ];
    for (at, value) in fields {
        put32(&mut bytes, at, value);
    }
    bytes
}

pub fn destroy(random: &mut Random, handle: u32) -> Vec<u8> {
    let mut bytes = any(random, DESTROY, 16);
    put32(&mut bytes, 8, handle);
    bytes
}

pub fn dirty(random: &mut Random, handle: u32, offset: u64, size: u64) -> Vec<u8> {
    let mut bytes = any(random, DIRTY_RANGE, 32);
    put32(&mut bytes, 8, handle);
    put64(&mut bytes, 16, offset);
    put64(&mut bytes, 24, size);
    bytes
}

pub fn copy(random: &mut Random, copying: Copying) -> Vec<u8> {
    let mut bytes = any(random, COPY_BUFFER, 48);
    put32(&mut bytes, 8, copying.to);
    put32(&mut bytes, 12, copying.from);
    put64(&mut bytes, 16, copying.to_offset);
    put64(&mut bytes, 24, copying.from_offset);
    put64(&mut bytes, 32, copying.size);
    put32(&mut bytes, 40, copying.flags);
    bytes
}

pub fn target(random: &mut Random, handle: u32) -> Vec<u8> {
    let mut bytes = any(random, TARGET, 16);
    put32(&mut bytes, 8, handle);
    bytes
}

pub fn viewport(random: &mut Random, viewport: Viewport) -> Vec<u8> {
    let mut bytes = any(random, VIEWPORT, 32);
    put_words(&mut bytes[8..], &viewport);
    bytes
}

pub fn scissor(random: &mut Random, scissor: Scissor) -> Vec<u8> {
    let mut bytes = any(random, SCISSOR, 24);
    let Scissor {
        x,
        y,
        width,
        height,
    } = scissor;
    put_words(
        &mut bytes[8..],
        &[x, y, width, height].map(|field| field as u32),
    );
    bytes
}

pub fn clear(random: &mut Random, clear: Clear) -> Vec<u8> {
    let mut bytes = any(random, CLEAR, 36);
    put32(&mut bytes, 8, clear.flags);
    put_words(&mut bytes[12..], &clear.colour);
    put32(&mut bytes, 28, clear.depth);
    put32(&mut bytes, 32, clear.stencil);
    bytes
}

pub fn export(random: &mut Random, handle: u32, token: u64) -> Vec<u8> {
    with_handle_and_token(random, EXPORT, handle, token)
}

pub fn import(random: &mut Random, handle: u32, token: u64) -> Vec<u8> {
    with_handle_and_token(random, IMPORT, handle, token)
}

fn with_handle_and_token(random: &mut Random, opcode: u32, handle: u32, token: u64) -> Vec<u8> {
    let mut bytes = any(random, opcode, 24);
    put32(&mut bytes, 8, handle);
    put64(&mut bytes, 16, token);
    bytes
}

pub fn release(random: &mut Random, token: u64) -> Vec<u8> {
    let mut bytes = any(random, RELEASE, 16);
    put64(&mut bytes, 8, token);
    bytes
}
