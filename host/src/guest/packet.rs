//! Packets as bytes, and streams of them: what a guest's driver writes.
use super::fields::{put_long, put_word};
use super::state_packets::{put_words, Clear, Scissor, Viewport};
use super::{header, size_of, STREAM_HEADER, STREAM_MAGIC};

/// Where a resource lives in guest memory.
#[derive(Clone, Copy, Debug, PartialEq, Eq)]
pub struct Backing {
    /// A table entry's id, not 0.
    pub id: u32,
    /// Bytes from where the entry starts.
    pub offset: u32,
}

/// A texture's shape.
#[derive(Clone, Copy, Debug, PartialEq, Eq)]
pub struct Shape {
    /// 1, 2 or 3: 4 bytes a pixel. 64: 8 bytes a block of 4 by 4. 65 or 66: 16 bytes a block.
    pub format: u32,
    /// Pixels of mip 0.
    pub width: u32,
    /// Pixels of mip 0.
    pub height: u32,
    /// At least 1, at most the full chain.
    pub mips: u32,
    /// At least 1, at most 256.
    pub layers: u32,
    /// Bytes of a row of mip 0; it counts only where the texture is backed.
    pub pitch: u32,
}

/// A packet of a command stream. A driver's packets become bytes by [`to_bytes`](Packet::to_bytes), and [`decode`](super::decode)
/// reads them back, floats bit for bit. Packets compare as their fields do, so one with a NaN is equal to none.
#[derive(Clone, Copy, Debug, PartialEq)]
pub enum Packet {
    /// Makes a buffer; without backing it lives with the host.
    CreateBuffer {
        /// The new resource's handle.
        handle: u32,
        /// Its bytes.
        size: u64,
        /// Its guest memory.
        backing: Option<Backing>,
    },
    /// Makes a texture; without backing it lives with the host.
    CreateTexture {
        /// The new resource's handle.
        handle: u32,
        /// Its shape.
        shape: Shape,
        /// Its guest memory.
        backing: Option<Backing>,
    },
    /// Ends a name of a resource, and with its last name the resource.
    Destroy {
        /// The name's handle.
        handle: u32,
    },
    /// The guest has changed a range of a backed resource.
    DirtyRange {
        /// The resource's handle.
        handle: u32,
        /// Bytes from where the resource starts.
        offset: u64,
        /// The range's bytes.
        size: u64,
    },
    /// Copies from buffer to buffer.
    CopyBuffer {
        /// The buffer copied to.
        destination: u32,
        /// The buffer copied from.
        source: u32,
        /// Bytes from where the destination starts.
        destination_offset: u64,
        /// Bytes from where the source starts.
        source_offset: u64,
        /// The bytes copied.
        size: u64,
        /// The result goes back to guest memory.
        writeback: bool,
    },
    /// Makes a live texture the target, until it is destroyed or the submission ends.
    Target {
        /// The texture's handle.
        handle: u32,
    },
    /// Sets the viewport.
    Viewport(Viewport),
    /// Clips what is drawn to a part of the target, of which there must be one.
    Scissor(Scissor),
    /// Clears to a colour, a depth and a stencil.
    Clear(Clear),
    /// Binds a token to a live texture of one mip and one layer, so that other programs may import it.
    Export {
        /// One of the texture's names.
        handle: u32,
        /// Not 0, never bound to another resource since the last reset, and not released.
        token: u64,
    },
    /// Gives the resource that a token is bound to another name. Destroying one name leaves the others.
    Import {
        /// The new name.
        handle: u32,
        /// A token that is bound to a live resource.
        token: u64,
    },
    /// Ends a token: nobody can import or export by it any more. The names that were made by it stay.
    Release {
        /// A token that is bound to a live resource.
        token: u64,
    },
    /// A packet that the front does not know and skips. Written, it has zeros after its header.
    Unknown {
        /// None of those above.
        opcode: u32,
        /// Its bytes with its header: at least 8, a multiple of 4. The front refuses any other; of less than 8 there are no bytes
        /// to write, since the header says this size.
        size: u32,
    },
}

/// A row of the documents' tables of packets: the opcode, and the bytes that such a packet has at least.
pub(super) type Row = (u32, u32);

pub(super) const CREATE_BUFFER: Row = (256, 40);
pub(super) const CREATE_TEXTURE: Row = (257, 56);
pub(super) const DESTROY: Row = (258, 16);
pub(super) const DIRTY_RANGE: Row = (259, 32);
pub(super) const COPY_BUFFER: Row = (261, 48);
pub(super) const TARGET: Row = (1024, 16);
pub(super) const VIEWPORT: Row = (1025, 32);
pub(super) const SCISSOR: Row = (1026, 24);
pub(super) const CLEAR: Row = (1536, 36);
pub(super) const EXPORT: Row = (1808, 24);
pub(super) const IMPORT: Row = (1809, 24);
pub(super) const RELEASE: Row = (1810, 16);

/// Opcode and size, of every packet.
pub(super) const PACKET_HEADER: u32 = 8;

/// The only flag of a copy.
pub(super) const WRITEBACK: u32 = 1;

impl Packet {
    /// The opcode and the size that it is written with. A known packet may be longer than its row says, not shorter.
    fn opcode_and_size(&self) -> (u32, u32) {
        match *self {
            Packet::CreateBuffer { .. } => CREATE_BUFFER,
            Packet::CreateTexture { .. } => CREATE_TEXTURE,
            Packet::Destroy { .. } => DESTROY,
            Packet::DirtyRange { .. } => DIRTY_RANGE,
            Packet::CopyBuffer { .. } => COPY_BUFFER,
            Packet::Target { .. } => TARGET,
            Packet::Viewport(_) => VIEWPORT,
            Packet::Scissor(_) => SCISSOR,
            Packet::Clear(_) => CLEAR,
            Packet::Export { .. } => EXPORT,
            Packet::Import { .. } => IMPORT,
            Packet::Release { .. } => RELEASE,
            Packet::Unknown { opcode, size } => (opcode, size),
        }
    }

    /// The packet's bytes.
    ///
    /// # Panics
    /// If it is [`Packet::Unknown`] of less than 8 bytes.
    pub fn to_bytes(&self) -> Vec<u8> {
        let (opcode, size) = self.opcode_and_size();
        assert!(
            size >= PACKET_HEADER,
            "a packet of {} bytes has no room for its header of 8",
            size
        );
        let mut bytes = vec![0; size as usize];
        put_word(&mut bytes, 0, opcode);
        put_word(&mut bytes, 4, size);
        self.put_fields(&mut bytes);
        bytes
    }

    /// The packet's bytes as a driver of a higher minor version sends them: its own fields, and these words appended, which the
    /// front ignores. So it comes to what [`to_bytes`](Packet::to_bytes) comes to; [`stream_of`] puts it into a stream.
    ///
    /// ```
    /// use zelezmut::guest::Packet;
    ///
    /// let destroy = Packet::Destroy { handle: 7 };
    /// let grown = destroy.grown(&[1, 2]);
    /// assert_eq!(grown.len(), 24);
    /// assert_eq!(grown[4..8], 24u32.to_le_bytes());
    /// assert_eq!(grown[8..16], destroy.to_bytes()[8..]);
    /// ```
    ///
    /// # Panics
    /// As [`to_bytes`](Packet::to_bytes) does, and if the bytes come to 4 GiB.
    pub fn grown(&self, appended: &[u32]) -> Vec<u8> {
        let mut bytes = self.to_bytes();
        for value in appended {
            bytes.extend(value.to_le_bytes());
        }
        let size = size_of(&bytes);
        put_word(&mut bytes, 4, size);
        bytes
    }

    /// Whether a float of it is no number at all. In a stream that the front has checked none is, unless the guest has changed it since.
    ///
    /// ```
    /// use zelezmut::guest::{Clear, Packet};
    ///
    /// let clear = |depth| Packet::Clear(Clear { flags: 2, colour: [0.0; 4], depth, stencil: 0 });
    /// assert!(!clear(-0.0).has_nan() && !clear(f32::INFINITY).has_nan());
    /// assert!(clear(f32::NAN).has_nan());
    /// ```
    pub fn has_nan(&self) -> bool {
        match self {
            Packet::Viewport(viewport) => viewport.has_nan(),
            Packet::Clear(clear) => clear.has_nan(),
            _ => false,
        }
    }

    fn put_fields(&self, bytes: &mut [u8]) {
        match *self {
            Packet::CreateBuffer { .. } | Packet::CreateTexture { .. } => self.put_create(bytes),
            Packet::Destroy { handle } | Packet::Target { handle } => put_word(bytes, 8, handle),
            Packet::DirtyRange {
                handle,
                offset,
                size,
            } => {
                put_word(bytes, 8, handle);
                put_long(bytes, 16, offset);
                put_long(bytes, 24, size);
            }
            Packet::CopyBuffer { .. } => self.put_copy(bytes),
            Packet::Viewport(viewport) => viewport.put(bytes, 8),
            Packet::Scissor(scissor) => scissor.put(bytes, 8),
            Packet::Clear(clear) => clear.put(bytes, 8),
            Packet::Export { handle, token } | Packet::Import { handle, token } => {
                put_word(bytes, 8, handle);
                put_long(bytes, 16, token);
            }
            Packet::Release { token } => put_long(bytes, 8, token),
            Packet::Unknown { .. } => (),
        }
    }

    /// The fields of a create, if it is one.
    fn put_create(&self, bytes: &mut [u8]) {
        match *self {
            Packet::CreateBuffer {
                handle,
                size,
                backing,
            } => {
                put_word(bytes, 8, handle);
                put_long(bytes, 16, size);
                put_backing(bytes, 24, backing);
            }
            Packet::CreateTexture {
                handle,
                shape,
                backing,
            } => {
                put_word(bytes, 8, handle);
                put_shape(bytes, 16, shape);
                put_backing(bytes, 40, backing);
            }
            _ => (),
        }
    }

    /// The fields of a copy, if it is one.
    fn put_copy(&self, bytes: &mut [u8]) {
        if let Packet::CopyBuffer {
            destination,
            source,
            destination_offset,
            source_offset,
            size,
            writeback,
        } = *self
        {
            put_word(bytes, 8, destination);
            put_word(bytes, 12, source);
            put_long(bytes, 16, destination_offset);
            put_long(bytes, 24, source_offset);
            put_long(bytes, 32, size);
            put_word(bytes, 40, if writeback { WRITEBACK } else { 0 });
        }
    }
}

fn put_shape(bytes: &mut [u8], at: usize, shape: Shape) {
    let Shape {
        format,
        width,
        height,
        mips,
        layers,
        pitch,
    } = shape;
    put_words(bytes, at, [format, width, height, mips, layers, pitch]);
}

/// Zeros say that the resource lives with the host.
fn put_backing(bytes: &mut [u8], at: usize, backing: Option<Backing>) {
    if let Some(Backing { id, offset }) = backing {
        put_word(bytes, at, id);
        put_word(bytes, at + 4, offset);
    }
}

/// A command stream's bytes.
///
/// # Panics
/// As [`Packet::to_bytes`] does, and if the bytes come to 4 GiB.
pub fn stream(packets: &[Packet]) -> Vec<u8> {
    let packets: Vec<Vec<u8>> = packets.iter().map(Packet::to_bytes).collect();
    stream_of(&packets)
}

/// A command stream's bytes, of packets that are bytes already: some [grown](Packet::grown), some not.
///
/// # Panics
/// If they come to 4 GiB.
pub fn stream_of(packets: &[Vec<u8>]) -> Vec<u8> {
    let mut bytes = vec![0; STREAM_HEADER];
    for packet in packets {
        bytes.extend(packet);
    }
    let size = size_of(&bytes);
    header(&mut bytes, STREAM_MAGIC, size);
    bytes
}
