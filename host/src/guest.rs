//! What a guest's driver writes into its memory, as bytes: rings, descriptors, tables and streams; and, for a host that carries a
//! submission out, what it finds there: [`at_head`] and [`decode`].
//!
//! What is written here is for tests and samples, and well-formed as far as the types can say. To break a rule on purpose, change the
//! bytes. What does not fit into the guest's 32-bit fields is a panic, in every build, never a number that wrapped; each function says
//! when. What is read here was written by a guest: it is never a panic, whatever it is.
mod decoding;
mod fields;
mod names;
mod packet;
mod state_packets;

pub use decoding::{decode, Decoded, Packets, StreamError};
pub use names::{PacketByte, PacketField, PacketLayout, PACKET_LAYOUTS};
pub use packet::{stream, stream_of, Backing, Packet, Shape};
pub use state_packets::{Clear, Scissor, Viewport};

use fields::{put_field, put_long, put_word, Fields};

/// 1.3, the major number in the high 16 bits.
const VERSION: u32 = MAJOR << 16 | 3;
const MAJOR: u32 = 1;

const RING_HEADER: usize = 64;
/// Where the fields stand in a ring's header that are used here.
const COUNT: usize = 12;
const STRIDE: usize = 16;
const HEAD: usize = 24;
const TAIL: usize = 28;
const DESCRIPTOR: usize = 64;
/// The only flag of a descriptor that means something.
const SILENT: u32 = 1;
const TABLE_HEADER: usize = 24;
const ENTRY: usize = 32;
const STREAM_HEADER: usize = 24;
const STREAM_MAGIC: [u8; 4] = *b"ACMD";

/// Copies bytes into memory.
///
/// # Panics
/// If they do not lie within it.
#[track_caller]
pub fn put(memory: &mut [u8], gpa: usize, bytes: &[u8]) {
    let length = memory.len();
    match memory
        .get_mut(gpa..)
        .and_then(|rest| rest.get_mut(..bytes.len()))
    {
        Some(place) => place.copy_from_slice(bytes),
        None => panic!(
            "{} bytes at {} do not lie within a memory of {}",
            bytes.len(),
            gpa,
            length
        ),
    }
}

/// What the headers of rings, tables and streams begin with.
fn header(bytes: &mut [u8], magic: [u8; 4], size: u32) {
    put_field(bytes, 0, magic);
    put_word(bytes, 4, VERSION);
    put_word(bytes, 8, size);
}

/// The bytes of what is lent, as a size field says them.
fn size_of(bytes: &[u8]) -> u32 {
    u32::try_from(bytes.len()).expect("a table, stream or packet of less than 4 GiB")
}

/// The header of a ring whose slots stand close together after it: submissions from `head` to before `tail` are pending.
///
/// # Panics
/// As [`ring_size`] does.
pub fn ring(slots: u32, head: u32, tail: u32) -> [u8; RING_HEADER] {
    let mut bytes = [0; RING_HEADER];
    header(&mut bytes, *b"ARNG", ring_size(slots));
    put_word(&mut bytes, COUNT, slots);
    put_word(&mut bytes, STRIDE, DESCRIPTOR as u32);
    put_word(&mut bytes, HEAD, head);
    put_word(&mut bytes, TAIL, tail);
    bytes
}

/// Moves the tail of the ring that stands at an address: submissions to before it are pending. The rest of the header, and the head, which
/// is the front's to move, stay as they are.
///
/// ```
/// use zelezmut::guest;
///
/// let mut memory = vec![0; 1024];
/// guest::put(&mut memory, 256, &guest::ring(8, 3, 3));
/// guest::put_tail(&mut memory, 256, 4);
/// assert_eq!(memory[256..320], guest::ring(8, 3, 4));
/// ```
///
/// # Panics
/// If it does not lie within the memory.
#[track_caller]
pub fn put_tail(memory: &mut [u8], ring: usize, tail: u32) {
    match ring.checked_add(TAIL) {
        Some(at) => put(memory, at, &tail.to_le_bytes()),
        None => panic!("a ring at {} does not lie within any memory", ring),
    }
}

/// The most slots that [`ring_size`] has a size for. The front takes fewer.
pub const MOST_SLOTS: u32 = (u32::MAX - RING_HEADER as u32) / DESCRIPTOR as u32;

/// The bytes of a ring of so many slots, with its header.
///
/// # Panics
/// If there are more than [`MOST_SLOTS`], whose bytes the ring's size field cannot say.
pub const fn ring_size(slots: u32) -> u32 {
    assert!(
        slots <= MOST_SLOTS,
        "a ring's size is a number of 32 bits: it has no room for so many slots"
    );
    RING_HEADER as u32 + slots * DESCRIPTOR as u32
}

/// Where a slot stands, in bytes from where the ring starts.
///
/// # Panics
/// If the slot is [`MOST_SLOTS`] or above.
pub const fn slot_offset(slot: u32) -> usize {
    assert!(slot < MOST_SLOTS, "no ring has a slot of this index");
    ring_size(slot) as usize
}

/// A part of guest memory. The default, zeros, is none.
#[derive(Clone, Copy, Debug, Default, PartialEq, Eq)]
pub struct Part {
    /// Where it starts.
    pub gpa: u64,
    /// Its bytes.
    pub size: u32,
}

impl Part {
    /// The part that these bytes take at an address.
    ///
    /// # Panics
    /// If there are 4 GiB or more of them.
    pub fn of(gpa: u64, bytes: &[u8]) -> Part {
        Part {
            gpa,
            size: size_of(bytes),
        }
    }

    /// The part's bytes in a memory; `None` if it does not lie within.
    pub fn within(self, memory: &[u8]) -> Option<&[u8]> {
        part(memory, self.gpa, self.size as usize)
    }
}

/// So many bytes of a memory, from an address on.
fn part(memory: &[u8], gpa: u64, size: usize) -> Option<&[u8]> {
    Fields(memory).part(usize::try_from(gpa).ok()?, size)
}

/// A submission, as a ring's slot holds it. The default has no stream, no table and fence 0.
#[derive(Clone, Copy, Debug, Default, PartialEq, Eq)]
pub struct Descriptor {
    /// The command stream.
    pub commands: Part,
    /// The allocation table.
    pub table: Part,
    /// The fence that is finished when the submission settles.
    pub fence: u64,
    /// No interrupt for the fence.
    pub silent: bool,
}

impl Descriptor {
    /// The slot's bytes.
    pub fn to_bytes(&self) -> [u8; DESCRIPTOR] {
        let mut bytes = [0; DESCRIPTOR];
        put_word(&mut bytes, 0, DESCRIPTOR as u32);
        put_word(&mut bytes, 4, if self.silent { SILENT } else { 0 });
        put_long(&mut bytes, 16, self.commands.gpa);
        put_word(&mut bytes, 24, self.commands.size);
        put_long(&mut bytes, 32, self.table.gpa);
        put_word(&mut bytes, 40, self.table.size);
        put_long(&mut bytes, 48, self.fence);
        bytes
    }

    /// The submission that a slot's bytes hold, none of it judged; `None` if there are fewer bytes than a descriptor has.
    pub fn from_bytes(slot: &[u8]) -> Option<Descriptor> {
        let fields = Fields(slot.get(..DESCRIPTOR)?);
        let part = |gpa, size| {
            Some(Part {
                gpa: fields.long(gpa)?,
                size: fields.word(size)?,
            })
        };
        Some(Descriptor {
            commands: part(16, 24)?,
            table: part(32, 40)?,
            fence: fields.long(48)?,
            silent: fields.word(4)? & SILENT != 0,
        })
    }
}

/// The submission at the head of the ring that stands at an address. While one is in work it is that one: the front moves the head on
/// when it settles. `None` if there is no ring of at least one slot there, or its head's slot does not lie within the memory.
///
/// A host that carries a submission out finds its stream so. Ring and slot are read where they stand now, and none of it is judged: the guest
/// may have changed them since the front opened the submission.
///
/// ```
/// use zelezmut::guest::{self, Descriptor};
///
/// let mut memory = vec![0; 1024];
/// let submission = Descriptor { fence: 7, ..Descriptor::default() };
/// guest::put(&mut memory, 256, &guest::ring(4, 6, 7));
/// guest::put(&mut memory, 256 + guest::slot_offset(2), &submission.to_bytes());
/// assert_eq!(guest::at_head(&memory, 256), Some(submission));
/// assert_eq!(guest::at_head(&memory, 1024), None);
/// ```
pub fn at_head(memory: &[u8], ring: u64) -> Option<Descriptor> {
    let header = Fields(part(memory, ring, RING_HEADER)?);
    let slot = header.word(HEAD)?.checked_rem(header.word(COUNT)?)?;
    let slots = u64::from(slot).checked_mul(header.word(STRIDE)?.into())?;
    let at = ring.checked_add(RING_HEADER as u64)?.checked_add(slots)?;
    Descriptor::from_bytes(part(memory, at, DESCRIPTOR)?)
}

/// The head of the ring that stands at an address, as its header has it; `None` if the header does not lie within the memory.
pub(crate) fn head(memory: &[u8], ring: u64) -> Option<u32> {
    Fields(part(memory, ring, RING_HEADER)?).word(HEAD)
}

/// A table entry: a part of guest memory that packets name by its id.
#[derive(Clone, Copy, Debug, PartialEq, Eq)]
pub struct Entry {
    /// Not 0, and no other entry's.
    pub id: u32,
    /// Where it starts.
    pub gpa: u64,
    /// Its bytes.
    pub size: u64,
    /// The host may not write there.
    pub read_only: bool,
}

/// An allocation table's bytes.
///
/// # Panics
/// If they are 4 GiB or more.
pub fn table(entries: &[Entry]) -> Vec<u8> {
    let mut bytes = vec![0; TABLE_HEADER + entries.len() * ENTRY];
    let size = size_of(&bytes);
    header(&mut bytes, *b"ALOC", size);
    put_word(&mut bytes, 12, (size - TABLE_HEADER as u32) / ENTRY as u32);
    put_word(&mut bytes, 16, ENTRY as u32);
    for (row, entry) in bytes[TABLE_HEADER..].chunks_exact_mut(ENTRY).zip(entries) {
        put_word(row, 0, entry.id);
        put_word(row, 4, entry.read_only.into());
        put_long(row, 8, entry.gpa);
        put_long(row, 16, entry.size);
    }
    bytes
}

#[cfg(test)]
mod tests {
    use super::*;
    use std::panic::catch_unwind;

    /// What a panic says.
    fn said<T>(panicking: impl FnOnce() -> T + std::panic::UnwindSafe) -> String {
        let payload = catch_unwind(panicking).err().expect("a panic");
        match payload.downcast::<String>() {
            Ok(said) => *said,
            Err(payload) => payload
                .downcast::<&str>()
                .map_or(String::new(), |said| said.to_string()),
        }
    }

    #[test]
    fn a_ring_has_as_many_slots_as_its_size_can_say() {
        assert_eq!(ring_size(0), 64);
        assert_eq!(ring_size(MOST_SLOTS), u32::MAX - 63);
        assert_eq!(
            slot_offset(MOST_SLOTS - 1),
            ring_size(MOST_SLOTS - 1) as usize
        );
        for slots in [MOST_SLOTS + 1, 1 << 26, u32::MAX] {
            assert!(said(|| ring_size(slots)).contains("no room for so many slots"));
            assert!(said(|| ring(slots, 0, 0)).contains("no room for so many slots"));
            assert!(said(|| slot_offset(slots)).contains("no ring has a slot"));
        }
    }

    #[test]
    fn what_is_put_lies_within_memory_or_is_told() {
        let mut memory = [0; 4];
        put(&mut memory, 2, &[1, 2]);
        put(&mut memory, 4, &[]);
        assert_eq!(memory, [0, 0, 1, 2]);
        for (gpa, bytes) in [
            (3, &[7, 7][..]),
            (5, &[]),
            (usize::MAX, &[7]),
            (usize::MAX, &[7, 7]),
        ] {
            let words = said(|| put(&mut [0; 4], gpa, bytes));
            let expected = format!(
                "{} bytes at {} do not lie within a memory of 4",
                bytes.len(),
                gpa
            );
            assert_eq!(words, expected);
        }
        assert!(said(|| put_tail(&mut [0; 31], 0, 1)).contains("4 bytes at 28"));
        assert!(said(|| put_tail(&mut [0; 32], usize::MAX, 1)).contains("within any memory"));
    }

    #[test]
    fn a_descriptor_is_read_back() {
        let written = Descriptor {
            commands: Part {
                gpa: 1 << 40,
                size: 2,
            },
            table: Part {
                gpa: u64::MAX,
                size: u32::MAX,
            },
            fence: 5,
            silent: true,
        };
        let mut bytes = written.to_bytes();
        assert_eq!(Descriptor::from_bytes(&bytes), Some(written));
        assert_eq!(Descriptor::from_bytes(&bytes[..63]), None);
        bytes[4] = 0xFE;
        assert!(!Descriptor::from_bytes(&bytes).unwrap().silent);
        assert_eq!(
            written
                .commands
                .within(&[0; 64])
                .or(written.table.within(&[])),
            None
        );
        assert_eq!(Part { gpa: 1, size: 2 }.within(b"abcd"), Some(&b"bc"[..]));
        assert_eq!(Part::default().within(&[]), Some(&[][..]));
    }

    /// Numbers in the ring's header lead nowhere but into the memory.
    #[test]
    fn a_head_is_within_memory_or_nowhere() {
        let mut memory = [0; 256];
        put(&mut memory, 0, &ring(3, 5, 6));
        assert!(at_head(&memory, 0).is_some());
        assert_eq!(at_head(&memory[..255], 0), None);
        for address in [1 << 20, u64::MAX - 63, u64::MAX] {
            assert_eq!(at_head(&memory, address), None);
        }
        put(&mut memory, COUNT, &[0; 4]);
        assert_eq!(at_head(&memory, 0), None);
        for far in [HEAD, COUNT, STRIDE] {
            put(&mut memory, far, &[0xFF; 4]);
        }
        assert!(at_head(&memory, 0).is_some());
        put(&mut memory, HEAD, &[0xFE; 4]);
        assert_eq!(at_head(&memory, 0), None);
    }

    #[test]
    fn a_packet_has_room_for_its_header() {
        let other = |size| Packet::Unknown { opcode: 7, size };
        assert_eq!(other(8).to_bytes(), [7, 0, 0, 0, 8, 0, 0, 0]);
        assert_eq!(other(9).to_bytes().len(), 9);
        for size in 0..8 {
            let words = format!("a packet of {} bytes has no room for its header of 8", size);
            assert_eq!(said(|| other(size).to_bytes()), words);
            assert_eq!(said(|| other(size).grown(&[1, 2])), words);
            assert_eq!(said(|| stream(&[other(size)])), words);
        }
    }
}
