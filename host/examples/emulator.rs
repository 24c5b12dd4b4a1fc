//! A small emulator around a desk: guest memory, the adapter's registers, and a host that carries submissions out on surfaces of its own.
//! What it plays in `main` is a guest's driver that uploads a picture, copies it, and wants a part of it back; and two programs that
//! share a texture.
//!
//! The front has checked a submission when it waits, and gives a record for every range of guest memory that the host is to read or
//! write. What else is to be done stands in the stream, and the host reads that for itself (`carry_out`).
//!
//! GUEST MEMORY MAY HAVE CHANGED SINCE IT WAS CHECKED. The guest runs between the slices of a run, and while the host works. So this
//! host copies the stream out once and decodes the copy; it judges every handle and range anew, by its own surfaces; it takes addresses
//! in guest memory from the records alone, never from the stream; and where the two do not fit each other it answers "failed". So a guest
//! that changes its stream behind the check gets what it wrote last, or an error, and reaches nothing but its own surfaces.
//!
//!     cargo run --example emulator
use std::collections::BTreeMap;
use std::io::{self, Write};
use zelezmut::guest::{self, Backing, Descriptor, Entry, Packet, Part, Shape};
use zelezmut::{packed_size, registers, Desk, Ended, HostAnswer};
use zelezmut::{Range, Record, RecordKind, Refused, Waiting, Written};

/// Units a slice: the guest's processors stand still for no longer.
const SLICE: u16 = 2;

/// The most bytes of a surface. No rule bounds a buffer that lives with the host: the guest may ask for 2^64 - 1.
const LARGEST_SURFACE: u64 = 1 << 20;

/// What the host keeps of the guest's resources. A surface may have several names, and is gone with the last of them.
#[derive(Clone, Default)]
pub struct Surfaces {
    /// Every surface's bytes, by a number of the host's own. A texture that lives with the host has none: no packet so far touches them.
    bytes: BTreeMap<u64, Vec<u8>>,
    /// The next surface's number: none is ever used again.
    next: u64,
    /// The number of the surface that a name stands for.
    names: BTreeMap<u32, u64>,
    /// The number of the surface that a token was bound to, and whether it still is.
    tokens: BTreeMap<u64, (u64, bool)>,
}

impl Surfaces {
    /// All names, in rising order.
    pub fn names(&self) -> Vec<u32> {
        self.names.keys().copied().collect()
    }

    /// The bytes of the surface of this name.
    pub fn get(&self, name: u32) -> Option<&[u8]> {
        let number = self.names.get(&name)?;
        self.bytes.get(number).map(Vec::as_slice)
    }

    fn get_mut(&mut self, name: u32) -> Option<&mut Vec<u8>> {
        self.bytes.get_mut(self.names.get(&name)?)
    }

    /// The number of the surface of this name.
    fn number(&self, name: u32) -> Result<u64, Trouble> {
        let number = self.names.get(&name).copied();
        number.ok_or_else(|| format!("there is no surface {}", name))
    }

    /// A new surface, or another name for one that there is.
    fn add_name(&mut self, name: u32, number: u64) -> Result<(), Trouble> {
        match self.names.insert(name, number) {
            None => Ok(()),
            Some(_) => Err(format!("there is a surface {} already", name)),
        }
    }

    fn create(&mut self, name: u32, bytes: Vec<u8>) -> Result<(), Trouble> {
        self.add_name(name, self.next)?;
        self.bytes.insert(self.next, bytes);
        self.next += 1;
        Ok(())
    }

    /// The surface goes with its last name, and then nobody can import it any more.
    fn destroy(&mut self, name: u32) -> Result<(), Trouble> {
        let number = self.number(name)?;
        self.names.remove(&name);
        if !self.names.values().any(|&other| other == number) {
            self.bytes.remove(&number);
            let tokens = self.tokens.values_mut();
            tokens
                .filter(|(of, _)| *of == number)
                .for_each(|(_, bound)| *bound = false);
        }
        Ok(())
    }

    /// The token is the surface's from now on, if it was never another's and is not spent.
    fn export(&mut self, name: u32, token: u64) -> Result<(), Trouble> {
        let binding = (self.number(name)?, true);
        match *self.tokens.entry(token).or_insert(binding) == binding {
            true => Ok(()),
            false => Err(format!("token {} is taken or spent", token)),
        }
    }

    /// Another name for the surface that the token is bound to.
    fn import(&mut self, name: u32, token: u64) -> Result<(), Trouble> {
        let (number, _) = *self.bound(token)?;
        self.add_name(name, number)
    }

    fn release(&mut self, token: u64) -> Result<(), Trouble> {
        self.bound(token)?.1 = false;
        Ok(())
    }

    fn bound(&mut self, token: u64) -> Result<&mut (u64, bool), Trouble> {
        let bound = self.tokens.get_mut(&token).filter(|(_, bound)| *bound);
        bound.ok_or_else(|| format!("token {} is bound to nothing", token))
    }
}

/// Why a submission is answered "failed".
type Trouble = String;

/// A machine with one adapter.
pub struct Emulator {
    pub desk: Desk,
    pub memory: Vec<u8>,
    pub surfaces: Surfaces,
}

impl Emulator {
    pub fn new(memory: usize) -> Emulator {
        Emulator {
            desk: Desk::new(memory),
            memory: vec![0; memory],
            surfaces: Surfaces::default(),
        }
    }

    /// The guest writes a register. Whether the doorbell rang comes back: then it is time to `serve`.
    pub fn write(&mut self, offset: u32, value: u32) -> Result<bool, Refused> {
        let written = self.desk.write(offset, value)?;
        if written == Written::Reset {
            self.surfaces = Surfaces::default();
        }
        Ok(written == Written::Rang)
    }

    /// Works off all that the ring has, a slice at a time; between two slices the guest runs. The troubles that it had come back.
    pub fn serve(
        &mut self,
        mut guest_runs: impl FnMut(&mut [u8]),
    ) -> Result<Vec<Trouble>, Refused> {
        let mut troubles = Vec::new();
        // The guest's processors stand still during a call that is lent the memory: here they do, since `guest_runs` has returned.
        let mut ran = self.desk.run(&mut self.memory, SLICE)?;
        loop {
            ran = match ran.ended {
                Ended::Idle => return Ok(troubles),
                Ended::Paused => {
                    guest_runs(&mut self.memory);
                    self.desk.run(&mut self.memory, SLICE)?
                }
                Ended::Waiting => {
                    guest_runs(&mut self.memory);
                    self.finish(&mut troubles)?
                }
            };
        }
    }

    /// Carries out the submission that waits, answers it and works on.
    fn finish(&mut self, troubles: &mut Vec<Trouble>) -> Result<zelezmut::Ran, Refused> {
        let waiting = self.desk.waiting().ok_or(Refused::NothingWaits)?;
        // A failed submission must leave no trace on the surfaces; what it has written to guest memory may stay. A host with large
        // surfaces would keep a list of what to undo.
        let mut draft = self.surfaces.clone();
        let done = carry_out(&self.desk, waiting, &mut self.memory, &mut draft);
        let answer = HostAnswer::from(done.is_ok());
        // A host that works on other threads keeps the ticket with the work. If the guest has reset the device by then, this is
        // refused and settles nothing, and the draft is dropped.
        let ticket = waiting.ticket;
        let ran = self.desk.answer(&mut self.memory, ticket, answer, SLICE)?;
        match done {
            Ok(()) => self.surfaces = draft,
            Err(trouble) => troubles.push(format!("fence {}: {}", waiting.fence, trouble)),
        }
        Ok(ran)
    }
}

/// Does what the waiting submission asks, on a draft of the surfaces and on guest memory.
fn carry_out(
    desk: &Desk,
    waiting: Waiting,
    memory: &mut [u8],
    surfaces: &mut Surfaces,
) -> Result<(), Trouble> {
    let stream = stream_of(desk, waiting, memory).ok_or("the ring has changed")?;
    let mut records = desk.records();
    // A submission may have no stream at all.
    if !stream.is_empty() {
        for read in guest::decode(&stream).map_err(|error| error.to_string())? {
            let packet = read.map_err(|error| error.to_string())?.packet;
            apply(packet, &mut records, memory, surfaces)?;
        }
    }
    match records.next() {
        None => Ok(()),
        Some(record) => Err(format!("the stream has nothing for: {}", record)),
    }
}

/// A copy of the stream of the submission that waits. It is found as the front found it, by the ring's head, but as all that stands now.
fn stream_of(desk: &Desk, waiting: Waiting, memory: &[u8]) -> Option<Vec<u8>> {
    let half = |offset| desk.read(offset).ok().map(u64::from);
    let ring = half(registers::RING_GPA_HI)? << 32 | half(registers::RING_GPA_LO)?;
    let submission = guest::at_head(memory, ring).filter(|s| s.fence == waiting.fence)?;
    submission.commands.within(memory).map(<[u8]>::to_vec)
}

/// Carries out one packet. The records come in the order of the packets, one for each that names guest memory and for each scissor.
fn apply(
    packet: Packet,
    records: &mut impl Iterator<Item = Record>,
    memory: &mut [u8],
    surfaces: &mut Surfaces,
) -> Result<(), Trouble> {
    match packet {
        Packet::CreateBuffer {
            handle,
            size,
            backing,
        } => create(handle, size, backing, records, surfaces),
        Packet::CreateTexture {
            handle,
            shape: s,
            backing,
        } => {
            let packed = packed_size(s.format, s.width, s.height, s.mips, s.layers, s.pitch);
            let size = backing.and(packed).unwrap_or(0);
            create(handle, size, backing, records, surfaces)
        }
        Packet::Destroy { handle } => surfaces.destroy(handle),
        Packet::DirtyRange { .. } => upload(packet, records, memory, surfaces),
        Packet::CopyBuffer { .. } => copy(packet, records, memory, surfaces),
        Packet::Target { .. } | Packet::Viewport(_) | Packet::Scissor(_) | Packet::Clear(_) => {
            draw(packet, records, surfaces)
        }
        Packet::Export { handle, token } => surfaces.export(handle, token),
        Packet::Import { handle, token } => surfaces.import(handle, token),
        Packet::Release { token } => surfaces.release(token),
        Packet::Unknown { .. } => Ok(()),
    }
}

/// Says how to draw. This host does not: it only judges anew what was checked.
fn draw(
    packet: Packet,
    records: &mut impl Iterator<Item = Record>,
    surfaces: &Surfaces,
) -> Result<(), Trouble> {
    match packet {
        Packet::Target { handle } => surfaces.number(handle).map(drop),
        // A host that draws clips to the record's rectangle: the stream's own may be another by now.
        Packet::Scissor(_) => match records.next() {
            Some(Record::Clips(_)) => Ok(()),
            _ => Err("no record clips".to_string()),
        },
        _ if packet.has_nan() => Err("a float is no number".to_string()),
        _ => Ok(()),
    }
}

/// A new surface. If guest memory backs it there is a record for that; its bytes come with dirty ranges.
fn create(
    handle: u32,
    size: u64,
    backing: Option<Backing>,
    records: &mut impl Iterator<Item = Record>,
    surfaces: &mut Surfaces,
) -> Result<(), Trouble> {
    if size > LARGEST_SURFACE {
        return Err(format!("surface {} of {} bytes is too large", handle, size));
    }
    if backing.is_some() {
        next_range(records, RecordKind::Backs, handle, size)?;
    }
    surfaces.create(handle, vec![0; size as usize])
}

/// Takes over what the guest has changed. A range of no bytes has no record.
fn upload(
    packet: Packet,
    records: &mut impl Iterator<Item = Record>,
    memory: &mut [u8],
    surfaces: &mut Surfaces,
) -> Result<(), Trouble> {
    match packet {
        Packet::DirtyRange {
            handle,
            offset,
            size,
        } if size != 0 => {
            let range = guest_range(records, RecordKind::Reads, handle, size, memory)?;
            part(surfaces, handle, offset, size)?.copy_from_slice(range);
            Ok(())
        }
        _ => Ok(()),
    }
}

/// Copies from surface to surface. The source has no record; the destination has one if the result goes back to guest memory.
fn copy(
    packet: Packet,
    records: &mut impl Iterator<Item = Record>,
    memory: &mut [u8],
    surfaces: &mut Surfaces,
) -> Result<(), Trouble> {
    if let Packet::CopyBuffer {
        destination,
        source,
        destination_offset,
        source_offset,
        size,
        writeback,
    } = packet
    {
        let bytes = part(surfaces, source, source_offset, size)?.to_vec();
        part(surfaces, destination, destination_offset, size)?.copy_from_slice(&bytes);
        if writeback && size != 0 {
            let range = guest_range(records, RecordKind::Writes, destination, size, memory)?;
            range.copy_from_slice(&bytes);
        }
    }
    Ok(())
}

/// A range of a surface.
fn part(
    surfaces: &mut Surfaces,
    handle: u32,
    offset: u64,
    size: u64,
) -> Result<&mut [u8], Trouble> {
    let outside = || format!("surface {} has no {} bytes at {}", handle, size, offset);
    let surface = surfaces.get_mut(handle).ok_or_else(outside)?;
    range_of(surface, offset, size).ok_or_else(outside)
}

fn range_of(bytes: &mut [u8], start: u64, length: u64) -> Option<&mut [u8]> {
    let (start, length) = (usize::try_from(start).ok()?, usize::try_from(length).ok()?);
    bytes.get_mut(start..)?.get_mut(..length)
}

/// The range of guest memory that the next record names, which the front has checked.
fn guest_range<'a>(
    records: &mut impl Iterator<Item = Record>,
    kind: RecordKind,
    handle: u32,
    size: u64,
    memory: &'a mut [u8],
) -> Result<&'a mut [u8], Trouble> {
    let range = next_range(records, kind, handle, size)?;
    range_of(memory, range.gpa, range.length).ok_or_else(|| "no such range".to_string())
}

/// The next record's range, which has to be the one that this packet was checked for: its handle is the name that the packet says.
fn next_range(
    records: &mut impl Iterator<Item = Record>,
    kind: RecordKind,
    handle: u32,
    size: u64,
) -> Result<Range, Trouble> {
    records
        .next()
        .filter(|record| record.kind() == kind)
        .and_then(Record::range)
        .filter(|range| (range.handle, range.length) == (handle, size))
        .ok_or_else(|| format!("no record {} {} bytes of surface {}", kind, size, handle))
}

// The guest's driver, as far as this example needs one.

pub const MEMORY: usize = 16_384;
const SLOTS: u32 = 8;
const TABLE: usize = 1024;
pub const STREAM: usize = 2048;
/// The guest memory behind the picture.
pub const PICTURE: Entry = Entry {
    id: 5,
    gpa: 8192,
    size: 4096,
    read_only: false,
};

/// The driver starts the adapter: an empty ring at address 0.
pub fn start(emulator: &mut Emulator) -> Result<(), Refused> {
    guest::put(&mut emulator.memory, 0, &guest::ring(SLOTS, 0, 0));
    emulator.write(registers::RING_SIZE, guest::ring_size(SLOTS))?;
    emulator.write(registers::CONTROL, registers::CONTROL_ENABLE)?;
    Ok(())
}

/// The driver submits packets with the next fence, from 1 on, and rings the doorbell.
pub fn submit(emulator: &mut Emulator, fence: u32, packets: &[Packet]) -> Result<bool, Refused> {
    let (table, stream) = (guest::table(&[PICTURE]), guest::stream(packets));
    let submission = Descriptor {
        commands: Part::of(STREAM as u64, &stream),
        table: Part::of(TABLE as u64, &table),
        fence: fence.into(),
        silent: false,
    };
    let slot = guest::slot_offset((fence - 1) % SLOTS);
    guest::put(&mut emulator.memory, slot, &submission.to_bytes());
    guest::put(&mut emulator.memory, TABLE, &table);
    guest::put(&mut emulator.memory, STREAM, &stream);
    guest::put_tail(&mut emulator.memory, 0, fence);
    emulator.write(registers::DOORBELL, 1)
}

/// Buffer 1 is backed by the picture's memory and uploaded; buffer 2 lives with the host and gets a copy.
pub const UPLOAD: [Packet; 4] = [
    Packet::CreateBuffer {
        handle: 1,
        size: 256,
        backing: Some(Backing { id: 5, offset: 64 }),
    },
    Packet::CreateBuffer {
        handle: 2,
        size: 64,
        backing: None,
    },
    Packet::DirtyRange {
        handle: 1,
        offset: 16,
        size: 5,
    },
    Packet::CopyBuffer {
        destination: 2,
        source: 1,
        destination_offset: 8,
        source_offset: 16,
        size: 5,
        writeback: false,
    },
];

/// The copy goes to another place of buffer 1, and from there to guest memory; buffer 2 is not needed any more.
pub const GET_BACK: [Packet; 2] = [
    Packet::CopyBuffer {
        destination: 1,
        source: 2,
        destination_offset: 100,
        source_offset: 8,
        size: 5,
        writeback: true,
    },
    Packet::Destroy { handle: 2 },
];

/// One program makes texture 3 and exports it; the desktop imports it as 4 and uploads through that name; the program gives its own up.
pub const SHARE: [Packet; 5] = [
    Packet::CreateTexture {
        handle: 3,
        shape: Shape {
            format: 1,
            width: 5,
            height: 3,
            mips: 1,
            layers: 1,
            pitch: 20,
        },
        backing: Some(Backing { id: 5, offset: 64 }),
    },
    Packet::Export {
        handle: 3,
        token: 77,
    },
    Packet::Import {
        handle: 4,
        token: 77,
    },
    Packet::DirtyRange {
        handle: 4,
        offset: 16,
        size: 5,
    },
    Packet::Destroy { handle: 3 },
];

/// Plays three submissions and prints what became of them.
pub fn play(out: &mut impl Write) -> io::Result<()> {
    let refused = |refused: Refused| io::Error::new(io::ErrorKind::Other, refused);
    let mut emulator = Emulator::new(MEMORY);
    let backing = PICTURE.gpa as usize + 64;
    guest::put(&mut emulator.memory, backing + 16, b"hello");
    start(&mut emulator).map_err(refused)?;
    for (fence, packets) in [(1, &UPLOAD[..]), (2, &GET_BACK), (3, &SHARE)] {
        submit(&mut emulator, fence, packets).map_err(refused)?;
        let troubles = emulator.serve(|_| ()).map_err(refused)?;
        let fence = emulator.desk.completed_fence();
        let names = emulator.surfaces.names();
        writeln!(
            out,
            "fence {}, surfaces {:?}, troubles {:?}",
            fence, names, troubles
        )?;
    }
    let back = String::from_utf8_lossy(&emulator.memory[backing + 100..][..5]);
    writeln!(out, "back in guest memory: {}", back)?;
    let shared = emulator
        .surfaces
        .get(4)
        .map_or(&[][..], |shared| &shared[16..21]);
    let shared = String::from_utf8_lossy(shared);
    writeln!(out, "in the shared texture: {}", shared)
}

pub fn main() -> io::Result<()> {
    play(&mut io::stdout().lock())
}
