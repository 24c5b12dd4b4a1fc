//! The packets: their fields, their rules, and the records they make.

use crate::bytes::{fits, u32_at, u64_at, Field};
use crate::errors::Error;
use crate::resources::{Resource, Resources, NO_SURFACE};
use crate::shapes::{Shape, Texture};
use crate::share::{Release, Share};
use crate::state::{Clear, Scissor, Target, Viewport};
use crate::table::{self, Entry, MAX_ENTRIES};
use crate::tokens::Tokens;

/// The size of a packet's header.
pub(crate) const PACKET_HEADER: u32 = 8;
/// The named fields of a packet's header.
pub(crate) const PACKET_HEADER_FIELDS: &[Field] = &[(0, 4), (4, 4)];

pub(crate) const CREATE_BUFFER: u32 = 256;
pub(crate) const CREATE_TEXTURE: u32 = 257;
pub(crate) const DESTROY: u32 = 258;
pub(crate) const DIRTY: u32 = 259;
pub(crate) const COPY: u32 = 261;
pub(crate) const TARGET: u32 = 1024;
pub(crate) const VIEWPORT: u32 = 1025;
pub(crate) const SCISSOR: u32 = 1026;
pub(crate) const CLEAR: u32 = 1536;
pub(crate) const EXPORT: u32 = 1808;
pub(crate) const IMPORT: u32 = 1809;
pub(crate) const RELEASE: u32 = 1810;

const COPY_WRITEBACK: u32 = 1;

/// The most records of a submission.
pub(crate) const MAX_RECORDS: usize = 64;

pub(crate) const KIND_CREATE: u32 = 1;
pub(crate) const KIND_READ: u32 = 2;
pub(crate) const KIND_WRITE: u32 = 3;

/// A resolved range, or a clipped scissor, for the host.
#[derive(Clone, Copy, Debug, Default, PartialEq, Eq)]
pub struct Record {
    /// 1: created backing; 2: read (dirty); 3: write (copy with writeback);
    /// 4: scissor, whose other fields are all 0 if it is empty.
    pub kind: u32,
    /// The handle that the packet gave; of a scissor, the left side.
    pub handle: u32,
    /// The id of the table entry behind it; of a scissor, the top.
    pub id: u32,
    /// Where the range starts in guest memory; of a scissor, the width.
    pub gpa: u64,
    /// How many bytes it has; of a scissor, the height.
    pub length: u64,
}

/// The least size of a packet with this opcode: its table size if the opcode
/// is known, else the header. Newer drivers append fields; no byte past the
/// least size is read.
pub(crate) fn least_size(opcode: u32) -> u32 {
    match opcode {
        CREATE_BUFFER => 40,
        CREATE_TEXTURE => 56,
        DESTROY => 16,
        DIRTY => 32,
        COPY => 48,
        TARGET => 16,
        VIEWPORT => 32,
        SCISSOR => 24,
        CLEAR => 36,
        EXPORT => 24,
        IMPORT => 24,
        RELEASE => 16,
        _ => PACKET_HEADER,
    }
}

/// The opcode of a packet, as the packet reader handed it back.
pub(crate) fn opcode(packet: &[u8]) -> u32 {
    u32_at(packet, 0)
}

/// The named fields of a known packet, behind its header; an unknown one has
/// none.
pub(crate) fn packet_fields(opcode: u32) -> &'static [Field] {
    match opcode {
        CREATE_BUFFER => Create::BUFFER_FIELDS,
        CREATE_TEXTURE => Create::TEXTURE_FIELDS,
        DESTROY => HANDLE_FIELDS,
        DIRTY => DirtyRange::FIELDS,
        COPY => CopyBuffer::FIELDS,
        TARGET => HANDLE_FIELDS,
        VIEWPORT => Viewport::FIELDS,
        SCISSOR => Scissor::FIELDS,
        CLEAR => Clear::FIELDS,
        EXPORT => Share::FIELDS,
        IMPORT => Share::FIELDS,
        RELEASE => Release::FIELDS,
        _ => &[],
    }
}

/// Destroy and target have a handle alone.
const HANDLE_FIELDS: &[Field] = &[(8, 4)];

/// A create packet, of a buffer or a texture.
#[derive(Clone, Copy, Debug)]
struct Create {
    handle: u32,
    shape: Shape,
    backing_id: u32,
    backing_offset: u32,
}

impl Create {
    const BUFFER_FIELDS: &'static [Field] = &[(8, 4), (16, 8), (24, 4), (28, 4)];
    const TEXTURE_FIELDS: &'static [Field] = &[
        (8, 4),
        (16, 4),
        (20, 4),
        (24, 4),
        (28, 4),
        (32, 4),
        (36, 4),
        (40, 4),
        (44, 4),
    ];

    fn buffer(packet: &[u8]) -> Create {
        Create {
            handle: u32_at(packet, 8),
            shape: Shape::Buffer {
                size: u64_at(packet, 16),
            },
            backing_id: u32_at(packet, 24),
            backing_offset: u32_at(packet, 28),
        }
    }

    fn texture(packet: &[u8]) -> Create {
        Create {
            handle: u32_at(packet, 8),
            shape: Shape::Texture(Texture {
                format: u32_at(packet, 16),
                width: u32_at(packet, 20),
                height: u32_at(packet, 24),
                mips: u32_at(packet, 28),
                layers: u32_at(packet, 32),
                pitch: u32_at(packet, 36),
            }),
            backing_id: u32_at(packet, 40),
            backing_offset: u32_at(packet, 44),
        }
    }
}

/// A dirty range packet.
#[derive(Clone, Copy, Debug)]
struct DirtyRange {
    handle: u32,
    offset: u64,
    size: u64,
}

impl DirtyRange {
    const FIELDS: &'static [Field] = &[(8, 4), (16, 8), (24, 8)];

    fn read(packet: &[u8]) -> DirtyRange {
        DirtyRange {
            handle: u32_at(packet, 8),
            offset: u64_at(packet, 16),
            size: u64_at(packet, 24),
        }
    }
}

/// A copy buffer packet.
#[derive(Clone, Copy, Debug)]
struct CopyBuffer {
    dst: u32,
    src: u32,
    dst_offset: u64,
    src_offset: u64,
    size: u64,
    flags: u32,
}

impl CopyBuffer {
    const FIELDS: &'static [Field] = &[(8, 4), (12, 4), (16, 8), (24, 8), (32, 8), (40, 4)];

    fn read(packet: &[u8]) -> CopyBuffer {
        CopyBuffer {
            dst: u32_at(packet, 8),
            src: u32_at(packet, 12),
            dst_offset: u64_at(packet, 16),
            src_offset: u64_at(packet, 24),
            size: u64_at(packet, 32),
            flags: u32_at(packet, 40),
        }
    }
}

/// What a submission has made so far: its checked entries, the resources and
/// the target as its packets left them, and its records.
#[derive(Clone, Debug, PartialEq)]
pub(crate) struct Kept {
    pub(crate) entries: Vec<Entry>,
    pub(crate) resources: Resources,
    pub(crate) records: Vec<Record>,
    target: Option<Target>,
}

impl Kept {
    /// Nothing kept, with room for all there may be.
    pub(crate) fn new() -> Kept {
        Kept {
            entries: Vec::with_capacity(MAX_ENTRIES),
            resources: Resources::new(),
            records: Vec::with_capacity(MAX_RECORDS),
            target: None,
        }
    }

    pub(crate) fn clear(&mut self) {
        self.entries.clear();
        self.resources.clear();
        self.records.clear();
        self.target = None;
    }

    /// Judges one packet, as the packet reader handed it back, and does what
    /// it says, to the submission's tokens too. It has at least its opcode's
    /// least size. Unknown opcodes are skipped.
    pub(crate) fn take(&mut self, packet: &[u8], tokens: &mut Tokens) -> Result<(), Error> {
        match opcode(packet) {
            CREATE_BUFFER => self.create(&Create::buffer(packet)),
            CREATE_TEXTURE => self.create(&Create::texture(packet)),
            DESTROY => self.destroy(u32_at(packet, 8)),
            DIRTY => self.dirty(&DirtyRange::read(packet)),
            COPY => self.copy(&CopyBuffer::read(packet)),
            TARGET => self.set_target(u32_at(packet, 8)),
            VIEWPORT => Viewport::read(packet).check(),
            SCISSOR => self.scissor(&Scissor::read(packet)),
            CLEAR => Clear::read(packet).check(),
            EXPORT => Share::read(packet).export(&mut self.resources, tokens),
            IMPORT => Share::read(packet).import(&mut self.resources, tokens),
            RELEASE => Release::read(packet).release(&self.resources, tokens),
            _ => Ok(()),
        }
    }

    fn create(&mut self, create: &Create) -> Result<(), Error> {
        if !self.resources.is_free(create.handle) {
            return Err(Error::Handle);
        }
        if create.backing_id == 0 {
            self.create_host_backed(create)
        } else {
            self.create_backed(create)
        }
    }

    fn create_host_backed(&mut self, create: &Create) -> Result<(), Error> {
        let bytes = create.shape.host_bytes().ok_or(Error::Shape)?;
        if self.resources.is_full() {
            return Err(Error::Full);
        }
        self.resources.add(Resource {
            handle: create.handle,
            shape: create.shape.without_pitch(),
            bytes,
            backing_id: 0,
            backing_offset: 0,
            surface: NO_SURFACE,
        });
        Ok(())
    }

    fn create_backed(&mut self, create: &Create) -> Result<(), Error> {
        let bytes = create.shape.backed_bytes().ok_or(Error::Shape)?;
        let resource = Resource {
            handle: create.handle,
            shape: create.shape,
            bytes,
            backing_id: create.backing_id,
            backing_offset: create.backing_offset,
            surface: NO_SURFACE,
        };
        let (_, record) = self.resolve(KIND_CREATE, &resource, 0, bytes)?;
        if self.resources.is_full() {
            return Err(Error::Full);
        }
        self.add_record(record)?;
        self.resources.add(resource);
        Ok(())
    }

    /// Destroys a name; if it is the target's, that ends too.
    fn destroy(&mut self, handle: u32) -> Result<(), Error> {
        if !self.resources.remove(handle) {
            return Err(Error::Handle);
        }
        self.target = self.target.filter(|target| target.handle != handle);
        Ok(())
    }

    fn dirty(&mut self, dirty: &DirtyRange) -> Result<(), Error> {
        let resource = self.resources.find(dirty.handle).ok_or(Error::Handle)?;
        if resource.is_host_backed() {
            return Err(Error::HostBacked);
        }
        check_resource_range(resource, dirty.offset, dirty.size)?;
        let (_, record) = self.resolve(KIND_READ, resource, dirty.offset, dirty.size)?;
        self.add_range(record)
    }

    fn copy(&mut self, copy: &CopyBuffer) -> Result<(), Error> {
        let dst = self.live_buffer(copy.dst)?;
        let src = self.live_buffer(copy.src)?;
        if copy.dst == copy.src || copy.flags > COPY_WRITEBACK {
            return Err(Error::Copy);
        }
        check_resource_range(dst, copy.dst_offset, copy.size)?;
        check_resource_range(src, copy.src_offset, copy.size)?;
        if copy.flags != COPY_WRITEBACK {
            return Ok(());
        }
        if dst.is_host_backed() {
            return Err(Error::HostBacked);
        }
        let (entry, record) = self.resolve(KIND_WRITE, dst, copy.dst_offset, copy.size)?;
        if entry.read_only {
            return Err(Error::ReadOnly);
        }
        self.add_range(record)
    }

    fn set_target(&mut self, handle: u32) -> Result<(), Error> {
        let resource = self.resources.find(handle).ok_or(Error::Handle)?;
        self.target = Some(Target::of(resource).ok_or(Error::Handle)?);
        Ok(())
    }

    fn scissor(&mut self, scissor: &Scissor) -> Result<(), Error> {
        let target = self.target.ok_or(Error::State)?;
        scissor.check()?;
        self.add_record(scissor.clip(&target))
    }

    fn live_buffer(&self, handle: u32) -> Result<&Resource, Error> {
        self.resources
            .find(handle)
            .filter(|resource| resource.is_buffer())
            .ok_or(Error::Handle)
    }

    /// Finds the entry behind a backed resource in this submission's table,
    /// and the range of it that `offset` and `length` of the resource name.
    fn resolve(
        &self,
        kind: u32,
        resource: &Resource,
        offset: u64,
        length: u64,
    ) -> Result<(&Entry, Record), Error> {
        let entry = table::find(&self.entries, resource.backing_id).ok_or(Error::Backing)?;
        let start = u64::from(resource.backing_offset)
            .checked_add(offset)
            .ok_or(Error::BeyondEntry)?;
        if !fits(start, length, entry.size) {
            return Err(Error::BeyondEntry);
        }
        let record = Record {
            kind,
            handle: resource.handle,
            id: entry.id,
            gpa: entry.gpa + start,
            length,
        };
        Ok((entry, record))
    }

    /// Adds the record of a range if there is room; an empty one makes none.
    fn add_range(&mut self, record: Record) -> Result<(), Error> {
        if record.length == 0 {
            Ok(())
        } else {
            self.add_record(record)
        }
    }

    /// Adds a record if there is room.
    fn add_record(&mut self, record: Record) -> Result<(), Error> {
        if self.records.len() >= MAX_RECORDS {
            return Err(Error::Full);
        }
        self.records.push(record);
        Ok(())
    }
}

/// Error 24 if `offset + size` lies beyond the resource.
fn check_resource_range(resource: &Resource, offset: u64, size: u64) -> Result<(), Error> {
    if fits(offset, size, resource.bytes) {
        Ok(())
    } else {
        Err(Error::BeyondResource)
    }
}
