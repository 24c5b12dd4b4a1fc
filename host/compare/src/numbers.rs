//! The numbers of documents 01 and 02 that a guest must know to write its structures, named once. Registers are `zelezmut::registers`.

pub const RING_MAGIC: u32 = u32::from_le_bytes(*b"ARNG");
pub const TABLE_MAGIC: u32 = u32::from_le_bytes(*b"ALOC");
pub const STREAM_MAGIC: u32 = u32::from_le_bytes(*b"ACMD");
pub const VERSION: u32 = 0x0001_0003;

pub const RING_HEADER: u32 = 64;
pub const DESCRIPTOR: u32 = 64;
pub const TABLE_HEADER: u32 = 24;
pub const ENTRY: u32 = 32;
pub const STREAM_HEADER: u32 = 24;
pub const PACKET_HEADER: u32 = 8;
pub const FENCE_PAGE: u32 = 16;
/// Where a ring header keeps its head.
pub const RING_HEAD: u32 = 24;

pub const NO_IRQ: u32 = 1;
pub const READ_ONLY: u32 = 1;
pub const WRITEBACK: u32 = 1;
pub const MOST_CLEAR_FLAGS: u32 = 7;

pub const MOST_SLOTS: u32 = 1024;
pub const MOST_ENTRIES: usize = 64;
/// Live names of resources; one resource may have several.
pub const MOST_NAMES: usize = 64;
pub const MOST_TOKENS: usize = 256;
pub const MOST_RECORDS: usize = 64;
pub const LONGEST_SIDE: u32 = 16_384;
pub const MOST_LAYERS: u32 = 256;

pub const CREATE_BUFFER: u32 = 256;
pub const CREATE_TEXTURE: u32 = 257;
pub const DESTROY: u32 = 258;
pub const DIRTY_RANGE: u32 = 259;
pub const COPY_BUFFER: u32 = 261;
pub const TARGET: u32 = 1024;
pub const VIEWPORT: u32 = 1025;
pub const SCISSOR: u32 = 1026;
pub const CLEAR: u32 = 1536;
pub const EXPORT: u32 = 1808;
pub const IMPORT: u32 = 1809;
pub const RELEASE: u32 = 1810;
/// The least size of a packet of a known opcode.
pub const KNOWN_PACKETS: [(u32, u32); 12] = [
    (CREATE_BUFFER, 40),
    (CREATE_TEXTURE, 56),
    (DESTROY, 16),
    (DIRTY_RANGE, 32),
    (COPY_BUFFER, 48),
    (TARGET, 16),
    (VIEWPORT, 32),
    (SCISSOR, 24),
    (CLEAR, 36),
    (EXPORT, 24),
    (IMPORT, 24),
    (RELEASE, 16),
];
/// Opcodes that nobody knows, those beside the known ones among them.
pub const UNKNOWN_OPCODES: [u32; 11] = [
    0,
    255,
    260,
    262,
    1023,
    1027,
    1535,
    1537,
    1807,
    1811,
    u32::MAX,
];

pub const FORMATS: [u32; 6] = [1, 2, 3, 64, 65, 66];

/// The error numbers of documents 01 and 02.
pub mod error {
    pub const RING: u32 = 10;
    pub const DESCRIPTOR: u32 = 11;
    pub const RANGE: u32 = 12;
    pub const TABLE: u32 = 13;
    pub const ENTRY: u32 = 14;
    pub const DUPLICATE: u32 = 15;
    pub const STREAM: u32 = 16;
    pub const PACKET: u32 = 17;
    pub const HANDLE: u32 = 18;
    pub const LIMIT: u32 = 19;
    pub const SHAPE: u32 = 20;
    pub const NO_ENTRY: u32 = 21;
    pub const BACKING: u32 = 22;
    pub const READ_ONLY: u32 = 23;
    pub const RESOURCE_RANGE: u32 = 24;
    pub const HOST_BACKED: u32 = 25;
    pub const COPY: u32 = 26;
    pub const HOST_FAILED: u32 = 27;
    /// Of an export, and of an import or release.
    pub const TOKEN_TAKEN: u32 = 28;
    pub const TOKEN_UNBOUND: u32 = 29;
    pub const STATE: u32 = 30;
}
