//! The allocation table: its header, its entries, and the check of a whole
//! table at once.

use crate::bytes::{fits, good_version, length, part, u32_at, u64_at, Field};
use crate::errors::{Error, Fault};

const MAGIC: u32 = u32::from_le_bytes(*b"ALOC");
/// The size of a table header.
pub(crate) const HEADER: u32 = 24;
const ENTRY: u32 = 32;
/// The most entries a table may have.
pub(crate) const MAX_ENTRIES: usize = 64;

/// The numbers kept from a table header. The default is no table.
#[derive(Clone, Copy, Debug, Default, PartialEq)]
pub(crate) struct Header {
    /// How many entries.
    pub(crate) count: usize,
    stride: u32,
}

impl Header {
    /// The named fields of a table header.
    pub(crate) const FIELDS: &'static [Field] = &[(0, 4), (4, 4), (8, 4), (12, 4), (16, 4)];

    /// Reads and checks the header of a table; the length of `table` is the
    /// table size.
    pub(crate) fn read(table: &[u8]) -> Result<Header, Error> {
        if length(table) < u64::from(HEADER) {
            return Err(Error::Table);
        }
        let size = u64::from(u32_at(table, 8));
        let count = u32_at(table, 12);
        let stride = u32_at(table, 16);
        let entries_end = u64::from(HEADER) + u64::from(count) * u64::from(stride);
        let good = u32_at(table, 0) == MAGIC
            && good_version(u32_at(table, 4))
            && size >= u64::from(HEADER)
            && size <= length(table)
            && stride >= ENTRY
            && entries_end <= size;
        if !good {
            return Err(Error::Table);
        }
        let count = count as usize;
        if count > MAX_ENTRIES {
            return Err(Error::Full);
        }
        Ok(Header { count, stride })
    }

    /// Where entry `index` starts, from the table's start.
    pub(crate) fn entry_start(&self, index: usize) -> u64 {
        u64::from(HEADER) + index as u64 * u64::from(self.stride)
    }
}

/// A checked table entry.
#[derive(Clone, Copy, Debug, Default, PartialEq)]
pub(crate) struct Entry {
    pub(crate) id: u32,
    pub(crate) read_only: bool,
    pub(crate) gpa: u64,
    pub(crate) size: u64,
}

impl Entry {
    /// The named fields of an entry.
    pub(crate) const FIELDS: &'static [Field] = &[(0, 4), (4, 4), (8, 8), (16, 8)];

    /// Reads the entry after the `kept` ones from the table that starts at
    /// `gpa` of `mem`, and checks it against a memory of `memory` bytes. A
    /// fault has the entry's index.
    pub(crate) fn read_next(
        mem: &[u8],
        gpa: u64,
        header: &Header,
        kept: &[Entry],
        memory: u64,
    ) -> Result<Entry, Fault> {
        let index = kept.len();
        let bytes = part(mem, gpa + header.entry_start(index), u64::from(ENTRY));
        let entry = Entry {
            id: u32_at(bytes, 0),
            read_only: u32_at(bytes, 4) & 1 != 0,
            gpa: u64_at(bytes, 8),
            size: u64_at(bytes, 16),
        };
        if entry.id == 0 || entry.size == 0 || !fits(entry.gpa, entry.size, memory) {
            return Err(Error::Entry.at(index as u32));
        }
        if find(kept, entry.id).is_some() {
            return Err(Error::Duplicate.at(index as u32));
        }
        Ok(entry)
    }
}

/// The first kept entry with this id.
pub(crate) fn find(kept: &[Entry], id: u32) -> Option<&Entry> {
    kept.iter().find(|entry| entry.id == id)
}

/// A table's first error, 13, 19, 14 or 15 as the steps find it, or 0. The
/// lent length is the table size; entries are judged against a memory of
/// `memory` bytes.
pub fn table_error(table: &[u8], memory: u64) -> u32 {
    match check_table(table, memory) {
        Ok(()) => 0,
        Err(fault) => fault.error.code(),
    }
}

/// The place of a table's first error, as [`table_error`] finds it: the
/// entry's index, from 0, for 14 and 15, else 0.
pub fn table_place(table: &[u8], memory: u64) -> u32 {
    match check_table(table, memory) {
        Ok(()) => 0,
        Err(fault) => fault.place,
    }
}

/// Finds a table's first error and its place.
fn check_table(table: &[u8], memory: u64) -> Result<(), Fault> {
    let header = Header::read(table).map_err(Error::nowhere)?;
    let mut kept = [Entry::default(); MAX_ENTRIES];
    for index in 0..header.count {
        kept[index] = Entry::read_next(table, 0, &header, &kept[..index], memory)?;
    }
    Ok(())
}
