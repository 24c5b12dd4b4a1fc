//! Twists of table entries: 14, 15, and 19 for more than 64.

use super::{broken, judged, Aim};
use crate::image::Entry;
use crate::numbers::error::{DUPLICATE, ENTRY, LIMIT};
use crate::numbers::MOST_ENTRIES;
use crate::random::Random;
use crate::world::some_entry;

/// The good entries of a table to be.
pub struct Rows<'a> {
    pub random: &'a mut Random,
    /// The memory's length.
    pub memory: u64,
    pub entries: &'a mut Vec<Entry>,
}

/// None, with nothing spoilt, if there are too few entries.
pub type EntryTwist = fn(&mut Rows) -> Option<Aim>;

pub const TWISTS: &[EntryTwist] = &[
    id,
    size,
    end,
    far_out,
    duplicate,
    duplicate_and_bad,
    count,
    count,
    count,
    last_of_all,
    last_of_all,
];

impl Rows<'_> {
    /// An entry, the last one more often than the others.
    fn some(&mut self) -> Option<&mut Entry> {
        let last = self.entries.len().checked_sub(1)?;
        let place = if self.random.coin() {
            last
        } else {
            self.random.index(last + 1)
        };
        self.entries.get_mut(place)
    }

    /// Only a table that is nearly full already is made longer, so that there is room for it.
    fn make_many(&mut self, count: usize) -> Option<()> {
        if self.entries.len() < MOST_ENTRIES - 8 {
            return None;
        }
        self.entries.truncate(count);
        while self.entries.len() < count {
            let entry = some_entry(self.random, self.memory, self.entries);
            self.entries.push(entry);
        }
        Some(())
    }

    fn two_places(&mut self) -> Option<(usize, usize)> {
        let last = self.entries.len().checked_sub(2)? + 1;
        let second = self.random.edgy(1..=last as u64);
        let first = self.random.edgy(0..=second - 1);
        Some((first as usize, second as usize))
    }
}

fn id(rows: &mut Rows) -> Option<Aim> {
    rows.some()?.id = 0;
    broken("entry: id 0", ENTRY)
}

fn size(rows: &mut Rows) -> Option<Aim> {
    let gpa = rows.random.edgy(0..=rows.memory.checked_sub(1)?);
    let size = rows.random.pick(&[0, 0, 1]);
    let entry = rows.some()?;
    entry.gpa = gpa;
    entry.size = size;
    judged("entry: size 0", size != 0, ENTRY)
}

fn end(rows: &mut Rows) -> Option<Aim> {
    let memory = rows.memory;
    let past = rows.random.within(0..=1);
    let size = rows.random.edgy(1..=memory.checked_sub(1)? + 1);
    let entry = rows.some()?;
    entry.size = size;
    entry.gpa = memory - size + past;
    judged("entry: end of the memory", past == 0, ENTRY)
}

/// Ends near 2^64, also those that would wrap into the memory.
fn far_out(rows: &mut Rows) -> Option<Aim> {
    let (gpa, size) = rows.random.pick(&[
        (u64::MAX, 1),
        (u64::MAX, 2),
        (u64::MAX - 1, 1),
        (1, u64::MAX),
        (0, u64::MAX),
        (1 << 63, 1 << 63),
        (1 << 32, 1),
        (0, 1 << 32),
        (rows.memory, 1),
    ]);
    let entry = rows.some()?;
    entry.gpa = gpa;
    entry.size = size;
    broken("entry: far out", ENTRY)
}

fn duplicate(rows: &mut Rows) -> Option<Aim> {
    let (first, second) = rows.two_places()?;
    rows.entries[second].id = rows.entries[first].id;
    broken("entry: duplicate id", DUPLICATE)
}

/// 14 comes before 15.
fn duplicate_and_bad(rows: &mut Rows) -> Option<Aim> {
    let (first, second) = rows.two_places()?;
    rows.entries[second].id = rows.entries[first].id;
    rows.entries[second].gpa = rows.memory;
    broken("entry: 14 before 15", ENTRY)
}

fn count(rows: &mut Rows) -> Option<Aim> {
    let count = MOST_ENTRIES + rows.random.pick(&[0, 1, 2]);
    rows.make_many(count)?;
    judged("table: more than 64 entries", count == MOST_ENTRIES, LIMIT)
}

/// The largest index that an error can have.
fn last_of_all(rows: &mut Rows) -> Option<Aim> {
    rows.make_many(MOST_ENTRIES)?;
    let last = MOST_ENTRIES - 1;
    if rows.random.coin() {
        rows.entries[last].size = 0;
        return broken("entry: the last of 64", ENTRY);
    }
    let first = rows.random.index(last);
    rows.entries[last].id = rows.entries[first].id;
    broken("entry: the last of 64", DUPLICATE)
}
