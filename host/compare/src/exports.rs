//! Inputs for the small exports: shapes good and bad, and tables with a lent length and a memory length.

use crate::image::{Entry, Table};
use crate::numbers::{FORMATS, LONGEST_SIDE, MOST_ENTRIES, MOST_LAYERS, TABLE_HEADER};
use crate::random::Random;
use crate::shape::Shape;
use crate::twists::entries::{Rows, TWISTS};
use crate::twists::frame::{some_version, wrong_magic};
use crate::world::some_entry;

/// A good shape in which a number or two are moved to an edge, or to anything.
pub fn some_shape(random: &mut Random) -> Shape {
    let mut shape = Shape::random(random);
    if random.percent(20) {
        shape.width = random.within(1..=LONGEST_SIDE.into()) as u32;
        shape.height = random.within(1..=LONGEST_SIDE.into()) as u32;
        shape.pitch = shape.least_pitch();
    }
    for _ in 0..random.within(0..=2) {
        match random.within(0..=7) {
            0 => shape.format = random.pick(&[0, 4, 63, 67, 128, u32::MAX]),
            1 => shape.format = random.pick(&FORMATS),
            2 => shape.width = edge(random, LONGEST_SIDE),
            3 => shape.height = edge(random, LONGEST_SIDE),
            4 => shape.mips = edge(random, shape.full_chain()),
            5 => shape.layers = edge(random, MOST_LAYERS),
            6 => shape.pitch = edge(random, shape.least_pitch()),
            _ => shape.pitch = random.any_size() as u32,
        }
    }
    shape
}

/// A number at or beside 0, 1 or the given one, or far off.
fn edge(random: &mut Random, most: u32) -> u32 {
    let far = random.any_size() as u32;
    random.pick(&[
        0,
        1,
        2,
        most.saturating_sub(1),
        most,
        most,
        most.saturating_add(1),
        far,
    ])
}

/// A table's bytes, lent whole or cut, and a memory length.
pub fn some_table(random: &mut Random) -> (Vec<u8>, u64) {
    let memory = match random.within(0..=5) {
        0 => random.pick(&[0, 1, u64::MAX, u64::MAX - 1]),
        1 => random.any_size(),
        _ => random.within(1..=10_000),
    };
    let mut entries: Vec<Entry> = Vec::new();
    let count = random.pick(&[0, 1, 2, 3, 5, 8, MOST_ENTRIES - 1, MOST_ENTRIES]);
    for _ in 0..count {
        entries.push(some_entry(random, memory, &entries));
    }
    if random.percent(50) {
        let twist = random.pick(TWISTS);
        // The aim is not needed here: both sides must agree on whatever comes of it.
        let _ = twist(&mut Rows {
            random: &mut *random,
            memory,
            entries: &mut entries,
        });
    }
    let mut table = Table::new(entries, random.pick(&[32, 32, 33, 40, 64]));
    table.size += random.pick(&[0, 0, 1, 9]);
    if random.percent(40) {
        twist_header(random, &mut table);
    }
    let mut bytes = table.bytes(random);
    let spare = random.pick(&[0, 0, 9, 40]);
    bytes.resize(bytes.len() + spare, 0);
    if random.percent(20) {
        bytes.truncate(random.edgy(0..=bytes.len() as u64) as usize);
    }
    if random.percent(5) {
        bytes.truncate(random.within(0..=u64::from(TABLE_HEADER) + 1) as usize);
    }
    (bytes, memory)
}

fn twist_header(random: &mut Random, table: &mut Table) {
    match random.within(0..=5) {
        0 => table.magic = wrong_magic(random, table.magic),
        1 => table.version = some_version(random).0,
        2 => table.size = edge(random, table.size),
        3 => table.size = edge(random, TABLE_HEADER),
        4 => table.count = edge(random, table.count),
        _ => table.stride = edge(random, table.stride),
    }
}
