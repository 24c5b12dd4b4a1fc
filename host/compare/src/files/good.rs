//! Good files of desks that nobody played: every rule is kept, often by as little as can be.

use super::shares::put_shares;
use super::{field, number, File, Kind, Row, BUFFER, FIELDS, NUMBERS, TEXTURE};
use crate::numbers::error::{RING, STATE};
use crate::numbers::{FORMATS, LONGEST_SIDE, MOST_LAYERS, MOST_NAMES, VERSION};
use crate::random::Random;
use crate::shape::Shape;
use std::collections::BTreeSet;

pub const MAGIC: u32 = u32::from_le_bytes(*b"AGPU");
pub const FEATURES: u32 = 7;

pub fn some_file(random: &mut Random) -> File {
    let count = match random.within(0..=11) {
        0 => 0,
        1 => MOST_NAMES,
        2 => MOST_NAMES - 1,
        3 => random.within(7..=62) as usize,
        _ => random.within(1..=5) as usize,
    };
    let numbers = some_numbers(random);
    let file = File::new(numbers, some_rows(random, count, &[]));
    of_some_kind(random, file)
}

/// The same, old, of form 1 or of form 2; and then with a detail, names and tokens.
pub fn of_some_kind(random: &mut Random, file: File) -> File {
    let kind = random.pick(&[Kind::Old, Kind::One, Kind::Two, Kind::Two]);
    let mut file = file.into_kind(kind);
    if kind == Kind::Two {
        if file.numbers[number::ERROR_CODE] != 0 {
            file.detail = any_word(random);
        }
        put_shares(random, &mut file);
    }
    file
}

/// Registers, the memory's length and the doorbell's flag.
pub fn some_numbers(random: &mut Random) -> [u32; NUMBERS] {
    let mut numbers = [0; NUMBERS];
    for number in &mut numbers {
        *number = any_word(random);
    }
    let fixed = [MAGIC, VERSION, FEATURES, 0];
    numbers[..fixed.len()].copy_from_slice(&fixed);
    numbers[number::CONTROL] = random.within(0..=1) as u32;
    numbers[number::IRQ_STATUS] = random.within(0..=3) as u32;
    numbers[number::DOORBELL] = random.within(0..=1) as u32;
    if random.coin() {
        numbers[number::ERROR_CODE] = random.edgy(RING.into()..=STATE.into()) as u32;
        numbers[number::ERROR_COUNT] = random.edgy(1..=u32::MAX.into()) as u32;
    } else {
        numbers[number::ERROR_CODE..=number::ERROR_COUNT].fill(0);
    }
    if random.coin() {
        numbers[number::MEMORY_HI] = 0;
    }
    numbers
}

/// Any number of 32 bits, 0 and the largest more often than the rest.
pub fn any_word(random: &mut Random) -> u32 {
    let some = random.any_size() as u32;
    random.pick(&[0, 1, some, some, u32::MAX])
}

/// So many resources by rising handle, each backed by one of these ids, or by any where there are none.
pub fn some_rows(random: &mut Random, count: usize, ids: &[u32]) -> Vec<Row> {
    let handles = some_handles(random, count);
    handles
        .into_iter()
        .map(|handle| some_row(random, handle, ids))
        .collect()
}

fn some_handles(random: &mut Random, count: usize) -> BTreeSet<u32> {
    let mut handles = BTreeSet::new();
    while handles.len() < count {
        let handle = match random.within(0..=9) {
            0 => random.word(),
            1 => u32::MAX - random.within(0..=70) as u32,
            _ => random.within(1..=90) as u32,
        };
        handles.extend(Some(handle).filter(|handle| *handle != 0));
    }
    handles
}

pub fn some_row(random: &mut Random, handle: u32, ids: &[u32]) -> Row {
    let kind = random.pick(&[BUFFER, TEXTURE]);
    let backed = random.percent(60);
    let mut row = row_of(random, handle, kind, backed);
    if backed && !ids.is_empty() {
        row[field::BACKING_ID] = random.pick(ids);
        row[field::BACKING_OFFSET] = random.pick(&[0, 0, 1, 64, u32::MAX]);
    }
    row
}

/// A resource of this kind, with or without guest memory behind it.
pub fn row_of(random: &mut Random, handle: u32, kind: u32, backed: bool) -> Row {
    let mut row = [0; FIELDS];
    row[field::HANDLE] = handle;
    row[field::KIND] = kind;
    if backed {
        row[field::BACKING_ID] = any_word(random).max(1);
        row[field::BACKING_OFFSET] = any_word(random);
    }
    if kind == BUFFER {
        let size = match random.within(0..=3) {
            0 => random.any_size().max(1),
            1 => random.pick(&[1, 1 << 32, u64::MAX]),
            _ => random.within(1..=300),
        };
        row[field::SIZE_LO] = size as u32;
        row[field::SIZE_HI] = (size >> 32) as u32;
    } else {
        let shape = some_shape(random);
        put_shape(
            &mut row,
            Shape {
                pitch: if backed { shape.pitch } else { 0 },
                ..shape
            },
        );
    }
    row
}

/// A good shape of any extent, as a backed texture's.
pub fn some_shape(random: &mut Random) -> Shape {
    if random.coin() {
        return Shape::random(random);
    }
    let mut shape = Shape {
        format: random.pick(&FORMATS),
        width: random.edgy(1..=LONGEST_SIDE.into()) as u32,
        height: random.edgy(1..=LONGEST_SIDE.into()) as u32,
        mips: 1,
        layers: random.edgy(1..=MOST_LAYERS.into()) as u32,
        pitch: 0,
    };
    shape.mips = random.edgy(1..=shape.full_chain().into()) as u32;
    shape.pitch = random.edgy(shape.least_pitch().into()..=u32::MAX.into()) as u32;
    shape
}

pub fn put_shape(row: &mut Row, shape: Shape) {
    row[field::FORMAT] = shape.format;
    row[field::WIDTH] = shape.width;
    row[field::HEIGHT] = shape.height;
    row[field::MIPS] = shape.mips;
    row[field::LAYERS] = shape.layers;
    row[field::PITCH] = shape.pitch;
}

/// A texture's, its pitch as it stands.
pub fn shape_of(row: &Row) -> Shape {
    Shape {
        format: row[field::FORMAT],
        width: row[field::WIDTH],
        height: row[field::HEIGHT],
        mips: row[field::MIPS],
        layers: row[field::LAYERS],
        pitch: row[field::PITCH],
    }
}

#[cfg(test)]
mod tests {
    use super::some_file;
    use crate::random::Random;

    #[test]
    fn made_up_files_are_good() {
        let mut random = Random::new(5);
        for _ in 0..2_000 {
            let file = some_file(&mut random);
            let said = plain::Desk::new(0).load(&file.bytes());
            assert_eq!(said, (0, 0), "{:?}", file);
        }
    }
}
