//! Section 2: a resource's fields, by themselves and tied to one another.

use super::{told, FileTwist, Told};
use crate::files::good::{any_word, put_shape, row_of, shape_of, some_rows};
use crate::files::shares::unshare;
use crate::files::{field, File, BUFFER, TEXTURE};
use crate::numbers::{FORMATS, LONGEST_SIDE, MOST_LAYERS, MOST_NAMES};
use crate::random::Random;
use crate::shape::Shape;

pub const TWISTS: &[FileTwist] = &[
    first_handle,
    later_handle,
    later_handle,
    kind,
    buffer_size,
    texture_size,
    buffer_field,
    buffer_field,
    format,
    width,
    height,
    mips,
    mips,
    layers,
    backed_pitch,
    backed_pitch,
    host_pitch,
    backing_id,
    offset,
    offset,
];

/// A resource of this kind takes the place of one of the file's, under its handle.
fn row(random: &mut Random, file: &mut File, kind: u32, backed: bool) -> usize {
    if file.rows.is_empty() {
        set_rows(random, file, 1);
    }
    let row = match random.within(0..=3) {
        0 => 0,
        1 => file.rows.len() - 1,
        _ => random.index(file.rows.len()),
    };
    let handle = file.rows[row][field::HANDLE];
    unshare(file, handle);
    file.rows[row] = row_of(random, handle, kind, backed);
    row
}

/// So many resources that are good, none of which is shared.
pub fn set_rows(random: &mut Random, file: &mut File, count: usize) {
    for row in std::mem::take(&mut file.rows) {
        unshare(file, row[field::HANDLE]);
    }
    file.rows = some_rows(random, count, &[]);
    file.rows_said = count as u32;
}

/// The first handle is 0 or not.
fn first_handle(random: &mut Random, file: &mut File) -> Option<Told> {
    let count = random.within(1..=4) as usize;
    set_rows(random, file, count);
    let handle = random.pick(&[0, 1]);
    file.rows[0][field::HANDLE] = handle;
    told(
        "first handle not 0",
        handle != 0,
        file.field_at(0, field::HANDLE),
    )
}

/// A handle is above the one before it, equal, below, or 0. It is told at the later one.
fn later_handle(random: &mut Random, file: &mut File) -> Option<Told> {
    let count = random.pick(&[2, 3, 8, MOST_NAMES]);
    set_rows(random, file, count);
    let row = random.pick(&[1, count - 1]);
    let before = file.rows[row - 1][field::HANDLE];
    let (rule, handle) = random.pick(&[
        ("handles: one above", before + 1),
        ("handles: equal", before),
        ("handles: one below", before - 1),
        ("handles: 0 behind another", 0),
    ]);
    file.rows[row][field::HANDLE] = handle;
    told(rule, handle > before, file.field_at(row, field::HANDLE))
}

fn kind(random: &mut Random, file: &mut File) -> Option<Told> {
    let own = random.pick(&[BUFFER, TEXTURE]);
    let row = row(random, file, own, true);
    let any = any_word(random).max(TEXTURE + 1);
    let kind = random.pick(&[0, TEXTURE + 1, any, own, own]);
    file.rows[row][field::KIND] = kind;
    told("kind 1 or 2", kind == own, file.field_at(row, field::KIND))
}

/// One half of a buffer's size is enough; both 0 are told at the high one.
fn buffer_size(random: &mut Random, file: &mut File) -> Option<Told> {
    let backed = random.coin();
    let row = row(random, file, BUFFER, backed);
    let half = any_word(random).max(1);
    let halves = random.pick(&[[0, 0], [0, 0], [1, 0], [0, 1], [half, half]]);
    file.rows[row][field::SIZE_LO..=field::SIZE_HI].copy_from_slice(&halves);
    let at = file.field_at(row, field::SIZE_HI);
    told("buffer: size not 0", halves != [0, 0], at)
}

/// A texture has no size of its own, each half by itself.
fn texture_size(random: &mut Random, file: &mut File) -> Option<Told> {
    let backed = random.coin();
    let row = row(random, file, TEXTURE, backed);
    let half = any_word(random).max(1);
    let (rule, halves, at) = random.pick(&[
        ("texture: size 0", [0, 0], field::SIZE_LO),
        ("texture: size LO", [half, 0], field::SIZE_LO),
        ("texture: size HI", [0, half], field::SIZE_HI),
        ("texture: size LO and HI", [half, half], field::SIZE_LO),
    ]);
    file.rows[row][field::SIZE_LO..=field::SIZE_HI].copy_from_slice(&halves);
    told(rule, halves == [0, 0], file.field_at(row, at))
}

/// What a texture may have there is as bad as anything else.
fn buffer_field(random: &mut Random, file: &mut File) -> Option<Told> {
    let backed = random.coin();
    let row = row(random, file, BUFFER, backed);
    let at = random.within(field::FORMAT as u64..=field::PITCH as u64) as usize;
    let any = any_word(random);
    let value = random.pick(&[0, 0, 1, 64, any]);
    file.rows[row][at] = value;
    told(
        "buffer: no shape and no pitch",
        value == 0,
        file.field_at(row, at),
    )
}

/// A texture's shape with a field changed; mips and pitch go with the others, unless they are what is changed.
fn shaped(
    random: &mut Random,
    file: &mut File,
    change: impl FnOnce(&mut Random, &mut Shape),
) -> (usize, Shape) {
    let backed = random.coin();
    let row = row(random, file, TEXTURE, backed);
    let mut shape = shape_of(&file.rows[row]);
    change(random, &mut shape);
    shape.pitch = if backed { shape.least_pitch() } else { 0 };
    put_shape(&mut file.rows[row], shape);
    (row, shape)
}

fn format(random: &mut Random, file: &mut File) -> Option<Told> {
    let (row, shape) = shaped(random, file, |random, shape| {
        let (good, any) = (random.pick(&FORMATS), any_word(random));
        shape.format = random.pick(&[0, 4, 63, 67, any, good, good, good]);
    });
    let good = FORMATS.contains(&shape.format);
    told("texture: format", good, file.field_at(row, field::FORMAT))
}

/// A side at or beside one of its ends.
fn side(random: &mut Random) -> u32 {
    let any = any_word(random);
    let longest = LONGEST_SIDE;
    random.pick(&[0, 0, 1, 2, longest - 1, longest, longest, longest + 1, any])
}

fn width(random: &mut Random, file: &mut File) -> Option<Told> {
    let (row, shape) = shaped(random, file, |random, shape| {
        (shape.width, shape.mips) = (side(random), 1);
    });
    let good = (1..=LONGEST_SIDE).contains(&shape.width);
    told("texture: width", good, file.field_at(row, field::WIDTH))
}

fn height(random: &mut Random, file: &mut File) -> Option<Told> {
    let (row, shape) = shaped(random, file, |random, shape| {
        (shape.height, shape.mips) = (side(random), 1);
    });
    let good = (1..=LONGEST_SIDE).contains(&shape.height);
    told("texture: height", good, file.field_at(row, field::HEIGHT))
}

/// Mips up to the chain of the larger side, whichever that is, and one more.
fn mips(random: &mut Random, file: &mut File) -> Option<Told> {
    let (row, shape) = shaped(random, file, |random, shape| {
        let power = 1 << random.within(0..=14);
        let long = random.pick(&[power, (power - 1).max(1)]);
        let short = random.edgy(1..=u64::from(long)) as u32;
        (shape.width, shape.height) = random.pick(&[(long, short), (short, long)]);
        let (chain, any) = (shape.full_chain(), any_word(random));
        shape.mips = random.pick(&[0, 1, chain, chain, chain + 1, chain + 1, any]);
    });
    let good = (1..=shape.full_chain()).contains(&shape.mips);
    let rule = if shape.mips == 0 {
        "texture: mips not 0"
    } else {
        "texture: mips within the chain"
    };
    told(rule, good, file.field_at(row, field::MIPS))
}

fn layers(random: &mut Random, file: &mut File) -> Option<Told> {
    let (row, shape) = shaped(random, file, |random, shape| {
        let any = any_word(random);
        let most = MOST_LAYERS;
        shape.layers = random.pick(&[0, 0, 1, most - 1, most, most, most + 1, any]);
    });
    let good = (1..=MOST_LAYERS).contains(&shape.layers);
    told("texture: layers", good, file.field_at(row, field::LAYERS))
}

/// The pitch of a texture in guest memory: the least, or below. It is told at the id.
fn backed_pitch(random: &mut Random, file: &mut File) -> Option<Told> {
    let row = row(random, file, TEXTURE, true);
    let least = shape_of(&file.rows[row]).least_pitch();
    let pitch = random.pick(&[0, 1, least - 1, least - 1, least, least, u32::MAX]);
    file.rows[row][field::PITCH] = pitch;
    let at = file.field_at(row, field::BACKING_ID);
    told("backed texture: pitch", pitch >= least, at)
}

/// With the host it has none, not even one that an id would go with.
fn host_pitch(random: &mut Random, file: &mut File) -> Option<Told> {
    let row = row(random, file, TEXTURE, false);
    let least = shape_of(&file.rows[row]).least_pitch();
    let pitch = random.pick(&[0, 0, 1, least - 1, least, u32::MAX]);
    file.rows[row][field::PITCH] = pitch;
    let at = file.field_at(row, field::BACKING_ID);
    told("host-backed texture: pitch 0", pitch == 0, at)
}

/// The same tie from its other end: beside a pitch that is enough stands an id, or none.
fn backing_id(random: &mut Random, file: &mut File) -> Option<Told> {
    let row = row(random, file, TEXTURE, true);
    let id = random.pick(&[0, 0, 1, u32::MAX]);
    file.rows[row][field::BACKING_ID] = id;
    let at = file.field_at(row, field::BACKING_ID);
    told("texture with a pitch: id not 0", id != 0, at)
}

/// With the host there is no offset; with an id it may be any.
fn offset(random: &mut Random, file: &mut File) -> Option<Told> {
    let (kind, backed) = (random.pick(&[BUFFER, TEXTURE]), random.percent(30));
    let row = row(random, file, kind, backed);
    let offset = random.pick(&[0, 0, 1, u32::MAX]);
    file.rows[row][field::BACKING_OFFSET] = offset;
    let rule = if backed {
        "backed: any offset"
    } else {
        "host-backed: offset 0"
    };
    let at = file.field_at(row, field::BACKING_OFFSET);
    told(rule, backed || offset == 0, at)
}
