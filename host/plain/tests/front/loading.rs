//! Loading: every rule of form 1, one either side, with its place. The files
//! and offsets are those of old files, without the number; each is also tried
//! with its number, and in form 2 with nothing in its further fields.

use crate::saved::{busy, full, FULL, REGISTERS};
use crate::scene::*;
use plain::{Desk, Ended, Record};

/// Where the fields of [`FULL`] stand that rules look at.
const CODE: usize = 60;
const FENCE_LO: usize = 64;
const FENCE_HI: usize = 68;
const ERRORS: usize = 72;
/// Where form 2 has one field more.
const DETAIL: usize = 76;
const COUNT: usize = 88;
const HOST_BUFFER: usize = 92;
const HOST_TEXTURE: usize = 140;
const BACKED_BUFFER: usize = 188;
const BACKED_TEXTURE: usize = 236;
const END: usize = 284;

/// The fields of a resource, from its start.
const KIND: usize = 4;
const SIZE_LO: usize = 8;
const SIZE_HI: usize = 12;
const FORMAT: usize = 16;
const WIDTH: usize = 20;
const HEIGHT: usize = 24;
const MIPS: usize = 28;
const LAYERS: usize = 32;
const PITCH: usize = 36;
const ID: usize = 40;
const OFFSET: usize = 44;

const MAX: u32 = u32::MAX;

/// Loads a file into a new device and into one that is in work, has tokens, a
/// second name and a detail. Gives the place of 7, once it has changed
/// neither, or the device, once both are the same.
pub fn loaded(bytes: &[u8]) -> Result<Desk, usize> {
    let mut new = Desk::new(MEMORY);
    let mut scene = busy();
    let (answer, place) = scene.desk.load(bytes);
    assert_eq!(new.load(bytes), (answer, place));
    if answer == 0 {
        assert_eq!(place, 0);
        assert_eq!(scene.desk, new);
        return Ok(new);
    }
    assert_eq!(answer, 7);
    assert_eq!(new, Desk::new(MEMORY));
    assert_eq!(scene, busy());
    // A move judges as loading does, before the room.
    assert_eq!(not_moved(bytes, 0), 7);
    assert_eq!(not_moved(bytes, LONGEST), 7);
    Err(place)
}

/// Loads an old file; gives the place of 7, or nothing if it is good.
fn place(old: &[u8]) -> Option<usize> {
    let place = match loaded(old) {
        Ok(desk) => {
            assert_is(&desk, old);
            None
        }
        Err(place) => Some(place),
    };
    // "Offsets count from the file's first byte, its number included".
    let in_form_1 = loaded(&numbered(old)).err();
    assert_eq!(in_form_1, place.map(|place| place + 4));
    if let Some(form_2) = in_form_2(old) {
        let in_form_2 = loaded(&form_2).err();
        let behind = |place| if place < DETAIL { 4 } else { 8 };
        assert_eq!(in_form_2, place.map(|place| place + behind(place)));
    }
    place
}

/// The device is what the old file says, and the same from other forms of it.
fn assert_is(desk: &Desk, old: &[u8]) {
    for (i, offset) in REGISTERS.iter().enumerate() {
        assert_eq!(desk.read(*offset), (0, get32(old, 4 + 4 * i)));
    }
    assert_eq!(desk.read(0x320), (0, 0));
    assert_eq!(desk.tokens(), []);
    let form_1 = numbered(old);
    assert_eq!(saved(desk), form_1);
    let form_2 = in_form_2(old).unwrap();
    assert_eq!(saved_2(desk), form_2);
    // "Loading either gives the same device."
    for bytes in [&form_1, &form_2] {
        assert_eq!(loaded(bytes).as_ref(), Ok(desk));
    }
    assert_eq!(moved(old), form_2);
    assert_eq!(moved(&form_1), form_2);
    assert_eq!(moved(&form_2), form_1);
}

/// The old file's fields in form 2, without other names, tokens and detail; if
/// it has the fields that its count promises and no more.
fn in_form_2(old: &[u8]) -> Option<Vec<u8>> {
    let count = get32(old.get(COUNT..COUNT + 4)?, 0) as usize;
    if old.len() != COUNT + 4 + 48 * count {
        return None;
    }
    let first = get32(old, 0).wrapping_add(1);
    let (registers, rest) = old[4..].split_at(DETAIL - 4);
    Some(
        [
            &file(&[2, first]),
            registers,
            &file(&[0]),
            rest,
            &file(&[0, 0]),
        ]
        .concat(),
    )
}

/// The full file with these fields changed, each at its offset.
fn changed(changes: &[(usize, u32)]) -> Vec<u8> {
    let mut bytes = file(&FULL);
    for (at, value) in changes {
        put32(&mut bytes, *at, *value);
    }
    bytes
}

fn assert_good(changes: &[(usize, u32)]) {
    assert_eq!(place(&changed(changes)), None, "{:?}", changes);
}

fn assert_bad(changes: &[(usize, u32)], at: usize) {
    assert_eq!(place(&changed(changes)), Some(at), "{:?}", changes);
}

/// The field at this offset has these values as good ones and these as bad,
/// at the field itself.
fn assert_field(at: usize, good: &[u32], bad: &[u32]) {
    for value in good {
        assert_good(&[(at, *value)]);
    }
    for value in bad {
        assert_bad(&[(at, *value)], at);
    }
}

#[test]
fn the_full_file_is_good() {
    assert_eq!(place(&file(&FULL)), None);
    let mut desk = Desk::new(0);
    assert_eq!(desk.load(&file(&FULL)), (0, 0));
    assert_eq!(desk, full().desk);
    let names = [2, 7, 9, MAX].map(|name| (name, name));
    assert_eq!(desk.names(), names);
}

#[test]
fn every_cut_is_at_the_start_of_the_field() {
    for bytes in [file(&FULL), saved(&Desk::new(MEMORY))[4..].to_vec()] {
        for length in 0..bytes.len() {
            assert_eq!(place(&bytes[..length]), Some(length / 4 * 4));
        }
    }
}

#[test]
fn a_byte_after_the_last_field() {
    for bytes in [file(&FULL), saved(&Desk::new(MEMORY))[4..].to_vec()] {
        for more in [1, 2, 3, 4, 5, 48, 49, 1000] {
            for junk in [0, 1, 0xFF] {
                let mut longer = bytes.clone();
                longer.resize(bytes.len() + more, junk);
                assert_eq!(place(&longer), Some(bytes.len()));
            }
        }
    }
}

#[test]
fn the_first_sections_count() {
    assert_field(0, &[21], &[0, 3, 19, 20, 22, 23, 0x1500_0000, MAX]);
    // Nothing after it is looked at.
    assert_bad(&[(0, 20), (4, 0), (32, 2), (COUNT, 65)], 0);
    for fields in [&[22][..], &[3, 21], &[0, 21], &[0]] {
        assert_eq!(place(&file(fields)), Some(0));
    }
    assert_eq!(place(&file(&[21])), Some(4));
}

/// The full file's fields behind these.
fn behind(front: &[u32]) -> Vec<u8> {
    file(&[front, &FULL].concat())
}

#[test]
fn numbers_in_front() {
    assert_eq!(loaded(&behind(&[])), Ok(full().desk));
    assert_eq!(loaded(&behind(&[1])), Ok(full().desk));
    // "a first word that is neither 1 nor 2 is read as an old file's".
    for number in [0, 3, 4, 20, 22, 0x0100_0000, 0x8000_0001, MAX] {
        assert_eq!(loaded(&behind(&[number])), Err(0));
    }
    assert_eq!(loaded(&behind(&[21])), Err(4));
    // Form 2's first section has another count.
    assert_eq!(loaded(&behind(&[2])), Err(4));
    // One number is enough.
    for number in [0, 1, 2, 3, 22] {
        assert_eq!(loaded(&behind(&[1, number])), Err(4));
        assert_eq!(
            loaded(&behind(&[2, number])),
            Err(if number == 22 { 8 } else { 4 })
        );
    }
    let old = file(&FULL);
    for number in [1, 2] {
        // The first count of an old file was no number, so 1 and 2 there are
        // numbers now, and the next field is the count.
        assert_eq!(loaded(&changed(&[(0, number)])), Err(4));
        assert_eq!(loaded(&file(&[number])), Err(4));
        // A number cut short is a missing first field.
        for length in 0..4 {
            assert_eq!(loaded(&file(&[number])[..length]), Err(0));
        }
        for length in 4..8 {
            let bytes = [&file(&[number]), &old[..]].concat();
            assert_eq!(loaded(&bytes[..length]), Err(4));
        }
    }
}

#[test]
fn fixed_registers() {
    assert_field(4, &[], &[0, FULL[1] - 1, FULL[1] + 1, 0x4147_5055, MAX]);
    assert_field(8, &[], &[0, 65_536, 65_538, 65_540, 3, MAX]);
    assert_field(12, &[], &[0, 6, 8, MAX]);
    assert_field(16, &[], &[1, 7, MAX]);
}

#[test]
fn fields_that_may_be_anything() {
    // Ring GPA and size, fence GPA, completed, IRQ enable, error fence,
    // memory length.
    for at in [20, 24, 28, 36, 40, 44, 48, 56, FENCE_LO, FENCE_HI, 76, 80] {
        assert_field(at, &[0, 1, 2, 22, 0x8000_0000, MAX], &[]);
    }
}

#[test]
fn control_status_and_flag() {
    assert_field(32, &[0, 1], &[2, 3, 0x8000_0000, MAX]);
    assert_field(52, &[0, 1, 2, 3], &[4, 5, 7, 0x8000_0000, MAX]);
    assert_field(84, &[0, 1], &[2, 3, 0x8000_0000, MAX]);
}

#[test]
fn error_codes() {
    let codes: Vec<u32> = (10..=30).collect();
    let others: Vec<u32> = (1..10).chain(31..100).chain([0x8000_000A, MAX]).collect();
    assert_field(CODE, &codes, &others);
    // Beside a code the fence is free.
    for code in [10, 27, 30] {
        for (low, high) in [(0, 0), (1, 0), (0, 1), (MAX, MAX)] {
            assert_good(&[(CODE, code), (FENCE_LO, low), (FENCE_HI, high)]);
        }
    }
}

#[test]
fn code_fence_and_count_are_tied_at_the_count() {
    let error = |code, low, high, count| {
        [
            (CODE, code),
            (FENCE_LO, low),
            (FENCE_HI, high),
            (ERRORS, count),
        ]
    };
    assert_field(ERRORS, &[1, 2, MAX], &[0]);
    assert_good(&error(0, 0, 0, 0));
    for changes in [
        error(0, 1, 0, 0),
        error(0, 0, 1, 0),
        error(0, MAX, MAX, 0),
        error(0, 0, 0, 1),
        error(0, 0, 0, MAX),
        error(0, 1, 1, 1),
        error(10, 0, 0, 0),
        error(30, 6, 7, 0),
    ] {
        assert_bad(&changes, ERRORS);
    }
    // A code that is none is at the code, whatever the others.
    assert_bad(&error(9, 1, 1, 0), CODE);
    assert_bad(&error(31, 0, 0, 1), CODE);
    // Cut before the count, what is missing comes first.
    for length in 64..76 {
        let bytes = changed(&error(0, 1, 1, 1));
        assert_eq!(place(&bytes[..length]), Some(length / 4 * 4));
    }
}

/// A file of this many host-backed buffers, handles from 1 up.
fn buffers(count: u32) -> Vec<u8> {
    let mut fields = FULL[..22].to_vec();
    fields.push(count);
    for handle in 1..=count {
        fields.extend([handle, 1, handle, 0, 0, 0, 0, 0, 0, 0, 0, 0]);
    }
    file(&fields)
}

#[test]
fn up_to_64_resources() {
    for count in 0..=64 {
        assert_eq!(place(&buffers(count)), None);
    }
    for count in 65..=66 {
        assert_eq!(place(&buffers(count)), Some(COUNT));
    }
    let mut desk = Desk::new(0);
    assert_eq!(desk.load(&buffers(64)), (0, 0));
    assert_eq!(desk.names().len(), 64);
    let expected = Some(COUNT);
    // Nothing after a count that is too large is looked at, nor is it missed.
    for count in [65, 66, 0x8000_0001, MAX] {
        assert_bad(&[(COUNT, count)], COUNT);
        assert_bad(&[(COUNT, count), (HOST_BUFFER, 0)], COUNT);
        assert_eq!(place(&changed(&[(COUNT, count)])[..92]), expected);
    }
}

#[test]
fn a_full_device_has_no_room_after_loading() {
    let mut scene = Scene::new();
    let mut bytes = buffers(64);
    // An idle device after no error, its ring as the scene has it.
    put32(&mut bytes, 84, 0);
    assert_eq!(scene.desk.load(&bytes), (0, 0));
    assert_eq!(scene.settle(&[], &[create_buffer(65, 1, 0, 0)]), 19);
    assert_eq!(scene.settle(&[], &[create_buffer(64, 1, 0, 0)]), 18);
    let packets = [destroy(1), create_buffer(65, 1, 0, 0)];
    assert_eq!(scene.settle(&[], &packets), 0);
}

#[test]
fn counts_that_do_not_fit_the_rows() {
    // Fewer than there are: the next byte follows the last field.
    for count in 0..4 {
        assert_bad(&[(COUNT, count)], HOST_BUFFER + 48 * count as usize);
    }
    // More than there are: the first missing field.
    for count in [5, 6, 63, 64] {
        assert_bad(&[(COUNT, count)], END);
    }
    // A bad field before comes first.
    assert_bad(&[(COUNT, 3), (HOST_BUFFER, 0)], HOST_BUFFER);
    assert_bad(&[(COUNT, 3), (BACKED_TEXTURE, 0)], BACKED_TEXTURE);
    assert_bad(&[(COUNT, 5), (BACKED_TEXTURE + ID, 0)], BACKED_TEXTURE + ID);
}

#[test]
fn handles_are_not_0_and_rise() {
    assert_field(HOST_BUFFER, &[1, 2, 6], &[0]);
    assert_field(HOST_TEXTURE, &[3, 7, 8], &[0, 1, 2]);
    assert_field(BACKED_BUFFER, &[8, 9, MAX - 1], &[0, 2, 6, 7]);
    assert_field(BACKED_TEXTURE, &[10, MAX], &[0, 1, 7, 8, 9]);
    // One that does not rise is at the later handle.
    for handle in [7, 8, MAX] {
        assert_bad(&[(HOST_BUFFER, handle)], HOST_TEXTURE);
    }
    assert_bad(&[(HOST_TEXTURE, 9)], BACKED_BUFFER);
    assert_bad(&[(BACKED_BUFFER, MAX)], BACKED_TEXTURE);
    // They rise as unsigned numbers.
    assert_good(&[(HOST_TEXTURE, 0x7FFF_FFFF), (BACKED_BUFFER, 0x8000_0000)]);
}

#[test]
fn kinds() {
    for row in [HOST_BUFFER, HOST_TEXTURE, BACKED_BUFFER, BACKED_TEXTURE] {
        assert_field(row + KIND, &[], &[0, 3, 4, 0x8000_0001, MAX]);
    }
    // Each of the other kind: a texture has no size, a buffer has one.
    assert_bad(&[(HOST_BUFFER + KIND, 2)], HOST_BUFFER + SIZE_LO);
    assert_bad(&[(HOST_TEXTURE + KIND, 1)], HOST_TEXTURE + SIZE_HI);
    let sized = [(HOST_TEXTURE + KIND, 1), (HOST_TEXTURE + SIZE_LO, 1)];
    assert_bad(&sized, HOST_TEXTURE + FORMAT);
    let unsized_ = [
        (BACKED_BUFFER + KIND, 2),
        (BACKED_BUFFER + SIZE_LO, 0),
        (BACKED_BUFFER + SIZE_HI, 0),
    ];
    assert_bad(&unsized_, BACKED_BUFFER + FORMAT);
}

#[test]
fn sizes_of_buffers() {
    for row in [HOST_BUFFER, BACKED_BUFFER] {
        let sized = |low, high| [(row + SIZE_LO, low), (row + SIZE_HI, high)];
        for (low, high) in [(1, 0), (0, 1), (MAX, MAX), (0, MAX), (MAX, 0)] {
            assert_good(&sized(low, high));
        }
        assert_bad(&sized(0, 0), row + SIZE_HI);
        // A size of 0 that is cut is missing.
        let bytes = changed(&sized(0, 0));
        assert_eq!(place(&bytes[..row + SIZE_HI]), Some(row + SIZE_HI));
        assert_eq!(place(&bytes[..row + SIZE_HI - 1]), Some(row + SIZE_LO));
    }
}

#[test]
fn fields_that_mean_nothing_are_0_each() {
    for row in [HOST_BUFFER, BACKED_BUFFER] {
        for field in [FORMAT, WIDTH, HEIGHT, MIPS, LAYERS, PITCH] {
            assert_field(row + field, &[0], &[1, 64, 0x8000_0000, MAX]);
        }
        // A whole texture in them is no better.
        let texture = [
            (row + FORMAT, 1),
            (row + WIDTH, 1),
            (row + HEIGHT, 1),
            (row + MIPS, 1),
            (row + LAYERS, 1),
            (row + PITCH, 4),
        ];
        for first in 0..texture.len() {
            assert_bad(&texture[first..], texture[first].0);
        }
    }
    for row in [HOST_TEXTURE, BACKED_TEXTURE] {
        for field in [SIZE_LO, SIZE_HI] {
            assert_field(row + field, &[0], &[1, 100, 0x8000_0000, MAX]);
        }
        assert_bad(&[(row + SIZE_LO, 1), (row + SIZE_HI, 1)], row + SIZE_LO);
    }
}

#[test]
fn formats() {
    let good = [1, 2, 3, 64, 65, 66];
    assert_field(HOST_TEXTURE + FORMAT, &good, &[0, 4, 63, 67, 128, MAX]);
    assert_field(BACKED_TEXTURE + FORMAT, &[64], &[0, 4, 63, 67, 128, MAX]);
    // The others want a larger pitch.
    for format in [1, 2, 3, 65, 66] {
        let change = (BACKED_TEXTURE + FORMAT, format);
        assert_bad(&[change], BACKED_TEXTURE + ID);
        assert_good(&[change, (BACKED_TEXTURE + PITCH, 32)]);
    }
}

#[test]
fn sides() {
    for field in [WIDTH, HEIGHT] {
        let good = [2, 3, 4, 5, 16_383, 16_384];
        let at = HOST_TEXTURE + field;
        assert_field(at, &good, &[0, 16_385, 0x8000_0001, MAX]);
        let at = BACKED_TEXTURE + field;
        assert_field(at, &[4, 5, 6, 7, 8], &[0, 16_385, 0x8000_0001, MAX]);
    }
}

#[test]
fn mips_above_the_chain_are_at_the_mips() {
    assert_field(HOST_TEXTURE + MIPS, &[1, 2, 3], &[0, 4, 0x8000_0001, MAX]);
    let sized = |width, height, mips| {
        [
            (HOST_TEXTURE + WIDTH, width),
            (HOST_TEXTURE + HEIGHT, height),
            (HOST_TEXTURE + MIPS, mips),
        ]
    };
    for (width, height, chain) in [
        (1, 1, 1),
        (2, 1, 2),
        (1, 2, 2),
        (3, 3, 2),
        (4, 1, 3),
        (1, 7, 3),
        (8, 8, 4),
        (16_383, 2, 14),
        (16_384, 1, 15),
        (1, 16_384, 15),
    ] {
        assert_good(&sized(width, height, 1));
        assert_good(&sized(width, height, chain));
        assert_bad(&sized(width, height, chain + 1), HOST_TEXTURE + MIPS);
        assert_bad(&sized(width, height, 0), HOST_TEXTURE + MIPS);
    }
    // A side of its own comes first.
    assert_bad(&sized(0, 1, 9), HOST_TEXTURE + WIDTH);
    assert_bad(&sized(1, 16_385, 9), HOST_TEXTURE + HEIGHT);
}

#[test]
fn layers() {
    for row in [HOST_TEXTURE, BACKED_TEXTURE] {
        assert_field(row + LAYERS, &[1, 2, 255, 256], &[0, 257, 512, MAX]);
    }
}

#[test]
fn pitch_against_backing_is_at_the_backing_id() {
    let backed = |row, pitch, id| [(row + PITCH, pitch), (row + ID, id)];
    // Least pitches: 5 pixels of 4 bytes, 2 blocks of 8 bytes.
    for (row, least) in [(HOST_TEXTURE, 20), (BACKED_TEXTURE, 16)] {
        for pitch in [0, 1, least - 1, least, least + 1, MAX] {
            for id in [1, 6, MAX] {
                if pitch >= least {
                    assert_good(&backed(row, pitch, id));
                } else {
                    assert_bad(&backed(row, pitch, id), row + ID);
                }
            }
        }
        for pitch in [1, least - 1, least, least + 1, MAX] {
            assert_bad(&backed(row, pitch, 0), row + ID);
        }
        // A bad one that is cut is missing.
        let bytes = changed(&backed(row, 1, 1));
        for length in row + PITCH..row + OFFSET {
            assert_eq!(place(&bytes[..length]), Some(length / 4 * 4));
        }
    }
    // Any side of the row decides on the least pitch, in blocks.
    assert_good(&[(BACKED_TEXTURE + WIDTH, 8)]);
    assert_bad(&[(BACKED_TEXTURE + WIDTH, 9)], BACKED_TEXTURE + ID);
    // For a buffer any id goes.
    for row in [HOST_BUFFER, BACKED_BUFFER] {
        assert_field(row + ID, &[1, 5, MAX], &[]);
        assert_bad(&backed(row, 20, 1), row + PITCH);
    }
}

#[test]
fn offsets_of_host_backed_resources_are_0() {
    for row in [HOST_BUFFER, HOST_TEXTURE] {
        assert_field(row + OFFSET, &[0], &[1, 0x8000_0000, MAX]);
    }
    for row in [BACKED_BUFFER, BACKED_TEXTURE] {
        assert_field(row + OFFSET, &[0, 1, 0x8000_0000, MAX], &[]);
    }
    assert_good(&[(HOST_BUFFER + ID, 1), (HOST_BUFFER + OFFSET, MAX)]);
    assert_bad(&[(BACKED_BUFFER + ID, 0)], BACKED_BUFFER + OFFSET);
    let host = [(BACKED_TEXTURE + PITCH, 0), (BACKED_TEXTURE + ID, 0)];
    assert_bad(&host, BACKED_TEXTURE + OFFSET);
    let at = (BACKED_TEXTURE + OFFSET, 0);
    assert_good(&[host[0], host[1], at]);
    // Both wrong: the pitch is judged first, at the id.
    assert_bad(&[(BACKED_TEXTURE + ID, 0)], BACKED_TEXTURE + ID);
}

/// Changes that make one fault, and its place.
type Fault = (Vec<(usize, u32)>, usize);

/// Faults of single fields from this offset on, each at the field.
fn faults_from(start: usize, fields: &[(usize, u32)]) -> Vec<Fault> {
    let fault = |(field, value): &(usize, u32)| (vec![(start + field, *value)], start + field);
    fields.iter().map(fault).collect()
}

/// A fault in every field that may have one.
fn faults() -> Vec<Fault> {
    let mut faults = faults_from(0, &[(0, 22), (4, 0), (8, 0), (12, 0), (16, 1), (32, 2)]);
    let rest = [(52, 4), (CODE, 9), (ERRORS, 0), (84, 2), (COUNT, 65)];
    faults.extend(faults_from(0, &rest));
    for row in [HOST_BUFFER, BACKED_BUFFER] {
        let size = vec![(row + SIZE_LO, 0), (row + SIZE_HI, 0)];
        faults.push((size, row + SIZE_HI));
        let unused = [FORMAT, WIDTH, HEIGHT, MIPS, LAYERS, PITCH];
        faults.extend(faults_from(row, &unused.map(|field| (field, 1))));
    }
    for row in [HOST_TEXTURE, BACKED_TEXTURE] {
        faults.extend(faults_from(row, &[(SIZE_LO, 1), (SIZE_HI, 1)]));
        let shape = [FORMAT, WIDTH, HEIGHT, MIPS, LAYERS];
        faults.extend(faults_from(row, &shape.map(|field| (field, 0))));
        faults.push((vec![(row + PITCH, 1)], row + ID));
    }
    for row in [HOST_BUFFER, HOST_TEXTURE, BACKED_BUFFER, BACKED_TEXTURE] {
        faults.extend(faults_from(row, &[(0, 0), (KIND, 3)]));
    }
    for row in [HOST_BUFFER, HOST_TEXTURE] {
        faults.extend(faults_from(row, &[(OFFSET, 1)]));
    }
    faults
}

#[test]
fn of_two_faults_the_first_counts() {
    let faults = faults();
    for (first, place) in &faults {
        assert_bad(first, *place);
        for (second, other) in &faults {
            let both = [&first[..], &second[..]].concat();
            assert_bad(&both, *place.min(other));
        }
    }
}

#[test]
fn a_fault_and_a_cut_or_a_byte_more() {
    for (changes, at) in faults() {
        let mut bytes = changed(&changes);
        for length in (0..bytes.len()).step_by(3) {
            let cut = length / 4 * 4;
            assert_eq!(place(&bytes[..length]), Some(cut.min(at)));
        }
        bytes.push(0);
        assert_eq!(place(&bytes), Some(at));
    }
}

#[test]
fn the_memory_length_is_the_files() {
    let mut scene = full();
    let mut other = vec![0xCC; 4096];
    let mut bytes = file(&FULL);
    put64(&mut bytes, 76, 4096);
    assert_eq!(scene.desk.run(&mut other, 1).answer, 1);
    assert_eq!(scene.desk.load(&bytes), (0, 0));
    assert_eq!(scene.run(1).answer, 1);
    assert_eq!(scene.desk.run(&mut other, 0).answer, 0);
    for length in [0, 1 << 32, 0x1_0000_4000, u64::MAX] {
        put64(&mut bytes, 76, length);
        assert_eq!(scene.desk.load(&bytes), (0, 0));
        assert_eq!(get64(&saved(&scene.desk), 80), length);
        assert_eq!(scene.run(1).answer, 1);
        assert_eq!(scene.desk.run(&mut other, 1).answer, 1);
        let empty = if length == 0 { 0 } else { 1 };
        assert_eq!(scene.desk.run(&mut [], 0).answer, empty);
    }
    put64(&mut bytes, 76, MEMORY as u64);
    assert_eq!(scene.desk.load(&bytes), (0, 0));
    assert_eq!(scene, full());
}

#[test]
fn loading_drops_the_submission_in_work() {
    let entries = [(5, 0, 8192, 4096)];
    let packets = [create_buffer(1, 256, 5, 64), dirty(1, 0, 8)];
    let bytes = saved(&full().desk);
    for units in 0..=4 {
        for control in [0, 1] {
            let mut scene = Scene::with(&entries, &packets);
            assert_eq!(scene.run(units).units, units);
            scene.write(0x10C, control);
            let before = scene.clone();
            // Refused, it goes on.
            assert_eq!(scene.desk.load(&bytes[1..]), (7, 0));
            assert_eq!(scene, before);
            assert_eq!(scene.records(), before.records());
            assert_eq!(scene.desk.load(&bytes), (0, 0));
            assert_eq!(scene.desk, full().desk);
            assert_eq!(scene.mem, before.mem);
            assert_eq!(scene.desk.record(0), (4, Record::default()));
            assert_eq!(scene.answer(true), 3);
            assert_eq!(scene.run(0).ended, Ended::Paused);
            assert_eq!(scene.mem, before.mem);
            // The ring still has it, and it is opened anew: 1 is not live.
            assert_eq!(scene.verdict(), (0, 4));
        }
    }
}

#[test]
fn a_loaded_device_may_be_disabled_or_have_no_doorbell() {
    for (control, flag, ended) in [
        (0, 0, Ended::Idle),
        (0, 1, Ended::Idle),
        (1, 0, Ended::Idle),
        (1, 1, Ended::Paused),
    ] {
        let mut scene = busy();
        let bytes = changed(&[(32, control), (84, flag)]);
        assert_eq!(scene.desk.load(&bytes), (0, 0));
        assert_eq!(scene.run(0).ended, ended);
    }
}

#[test]
fn the_completed_fence_may_be_lower_after_loading() {
    let mut scene = full();
    assert_eq!(scene.completed(), 0x9_0000_0008);
    let bytes = changed(&[(44, 5), (48, 0), (52, 0)]);
    assert_eq!(scene.desk.load(&bytes), (0, 0));
    assert_eq!((scene.completed(), scene.status()), (5, 0));
    scene.settle_good(&[], &[], 5);
    assert_eq!((scene.completed(), scene.status()), (5, 0));
    scene.settle_good(&[], &[], 6);
    assert_eq!((scene.completed(), scene.status()), (6, 1));
    assert_eq!(get64(&scene.mem, FENCE + 8), 6);
}

#[test]
fn the_error_count_goes_on_from_the_file() {
    let mut scene = full();
    for (count, next) in [(1, 2), (MAX - 1, MAX), (MAX, MAX)] {
        assert_eq!(scene.desk.load(&changed(&[(ERRORS, count)])), (0, 0));
        scene.write(0x108, 0);
        scene.write(0x200, 0);
        assert_eq!(scene.run(1).units, 1);
        assert_eq!((scene.error(), scene.errors()), (10, next));
    }
}
