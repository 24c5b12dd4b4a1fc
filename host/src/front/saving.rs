//! Save, load and move over random words, bytes and lengths, with canaries beside all that they are lent; and what they leave of it.
use super::fuzz::{rounds, Lent, BESIDE, UNTOUCHED};
use super::*;
use crate::numbers::Numbers;
use crate::registers::{IRQ_ERROR, IRQ_FENCE};
use crate::saved::{FileLayout, LONGEST_SAVED_DESK};
use crate::state::{word, MOST, MOST_TOKENS, NOTHING, RESOURCE_WORDS, TOKEN_WORDS};

const HEAD: usize = 96;
const RESOURCE: usize = 48;

/// What form 2 has more: a register and two counts; and what another name and a token have.
const MORE: usize = 12;
const NAME: usize = 8;
const TOKEN: usize = 12;

/// Bytes that are lent, between bytes that nobody may touch.
fn fenced(bytes: &[u8]) -> Vec<u8> {
    let beside = [UNTOUCHED; BESIDE];
    [&beside[..], bytes, &beside].concat()
}

/// The rows of the device's resources.
fn rows(lent: &Lent) -> impl Iterator<Item = &[u64]> {
    let words = &lent.words.lent;
    let table = match words[word::SIDE] {
        0 => &lent.first.lent,
        _ => &lent.second.lent,
    };
    let live = words[word::LIVE].min(MOST as u64) as usize;
    table.chunks_exact(RESOURCE_WORDS).take(live)
}

/// How many tokens the device has used. Words that nobody made may have a token 0, or one twice: neither is a token of its own.
fn token_count(lent: &Lent) -> usize {
    let words = &lent.words.lent;
    let table = match words[word::TOKEN_SIDE] {
        0 => &lent.first_tokens.lent,
        _ => &lent.second_tokens.lent,
    };
    let used = words[word::TOKENS].min(MOST_TOKENS as u64) as usize;
    let rows = table.chunks_exact(TOKEN_WORDS).take(used);
    let mut tokens: Vec<u64> = rows.map(|row| row[1]).filter(|&token| token != 0).collect();
    tokens.sort_unstable();
    tokens.dedup();
    tokens.len()
}

/// The bytes of the saved desk, and whether form 1 has fields for all of it.
fn length_of(lent: &Lent, form: Form) -> (usize, bool) {
    let words = &lent.words.lent;
    let mut names: Vec<(u32, bool)> = rows(lent)
        .map(|row| (row[0] as u32, row[0] as u32 == row[11] as u32))
        .filter(|&(name, _)| name != 0)
        .collect();
    // Of a name that stands twice the first row counts.
    names.sort_by_key(|&(name, _)| name);
    names.dedup_by_key(|&mut (name, _)| name);
    let resources = names.iter().filter(|(_, lowest)| *lowest).count();
    let others = names.len() - resources;
    let second_name = rows(lent).any(|row| row[0] as u32 != row[11] as u32);
    let in_form_1 =
        words[word::TOKENS] == 0 && !second_name && words[word::ERROR_DETAIL] as u32 == 0;
    let length = HEAD + RESOURCE * resources;
    match form {
        Form::One => (length, in_form_1),
        Form::Two => (
            length + MORE + NAME * others + TOKEN * token_count(lent),
            true,
        ),
    }
}

/// What a save into a buffer of so many bytes has to answer, and to write.
fn expected(lent: &Lent, form: Form, length: usize) -> (u32, u32) {
    let (file, in_form) = length_of(lent, form);
    if lent.words.lent[word::TAG] != NOTHING {
        (5, 0)
    } else if !in_form {
        (8, 0)
    } else if length < file {
        (6, 0)
    } else {
        (0, file as u32)
    }
}

/// Saves into a buffer of so many bytes: what the call says, and the bytes written.
fn save_fenced(lent: &Lent, form: Form, length: usize, numbers: &mut Numbers) -> (u32, Vec<u8>) {
    let mut buffer = fenced(&numbers.memory(length));
    let (kept, before) = (lent.clone(), buffer.clone());
    let export = match form {
        Form::One => library::zelezmut_save,
        Form::Two => library::zelezmut_save_form_2,
    };
    // SAFETY: references to arrays of the boundary's types, and a slice's own pointer and length.
    let said = halves(unsafe {
        export(
            &lent.words.lent,
            &lent.first.lent,
            &lent.second.lent,
            &lent.first_tokens.lent,
            &lent.second_tokens.lent,
            buffer[BESIDE..][..length].as_mut_ptr(),
            length,
        )
    });
    assert!(*lent == kept);
    assert_eq!(said, expected(lent, form, length));
    (said.0, written(said, &buffer, &before))
}

/// What a call has written into a fenced buffer: the bytes behind these, and those beside, are as before.
fn written(said: (u32, u32), buffer: &[u8], before: &[u8]) -> Vec<u8> {
    let written = said.1 as usize;
    assert!(said.0 == 0 || written == 0);
    assert_eq!(buffer[..BESIDE], before[..BESIDE]);
    assert_eq!(buffer[BESIDE + written..], before[BESIDE + written..]);
    buffer[BESIDE..][..written].to_vec()
}

/// Loads a file: what the call says. A refused one has changed nothing.
fn load_fenced(lent: &mut Lent, file: &[u8]) -> (u32, u32) {
    let (kept, bytes) = (lent.clone(), fenced(file));
    // SAFETY: references to arrays of the boundary's types, and a slice's own pointer and length.
    let said = halves(unsafe {
        library::zelezmut_load(
            &mut lent.words.lent,
            &mut lent.first.lent,
            &mut lent.first_tokens.lent,
            bytes[BESIDE..][..file.len()].as_ptr(),
            file.len(),
        )
    });
    assert!(lent.fences_stand());
    match said {
        (0, 0) => assert_eq!(lent.words.lent[word::TAG], NOTHING),
        (7, place) => assert!(*lent == kept && place as usize <= file.len()),
        _ => panic!("a load says {:?}", said),
    }
    said
}

/// Moves a file into a buffer of so many bytes: what the call says, and the bytes written.
fn move_fenced(file: &[u8], length: usize, numbers: &mut Numbers) -> (u32, Vec<u8>) {
    let mut buffer = fenced(&numbers.memory(length));
    let (bytes, before) = (fenced(file), buffer.clone());
    // SAFETY: pointers and lengths of two slices that are apart.
    let said = halves(unsafe {
        library::zelezmut_move(
            bytes[BESIDE..][..file.len()].as_ptr(),
            file.len(),
            buffer[BESIDE..][..length].as_mut_ptr(),
            length,
        )
    });
    assert_eq!(bytes, fenced(file));
    (said.0, written(said, &buffer, &before))
}

/// Nothing is in work, and form 1 has a field for all that there is; mostly.
fn rest(lent: &mut Lent, numbers: &mut Numbers) {
    for at in [word::TAG, word::TOKENS, word::ERROR_DETAIL] {
        if numbers.next() % 16 != 0 {
            lent.words.lent[at] = 0;
        }
    }
    let first = lent.first.lent.chunks_exact_mut(RESOURCE_WORDS);
    let second = lent.second.lent.chunks_exact_mut(RESOURCE_WORDS);
    for row in first.chain(second) {
        if numbers.next() % 256 != 0 {
            row[11] = row[0];
        }
    }
}

/// A good file, field by field, with its number.
fn fields(form: Form, numbers: &mut Numbers) -> Vec<u32> {
    let mut any = || numbers.next() as u32;
    let mut fields = vec![form.number(), 20 + form.number()];
    fields.extend([u32::from_le_bytes(*b"AGPU"), 65539, 7, 0]);
    fields.extend([any(), any(), any(), any() % 2, any(), any(), any(), any()]);
    fields.extend([any() & (IRQ_FENCE | IRQ_ERROR), any()]);
    let (error, detail) = match any() % 32 {
        code @ 10..=30 => ([code, any(), any(), any().max(1)], any()),
        _ => ([0; 4], 0),
    };
    fields.extend(error);
    if form == Form::Two {
        fields.push(detail);
    }
    let count = any() % (MOST as u32 + 1);
    fields.extend([any(), any(), any() % 2, count]);
    let rows = resources(count, numbers);
    fields.extend(rows.iter().flatten());
    if form == Form::Two {
        fields.extend(sharing(&rows, numbers));
    }
    fields
}

fn resources(count: u32, numbers: &mut Numbers) -> Vec<[u32; RESOURCE_WORDS]> {
    let mut handle = 0;
    let mut next = || {
        handle += 1 + numbers.next() as u32 % 1000;
        resource(handle, numbers)
    };
    (0..count).map(|_| next()).collect()
}

/// Sections 3 and 4 of a good file.
fn sharing(rows: &[[u32; RESOURCE_WORDS]], numbers: &mut Numbers) -> Vec<u32> {
    let shareable = |row: &&[u32; RESOURCE_WORDS]| row[1] == 2 && row[7..9] == [1, 1];
    let lowest: Vec<u32> = rows.iter().filter(shareable).map(|row| row[0]).collect();
    let mut names = Vec::new();
    // Above all handles, so that every lowest name is below.
    let mut other = rows.last().map_or(0, |row| row[0]);
    for _ in rows.len()..MOST {
        if let Some(&of) = lowest.get(numbers.next() as usize % (2 * lowest.len() + 1)) {
            other += 1 + numbers.next() as u32 % 1000;
            names.extend([other, of]);
        }
    }
    let mut fields = vec![names.len() as u32 / 2];
    fields.extend(names);
    let count = numbers.next() % (MOST_TOKENS as u64 + 1);
    fields.push(count as u32);
    let mut token = 0;
    for _ in 0..count {
        token += 1 + numbers.next() % (1 << 40);
        let of = lowest.get(numbers.next() as usize % (lowest.len() + 1));
        fields.extend([token as u32, (token >> 32) as u32, of.copied().unwrap_or(0)]);
    }
    fields
}

fn resource(handle: u32, numbers: &mut Numbers) -> [u32; RESOURCE_WORDS] {
    let mut any = || numbers.next() as u32;
    let backing = any() % 4;
    let offset = if backing == 0 { 0 } else { any() };
    if any() % 2 == 0 {
        let size = any().max(1);
        return [handle, 1, size, any(), 0, 0, 0, 0, 0, 0, backing, offset];
    }
    let format = [1, 2, 3, 64, 65, 66][any() as usize % 6];
    let [width, height] = [(); 2].map(|()| 1 + any() % 16384);
    let (mut mips, mut layers) = (1, 1);
    if any() % 2 == 0 {
        mips += any() % (32 - width.max(height).leading_zeros());
        layers += any() % 256;
    }
    // Sixteen bytes a pixel are enough for a row of any format.
    let pitch = if backing == 0 {
        0
    } else {
        16 * width + any() % 8
    };
    [
        handle, 2, 0, 0, format, width, height, mips, layers, pitch, backing, offset,
    ]
}

fn bytes(fields: &[u32]) -> Vec<u8> {
    let bytes = fields.iter().flat_map(|field| field.to_le_bytes());
    bytes.collect()
}

/// A good file of any form: an old one has no number.
fn good_file(numbers: &mut Numbers) -> Vec<u8> {
    let form = Form::ALL[numbers.next() as usize % 2];
    let mut fields = fields(form, numbers);
    if form == Form::One && numbers.next() % 2 == 0 {
        fields.remove(0);
    }
    bytes(&fields)
}

/// A file that is good, or was before this: some fields are others, it is cut, or it goes on.
fn file(numbers: &mut Numbers) -> Vec<u8> {
    let mut file = good_file(numbers);
    if numbers.next() % 2 == 0 {
        for _ in 0..numbers.next() % 3 {
            let at = 4 * (numbers.next() as usize % (file.len() / 4));
            let value = numbers.next() as u32;
            file[at..at + 4].copy_from_slice(&value.to_le_bytes());
        }
    }
    match numbers.next() % 8 {
        0 => file.truncate(numbers.next() as usize % file.len()),
        1 => file.resize(file.len() + 1 + numbers.next() as usize % 8, 0),
        _ => (),
    }
    file
}

/// The file with its form's number.
fn numbered(file: &[u8]) -> Vec<u8> {
    match FileLayout::of(file).is_numbered() {
        true => file.to_vec(),
        false => [&Form::One.number().to_le_bytes()[..], file].concat(),
    }
}

/// Any words, any length, any file: what is saved is what the rows and words say, what is loaded is saved again to equal bytes, and no call
/// touches anything beside what it is lent.
#[test]
fn no_save_or_load_goes_over_a_fence() {
    let rounds = rounds();
    let mut numbers = Numbers(11);
    let mut answers = [0u64; 9];
    for round in 0..rounds {
        let mut lent = Lent::new(&mut numbers);
        if round % 8 != 0 {
            rest(&mut lent, &mut numbers);
        }
        let form = Form::ALL[numbers.next() as usize % 2];
        let length = numbers.next() as usize % (form.longest() + 100);
        let (answer, _) = save_fenced(&lent, form, length, &mut numbers);
        answers[answer as usize] += 1;
        let file = file(&mut numbers);
        let (answer, place) = load_fenced(&mut lent, &file);
        if answer == 0 {
            answers[1] += 1;
            let file = numbered(&file);
            let form = Form::of(&file);
            let (_, saved) = save_fenced(&lent, form, file.len(), &mut numbers);
            assert!(saved == file);
        } else {
            let (place, layout) = (place as usize, FileLayout::of(&file));
            assert!(place == layout.end() || layout.field(place).is_some());
            answers[7] += 1;
        }
    }
    for answer in [0, 1, 5, 6, 7, 8] {
        assert!(answers[answer] >= rounds / 100, "{:?}", answers);
    }
}

/// Any file, any buffer: a move writes what a load and a save in the other form write, and it answers as they do.
#[test]
fn a_move_is_a_load_and_a_save_and_goes_over_no_fence() {
    let rounds = rounds();
    let mut numbers = Numbers(13);
    let mut answers = [0u64; 9];
    for _ in 0..rounds {
        let file = file(&mut numbers);
        let form = Form::of(&file).other();
        let length = numbers.next() as usize % (form.longest() + 100);
        let (answer, moved) = move_fenced(&file, length, &mut numbers);
        answers[answer as usize] += 1;
        let mut lent = Lent::new(&mut numbers);
        match load_fenced(&mut lent, &file) {
            (0, _) => {
                let saved = save_fenced(&lent, form, length, &mut numbers);
                assert!((answer, moved.clone()) == saved);
            }
            (bad, _) => assert_eq!(answer, bad),
        }
        if answer == 0 {
            let back = move_fenced(&moved, LONGEST_SAVED_DESK, &mut numbers);
            assert!(back == (0, numbered(&file)));
        }
    }
    for answer in [0, 6, 7, 8] {
        assert!(answers[answer] >= rounds / 100, "{:?}", answers);
    }
}

/// Every file that is cut, and one that goes on, by each byte.
#[test]
fn a_cut_file_is_bad_at_the_first_field_that_is_missing() {
    let mut numbers = Numbers(12);
    for _ in 0..6 {
        let whole = good_file(&mut numbers);
        let mut lent = Lent::new(&mut numbers);
        for cut in 0..whole.len() {
            let place = cut as u32 / 4 * 4;
            assert_eq!(load_fenced(&mut lent, &whole[..cut]), (7, place));
        }
        let longer = [&whole[..], &[0]].concat();
        assert_eq!(load_fenced(&mut lent, &longer), (7, whole.len() as u32));
        assert_eq!(load_fenced(&mut lent, &whole), (0, 0));
    }
}
