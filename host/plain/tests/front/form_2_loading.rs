//! Loading form 2: every rule that form 1 has not, one either side, with its
//! place.

use crate::form_2::{full_2, surface, FULL_2};
use crate::loading::loaded;
use crate::saved::REGISTERS;
use crate::scene::*;
use plain::Desk;

/// Where the fields of [`FULL_2`] stand that rules look at.
const CODE: usize = 64;
const FENCE_LO: usize = 68;
const FENCE_HI: usize = 72;
const ERRORS: usize = 76;
const DETAIL: usize = 80;
const FLAG: usize = 92;
const COUNT_2: usize = 96;
const ROWS: usize = 100;
const COUNT_3: usize = 436;
const PAIRS: usize = 440;
const COUNT_4: usize = 464;
const TOKENS: usize = 468;
const END: usize = 528;

/// The rows of section 2 with one mip and one layer: 6, 8 and 50.
const ROW_6: usize = ROWS + 48;
const ROW_8: usize = ROWS + 3 * 48;
const ROW_50: usize = ROWS + 5 * 48;
/// Their fields, from the start of the row.
const MIPS: usize = 28;
const LAYERS: usize = 32;

const MAX: u32 = u32::MAX;

/// Loads a file of form 2; gives the place of 7, or nothing if it is good.
fn place(bytes: &[u8]) -> Option<usize> {
    match loaded(bytes) {
        Ok(desk) => {
            assert_is(&desk, bytes);
            None
        }
        Err(place) => Some(place),
    }
}

/// The device is what the file says.
fn assert_is(desk: &Desk, bytes: &[u8]) {
    for (i, offset) in REGISTERS.iter().chain(&[0x320]).enumerate() {
        assert_eq!(desk.read(*offset), (0, get32(bytes, 8 + 4 * i)));
    }
    assert_eq!(saved_2(desk), bytes);
    let form_1 = desk.save(&mut [0; LONGEST]);
    // "8 for the detail as long as it is non-zero", 8 for names and tokens.
    let names = desk.names();
    let others = names.iter().any(|(name, lowest)| name != lowest);
    if others || !desk.tokens().is_empty() || desk.read(0x320) != (0, 0) {
        assert_eq!(form_1, (8, 0));
        assert_eq!(not_moved(bytes, LONGEST), 8);
    } else {
        assert_eq!(moved(bytes), saved(desk));
    }
}

/// The full file with these fields changed, each at its offset.
fn changed(changes: &[(usize, u32)]) -> Vec<u8> {
    let mut bytes = file(&FULL_2);
    for (at, value) in changes {
        put32(&mut bytes, *at, *value);
    }
    bytes
}

fn assert_good(changes: &[(usize, u32)]) {
    assert_eq!(place(&changed(changes)), None, "{:?}", changes);
}

fn assert_bad(changes: &[(usize, u32)], at: usize) {
    assert_eq!(place(&changed(changes)), Some(at), "{:?}", changes);
}

/// The field at this offset has these values as good ones and these as bad,
/// at the field itself.
fn assert_field(at: usize, good: &[u32], bad: &[u32]) {
    for value in good {
        assert_good(&[(at, *value)]);
    }
    for value in bad {
        assert_bad(&[(at, *value)], at);
    }
}

/// The other name and the lowest name of this pair.
fn pair(i: usize) -> (usize, usize) {
    (PAIRS + 8 * i, PAIRS + 8 * i + 4)
}

/// The halves of this token, and its name.
fn token(i: usize) -> (usize, usize, usize) {
    let at = TOKENS + 12 * i;
    (at, at + 4, at + 8)
}

/// A file with these rows of section 2, each a handle, mips and layers of a
/// texture, and these pairs and tokens.
fn made(rows: &[(u32, u32, u32)], pairs: &[(u32, u32)], tokens: &[(u64, u32)]) -> Vec<u8> {
    let mut fields = FULL_2[..24].to_vec();
    fields.push(rows.len() as u32);
    for (handle, mips, layers) in rows {
        fields.extend([*handle, 2, 0, 0, 1, 5, 3, *mips, *layers, 0, 0, 0]);
    }
    fields.push(pairs.len() as u32);
    fields.extend(pairs.iter().flat_map(|(other, lowest)| [*other, *lowest]));
    fields.push(tokens.len() as u32);
    for (token, name) in tokens {
        fields.extend([*token as u32, (*token >> 32) as u32, *name]);
    }
    file(&fields)
}

/// Rows of one mip and one layer with handles from 1 up.
fn surfaces(count: u32) -> Vec<(u32, u32, u32)> {
    (1..=count).map(|handle| (handle, 1, 1)).collect()
}

#[test]
fn the_full_file_is_good() {
    assert_good(&[]);
    let desk = loaded(&file(&FULL_2)).unwrap();
    assert_eq!(desk, full_2().desk);
    let names = [
        (2, 2),
        (6, 6),
        (7, 7),
        (8, 8),
        (9, 9),
        (10, 8),
        (20, 6),
        (30, 6),
        (50, 50),
        (MAX, MAX),
    ];
    assert_eq!(desk.names(), names);
    let tokens = [
        (3, 0),
        (7, 0),
        (1 << 32, 8),
        (0x5_0000_0003, 6),
        (u64::MAX, 50),
    ];
    assert_eq!(desk.tokens(), tokens);
}

#[test]
fn every_cut_is_at_the_start_of_the_field() {
    for bytes in [file(&FULL_2), saved_2(&Desk::new(MEMORY))] {
        for length in 0..bytes.len() {
            assert_eq!(place(&bytes[..length]), Some(length / 4 * 4));
        }
    }
}

#[test]
fn a_byte_after_the_last_field() {
    for bytes in [file(&FULL_2), saved_2(&Desk::new(MEMORY))] {
        for more in [1, 2, 3, 4, 5, 12, 48, 1000] {
            for junk in [0, 1, 0xFF] {
                let mut longer = bytes.clone();
                longer.resize(bytes.len() + more, junk);
                assert_eq!(place(&longer), Some(bytes.len()));
            }
        }
    }
}

#[test]
fn the_number_and_the_first_sections_count() {
    // "A section 1 count other than the form's": at that count.
    assert_field(4, &[22], &[0, 1, 2, 20, 21, 23, 0x1600_0000, MAX]);
    assert_bad(&[(4, 21), (8, 0), (DETAIL, 1), (COUNT_2, 65)], 4);
    // As form 1 its count is wrong; without a number, its first field.
    assert_bad(&[(0, 1)], 4);
    // With that put right, the flag is its count, and a texture has a size.
    assert_bad(&[(0, 1), (4, 21)], 104);
    assert_field(0, &[2], &[0, 3, 22, 0x0200_0000, MAX]);
    assert_eq!(place(&file(&FULL_2)[4..]), Some(0));
}

#[test]
fn detail_beside_code_0_is_at_320() {
    let error = |code, count, detail| {
        [
            (CODE, code),
            (FENCE_LO, 0),
            (FENCE_HI, 0),
            (ERRORS, count),
            (DETAIL, detail),
        ]
    };
    assert_good(&error(0, 0, 0));
    for detail in [1, 2, 24, 0x8000_0000, MAX] {
        assert_bad(&error(0, 0, detail), DETAIL);
        // The count stands before it.
        assert_bad(&error(0, 1, detail), ERRORS);
        assert_bad(&error(9, 1, detail), CODE);
    }
    // Beside a code it is free, though no run gives 10 a place.
    for code in 10..=30 {
        for detail in [0, 1, 24, 0x8000_0000, MAX] {
            assert_good(&error(code, 1, detail));
        }
    }
}

#[test]
fn other_names_are_not_0_and_rise() {
    let [(first, _), (second, _), (third, _)] = [0, 1, 2].map(pair);
    assert_field(first, &[10, 11, 19], &[0]);
    // One that does not rise is at the later one.
    assert_bad(&[(first, 20)], second);
    assert_bad(&[(first, 21)], second);
    assert_field(second, &[11, 20, 29], &[0, 1, 10]);
    assert_bad(&[(second, 30)], third);
    assert_field(third, &[21, 49, 51, MAX - 1], &[0, 10, 19, 20]);
    // They rise as unsigned numbers.
    assert_good(&[(second, 0x7FFF_FFFF), (third, 0x8000_0000)]);
    assert_bad(&[(second, 0x8000_0000), (third, 0x7FFF_FFFF)], third);
}

#[test]
fn an_other_name_is_no_handle_of_section_2() {
    let [(first, _), _, (third, _)] = [0, 1, 2].map(pair);
    for handle in [2, 6, 7, 8, 9] {
        assert_bad(&[(first, handle)], first);
    }
    for handle in [50, MAX] {
        assert_bad(&[(third, handle)], third);
    }
    // Both wrong: the other name stands first.
    assert_bad(&[(first, 9), (first + 4, 99)], first);
}

#[test]
fn a_lowest_name_is_of_section_2_and_below() {
    let [first, second, third] = [0, 1, 2].map(|i| pair(i).1);
    // None, other names, handles above.
    assert_field(first, &[6, 8], &[0, 1, 3, 5, 10, 11, 20, 50, MAX]);
    assert_field(second, &[6, 8], &[0, 10, 19, 20, 21, 30, 50]);
    assert_field(third, &[6, 8], &[0, 10, 20, 30, 31, 50, MAX]);
    // One either side of the other name.
    let rows = [(4, 1, 1), (6, 1, 1)];
    let at = 4 * (25 + 24 + 1 + 1);
    assert_eq!(place(&made(&rows, &[(5, 4)], &[])), None);
    assert_eq!(place(&made(&rows, &[(5, 6)], &[])), Some(at));
    assert_eq!(place(&made(&rows, &[(7, 6)], &[])), None);
    assert_eq!(place(&made(&rows, &[(7, 4)], &[])), None);
    assert_eq!(place(&made(&rows, &[(3, 4)], &[])), Some(at));
    assert_eq!(place(&made(&rows, &[(3, 6)], &[])), Some(at));
    // An other name that is named as the lowest, before it and after it.
    assert_eq!(place(&made(&rows, &[(5, 4), (8, 5)], &[])), Some(at + 8));
    assert_eq!(place(&made(&rows, &[(7, 5), (8, 4)], &[])), Some(at));
    // The lowest that is not the lowest: 4 would be, of 4, 5 and 7.
    assert_eq!(place(&made(&rows, &[(5, 4), (7, 4)], &[])), None);
    assert_eq!(place(&made(&rows, &[(5, 4), (7, 5)], &[])), Some(at + 8));
    assert_eq!(place(&made(&rows, &[(5, 7), (7, 5)], &[])), Some(at));
    // Unsigned numbers again.
    let rows = [(0x7FFF_FFFF, 1, 1)];
    let at = 4 * (25 + 12 + 1 + 1);
    assert_eq!(place(&made(&rows, &[(MAX, 0x7FFF_FFFF)], &[])), None);
    let rows = [(0x8000_0001, 1, 1)];
    assert_eq!(place(&made(&rows, &[(1, 0x8000_0001)], &[])), Some(at));
}

#[test]
fn shared_ones_have_one_mip_and_one_layer() {
    let [first, second, third] = [0, 1, 2].map(|i| pair(i).1);
    // Buffers, backed or not, and textures of more.
    assert_field(first, &[], &[2, 7, 9]);
    assert_field(second, &[], &[2, 7, 9]);
    assert_field(third, &[], &[2, 7, 9]);
    for field in [MIPS, LAYERS] {
        assert_bad(&[(ROW_8 + field, 2)], first);
        assert_bad(&[(ROW_6 + field, 2)], second);
        assert_bad(&[(ROW_6 + field, 2), (ROW_8 + field, 2)], first);
    }
    let at = 4 * (25 + 12 + 1 + 1);
    for (mips, layers, good) in [(1, 1, true), (2, 1, false), (1, 2, false), (3, 256, false)] {
        let bytes = made(&[(4, mips, layers)], &[(5, 4)], &[]);
        assert_eq!(place(&bytes), if good { None } else { Some(at) });
        // As long as nobody shares it, anything goes.
        assert_eq!(place(&made(&[(4, mips, layers)], &[], &[])), None);
    }
}

#[test]
fn bound_ones_have_one_mip_and_one_layer() {
    for i in 0..5 {
        assert_field(token(i).2, &[0, 6, 8, 50], &[2, 7, 9, MAX]);
    }
    // 50 has no other name, so only its token is in question.
    for field in [MIPS, LAYERS] {
        assert_bad(&[(ROW_50 + field, 2)], token(4).2);
        assert_good(&[(ROW_50 + field, 2), (token(4).2, 0)]);
    }
    let at = 4 * (25 + 12 + 1 + 1 + 2);
    for (mips, layers, good) in [(1, 1, true), (2, 1, false), (1, 2, false), (3, 256, false)] {
        let bytes = made(&[(4, mips, layers)], &[], &[(9, 4)]);
        assert_eq!(place(&bytes), if good { None } else { Some(at) });
        assert_eq!(place(&made(&[(4, mips, layers)], &[], &[(9, 0)])), None);
    }
}

#[test]
fn a_token_is_bound_to_a_lowest_name() {
    for i in 0..5 {
        // Other names, and names that nobody has.
        assert_field(token(i).2, &[], &[10, 20, 30, 1, 3, 49, 51, MAX - 1]);
    }
    // Several on one resource, or all spent.
    let names = |name| [0, 1, 2, 3, 4].map(|i| (token(i).2, name));
    for name in [0, 6, 8, 50] {
        assert_good(&names(name));
    }
}

#[test]
fn up_to_64_names() {
    for resources in [1, 2, 31, 32, 63, 64] {
        let rows = surfaces(resources);
        let pairs = |count: u32| -> Vec<_> { (1..=count).map(|i| (100 + i, 1)).collect() };
        let count_3 = ROWS + 48 * resources as usize;
        for others in [0, 1, 63 - resources.min(63), 64 - resources] {
            if resources + others <= 64 {
                let bytes = made(&rows, &pairs(others), &[(5, 1)]);
                assert_eq!(place(&bytes), None);
            }
        }
        for others in [65 - resources, 66 - resources, 64, 65] {
            if resources + others > 64 {
                let bytes = made(&rows, &pairs(others), &[]);
                assert_eq!(place(&bytes), Some(count_3));
            }
        }
        // Nothing after a count that is too large is looked at, nor missed.
        for others in [65 - resources, 64, 0x8000_0000, MAX] {
            let mut bytes = made(&rows, &[(1, 0)], &[]);
            put32(&mut bytes, count_3, others);
            assert_eq!(place(&bytes), Some(count_3));
            assert_eq!(place(&bytes[..count_3 + 4]), Some(count_3));
        }
    }
    // Without resources there is no lowest name.
    let none = |others| made(&[], &[(1, 0); 65][..others], &[]);
    assert_eq!(place(&none(64)), Some(ROWS + 8));
    assert_eq!(place(&none(65)), Some(ROWS));
    let desk = loaded(&made(&surfaces(1), &[(7, 1)], &[])).unwrap();
    assert_eq!(desk.names(), [(1, 1), (7, 1)]);
}

#[test]
fn up_to_256_tokens() {
    let tokens =
        |count: u64| -> Vec<_> { (1..=count).map(|i| (i << 24, (i % 3) as u32)).collect() };
    let count_4 = ROWS + 48 * 2 + 4;
    for count in [0, 1, 2, 255, 256] {
        let bytes = made(&surfaces(2), &[], &tokens(count));
        assert_eq!(place(&bytes), None);
        assert_eq!(loaded(&bytes).unwrap().tokens(), tokens(count));
    }
    for count in [257, 258, 300] {
        let bytes = made(&surfaces(2), &[], &tokens(count));
        assert_eq!(place(&bytes), Some(count_4));
        assert_eq!(place(&bytes[..count_4 + 4]), Some(count_4));
    }
    for count in [257, 0x8000_0000, MAX] {
        assert_field(COUNT_4, &[], &[count]);
        assert_eq!(
            place(&changed(&[(COUNT_4, count)])[..TOKENS]),
            Some(COUNT_4)
        );
    }
    // With all names and all tokens the file is the longest.
    let bytes = made(&surfaces(64), &[], &tokens(256));
    assert_eq!(bytes.len(), LONGEST);
    assert_eq!(place(&bytes), None);
    let pairs: Vec<_> = (1..=32).map(|i| (100 + i, i)).collect();
    assert_eq!(place(&made(&surfaces(32), &pairs, &tokens(256))), None);
}

#[test]
fn tokens_are_not_0_at_their_high_word() {
    let (low, high, _) = token(0);
    assert_bad(&[(low, 0)], high);
    for value in [1, 3, 6] {
        assert_good(&[(low, value)]);
    }
    let bytes = changed(&[(low, 0)]);
    // A token 0 that is cut is missing.
    assert_eq!(place(&bytes[..high]), Some(high));
    assert_eq!(place(&bytes[..high - 1]), Some(low));
    assert_eq!(place(&made(&[], &[], &[(0, 0)])), Some(112));
    assert_eq!(place(&made(&[], &[], &[(1, 0)])), None);
    assert_eq!(place(&made(&[], &[], &[(1 << 32, 0)])), None);
}

#[test]
fn tokens_rise_as_u64_numbers() {
    let with = |first, second| place(&made(&[], &[], &[(first, 0), (second, 0)]));
    let high = Some(4 * (25 + 1 + 1 + 3 + 1));
    for (lower, upper) in [
        (1, 2),
        (u64::from(MAX), 1 << 32),
        // The low words fall, the numbers rise.
        (9, 1 << 32),
        (0x1_0000_0009, 0x2_0000_0001),
        (0x1_FFFF_FFFF, 0x2_0000_0000),
        (0x7FFF_FFFF_FFFF_FFFF, 1 << 63),
        (0x7FFF_FFFF, 0x8000_0000),
        (u64::MAX - 1, u64::MAX),
    ] {
        assert_eq!(with(lower, upper), None);
        assert_eq!(with(upper, lower), high);
        assert_eq!(with(lower, lower), high);
        assert_eq!(with(upper, upper), high);
    }
    // At the later one, before its name is judged.
    let (low, high, name) = token(2);
    assert_bad(&[(low, 7), (high, 0)], high);
    assert_bad(&[(low, 7), (high, 0), (name, 99)], high);
    assert_good(&[(low, 8), (high, 0)]);
    assert_good(&[(low, 2), (high, 5)]);
    assert_bad(&[(low, 3), (high, 5)], token(3).1);
    assert_bad(&[(low, 4), (high, 5)], token(3).1);
}

#[test]
fn counts_that_do_not_fit_the_rows() {
    // Fewer pairs than there are: the next other name is section 4's count,
    // then come token (8, 20) with name 6 and token (30, 6), which is lower.
    assert_bad(&[(COUNT_3, 0)], PAIRS + 20);
    // More than there are: section 4 is read as a pair, and 5 does not rise.
    assert_bad(&[(COUNT_3, 4)], COUNT_4);
    for count in 0..5 {
        let end = TOKENS + 12 * count as usize;
        assert_bad(&[(COUNT_4, count)], end);
    }
    for count in [6, 7, 255, 256] {
        assert_bad(&[(COUNT_4, count)], END);
    }
    // A bad field before comes first.
    assert_bad(&[(COUNT_4, 6), (token(4).2, 1)], token(4).2);
    assert_bad(&[(COUNT_4, 4), (token(3).2, 1)], token(3).2);
    assert_bad(&[(COUNT_4, 257), (pair(2).1, 1)], pair(2).1);
}

#[test]
fn files_that_no_run_could_reach_are_good() {
    // Other names without any token, or with spent ones of others only.
    let rows = surfaces(3);
    let pairs = [(10, 1), (11, 1), (12, 3)];
    assert_eq!(place(&made(&rows, &pairs, &[])), None);
    assert_eq!(place(&made(&rows, &pairs, &[(5, 0)])), None);
    assert_eq!(place(&made(&rows, &pairs, &[(5, 2)])), None);
    // They share all the same.
    let mut scene = Scene::new();
    assert_eq!(scene.desk.load(&made(&rows, &pairs, &[])), (0, 0));
    scene.put_ring(RING, 0);
    assert_eq!(scene.settle(&[], &[destroy(1), export(11, 9)]), 0);
    let names = [(2, 2), (3, 3), (10, 10), (11, 10), (12, 3)];
    assert_eq!(scene.desk.names(), names);
    assert_eq!(scene.desk.tokens(), [(9, 10)]);
    // A detail that no stream is long enough for.
    assert_good(&[(DETAIL, MAX)]);
}

/// Changes that make one fault, and its place.
type Fault = (Vec<(usize, u32)>, usize);

/// A fault in every field that has a rule in form 2 alone, and some others.
fn faults() -> Vec<Fault> {
    let mut faults: Vec<Fault> = vec![
        (vec![(4, 21)], 4),
        (vec![(CODE, 9)], CODE),
        (vec![(ERRORS, 0)], ERRORS),
        (vec![(FLAG, 2)], FLAG),
        (vec![(COUNT_2, 65)], COUNT_2),
        (vec![(COUNT_3, 58)], COUNT_3),
        (vec![(COUNT_4, 257)], COUNT_4),
        (vec![(ROW_50, 0)], ROW_50),
    ];
    for i in 0..3 {
        let (other, lowest) = pair(i);
        faults.push((vec![(other, 0)], other));
        faults.push((vec![(lowest, 99)], lowest));
    }
    for i in 0..5 {
        let (low, high, name) = token(i);
        faults.push((vec![(low, 0), (high, 0)], high));
        faults.push((vec![(name, 99)], name));
    }
    faults
}

#[test]
fn of_two_faults_the_first_counts() {
    let faults = faults();
    for (first, place) in &faults {
        assert_bad(first, *place);
        for (second, other) in &faults {
            let both = [&first[..], &second[..]].concat();
            assert_bad(&both, *place.min(other));
        }
    }
}

#[test]
fn a_fault_and_a_cut_or_a_byte_more() {
    for (changes, at) in faults() {
        let mut bytes = changed(&changes);
        for length in (0..bytes.len()).step_by(3) {
            let cut = length / 4 * 4;
            assert_eq!(place(&bytes[..length]), Some(cut.min(at)));
        }
        bytes.push(0);
        assert_eq!(place(&bytes), Some(at));
    }
}

#[test]
fn loading_drops_the_submission_in_work() {
    let packets = [surface(1), export(1, 5), import(2, 5)];
    let bytes = file(&FULL_2);
    for units in 0..=4 {
        let mut scene = Scene::with(&[], &packets);
        assert_eq!(scene.run(units).units, units);
        let before = scene.clone();
        // Refused, it goes on.
        assert_eq!(scene.desk.load(&bytes[..END - 1]), (7, END - 4));
        assert_eq!(scene, before);
        assert_eq!(scene.desk.load(&bytes), (0, 0));
        assert_eq!(scene.desk, full_2().desk);
        assert_eq!(scene.mem, before.mem);
        assert_eq!(scene.answer(true), 3);
        assert_eq!(scene.mem, before.mem);
        assert_eq!(saved_2(&scene.desk), bytes);
    }
}
