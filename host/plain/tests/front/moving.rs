//! Moving a file to the other form, and back.

use crate::form_2::FULL_2;
use crate::saved::FULL;
use crate::scene::*;
use plain::move_form;

/// Where form 2 has its one more register.
const DETAIL: usize = 80;

/// [`FULL`] in form 2.
fn full_in_form_2() -> Vec<u8> {
    let (registers, rest) = FULL[1..].split_at(18);
    file(&[&[2, 22], registers, &[0], rest, &[0, 0]].concat())
}

/// A file in form 2 with an error, without resources, and with these fields as
/// detail and sections 3 and 4.
fn bare(detail: u32, sections: &[u32]) -> Vec<u8> {
    let mut fields = FULL_2[..24].to_vec();
    fields[20] = detail;
    fields.push(0);
    fields.extend(sections);
    file(&fields)
}

#[test]
fn form_1_moves_to_form_2_and_back_to_equal_bytes() {
    let form_1 = numbered(&file(&FULL));
    let form_2 = moved(&form_1);
    assert_eq!(form_2, full_in_form_2());
    assert_eq!(moved(&form_2), form_1);
    assert_eq!(moved(&moved(&form_2)), form_2);
}

#[test]
fn an_old_file_moves_straight_to_form_2() {
    let old = file(&FULL);
    assert_eq!(moved(&old), full_in_form_2());
    // "an old one once it has its number": it comes back with it.
    assert_eq!(moved(&moved(&old)), numbered(&old));
}

#[test]
fn numbers_in_front() {
    let old = file(&FULL);
    let with = |number: u32| [&file(&[number]), &old[..]].concat();
    for number in [0, 2, 3, 21, 22, u32::MAX] {
        assert_eq!(not_moved(&with(number), LONGEST), 7);
    }
    assert_eq!(moved(&with(1)), full_in_form_2());
    for number in [0, 1, 3, 21, 22, u32::MAX] {
        let mut bytes = full_in_form_2();
        put32(&mut bytes, 0, number);
        assert_eq!(not_moved(&bytes, LONGEST), 7);
    }
    assert_eq!(not_moved(&[], LONGEST), 7);
    assert_eq!(not_moved(&full_in_form_2()[4..], LONGEST), 7);
}

#[test]
fn form_2_goes_back_exactly_when_form_1_holds_it() {
    let empty = [0, 0];
    assert_eq!(moved(&bare(0, &empty)).len(), 96);
    assert_eq!(moved(&moved(&bare(0, &empty))), bare(0, &empty));
    for detail in [1, 24, 0x8000_0000, u32::MAX] {
        assert_eq!(not_moved(&bare(detail, &empty), LONGEST), 8);
    }
    // A token, though it is spent.
    assert_eq!(not_moved(&bare(0, &[0, 1, 5, 0, 0]), LONGEST), 8);
    let surface = [3, 2, 0, 0, 1, 5, 3, 1, 1, 0, 0, 0];
    for (sections, answer) in [
        (&[0, 0][..], 0),
        (&[0, 1, 5, 0, 3], 8),
        (&[0, 1, 5, 0, 0], 8),
        // Another name, though no token stands.
        (&[1, 4, 3, 0], 8),
        (&[1, 4, 3, 1, 5, 0, 3], 8),
    ] {
        let mut fields = FULL_2[..24].to_vec();
        fields[20] = 0;
        fields.push(1);
        fields.extend(surface);
        fields.extend(sections);
        let bytes = file(&fields);
        match answer {
            0 => assert_eq!(moved(&moved(&bytes)), bytes),
            _ => assert_eq!(not_moved(&bytes, LONGEST), answer),
        }
    }
}

#[test]
fn seven_then_eight_then_six() {
    // All three reasons, then one less each time.
    let mut bytes = file(&FULL_2);
    bytes.push(0);
    assert_eq!(not_moved(&bytes, 0), 7);
    assert_eq!(not_moved(&bytes, LONGEST), 7);
    bytes.pop();
    assert_eq!(not_moved(&bytes, 0), 8);
    assert_eq!(not_moved(&bytes, LONGEST), 8);
    let mut bytes = full_in_form_2();
    assert_eq!(not_moved(&bytes, 0), 6);
    // 7 before 8 wherever the fault stands, behind the reason for 8 too.
    put32(&mut bytes, DETAIL, 1);
    assert_eq!(not_moved(&bytes, 0), 8);
    for at in [4, 8, bytes.len() - 8, bytes.len() - 4] {
        let mut bad = bytes.clone();
        put32(&mut bad, at, u32::MAX);
        assert_eq!(not_moved(&bad, LONGEST), 7);
    }
    let falling = bare(0, &[0, 2, 5, 0, 0, 4, 0, 0]);
    assert_eq!(not_moved(&falling, LONGEST), 7);
    let rising = bare(0, &[0, 2, 4, 0, 0, 5, 0, 0]);
    assert_eq!(not_moved(&rising, LONGEST), 8);
}

#[test]
fn six_for_every_buffer_too_short() {
    let form_1 = numbered(&file(&FULL));
    for length in 0..300 {
        assert_eq!(not_moved(&form_1, length), 6);
        assert_eq!(not_moved(&form_1[4..], length), 6);
    }
    for length in 0..288 {
        assert_eq!(not_moved(&full_in_form_2(), length), 6);
    }
}

#[test]
fn later_bytes_stay() {
    let form_1 = numbered(&file(&FULL));
    let form_2 = full_in_form_2();
    for (from, to) in [
        (&form_1, &form_2),
        (&file(&FULL), &form_2),
        (&form_2, &form_1),
    ] {
        for more in [0, 1, 4, 1000] {
            let mut buffer: Vec<u8> = (0..to.len() + more).map(|at| at as u8).collect();
            let before = buffer.clone();
            assert_eq!(move_form(from, &mut buffer), (0, to.len()));
            assert_eq!(buffer[..to.len()], to[..]);
            assert_eq!(buffer[to.len()..], before[to.len()..]);
        }
    }
}

#[test]
fn a_full_device_moves() {
    let mut fields = FULL[..22].to_vec();
    fields.push(64);
    for handle in 1..=64 {
        fields.extend([handle, 1, handle, 0, 0, 0, 0, 0, 0, 0, 0, 0]);
    }
    let old = file(&fields);
    let form_2 = moved(&old);
    assert_eq!(form_2.len(), old.len() + 16);
    assert_eq!(moved(&form_2), numbered(&old));
}
