//! Form 2: names, tokens and the error detail are saved and loaded, and what breaks a rule of theirs is told at its field.
mod current;
mod night;

use current::ticket;
use night::Night;
use zelezmut::guest::{Packet, Shape};
use zelezmut::saved::{self, NotMoved};
use zelezmut::{BadFile, Desk, Ended, FileField, FileLayout, Form, HostAnswer, NameField};
use zelezmut::{Place, Refused, TokenField};

const SHAPE: Shape = Shape {
    format: 1,
    width: 5,
    height: 3,
    mips: 1,
    layers: 1,
    pitch: 0,
};

fn texture(handle: u32, mips: u32, layers: u32) -> Packet {
    let shape = Shape {
        mips,
        layers,
        ..SHAPE
    };
    Packet::CreateTexture {
        handle,
        shape,
        backing: None,
    }
}

fn export(handle: u32, token: u64) -> Packet {
    Packet::Export { handle, token }
}

fn import(handle: u32, token: u64) -> Packet {
    Packet::Import { handle, token }
}

/// Plays a submission to its end.
fn play(night: &mut Night, packets: &[Packet]) {
    night.submit(1, &[5], packets);
    if night.run(100) == Ended::Waiting {
        let ticket = ticket(&night.desk);
        night.answer(ticket, HostAnswer::Good, 100).unwrap();
    }
}

/// Texture 2, also 4 and 9, and texture 6, also 7; token 5 bound to 2, tokens 8 and 2^32 spent. Beside them 10, of two mips, 12, of two layers, and
/// buffer 14.
fn shared() -> Night {
    let mut night = Night::new();
    let buffer = Packet::CreateBuffer {
        handle: 14,
        size: 1,
        backing: None,
    };
    play(&mut night, &[texture(2, 1, 1), texture(6, 1, 1), buffer]);
    play(&mut night, &[texture(10, 2, 1), texture(12, 1, 2)]);
    play(&mut night, &[export(2, 5), import(9, 5), import(4, 5)]);
    play(&mut night, &[export(6, 8), import(7, 8)]);
    let release = Packet::Release { token: 8 };
    let last = [texture(20, 1, 1), export(20, 1 << 32), release];
    play(&mut night, &last);
    play(&mut night, &[Packet::Destroy { handle: 20 }]);
    assert_eq!(night.desk.last_error(), None);
    night
}

// Its resources are 2, 6, 10, 12 and 14; then come the pairs 4, 7 and 9, and the tokens 5, 8 and 2^32.
const RESOURCES: usize = 100;
const NAMES: usize = RESOURCES + 5 * 48;
const TOKENS: usize = NAMES + 4 + 3 * 8;
const END: usize = TOKENS + 4 + 3 * 12;

/// Where the other name of a pair stands, and the LO of a token; the other fields stand 4 and 8 bytes behind.
fn pair(index: usize) -> usize {
    NAMES + 4 + 8 * index
}

fn token(index: usize) -> usize {
    TOKENS + 4 + 12 * index
}

/// The file with some of its fields changed.
fn with(changes: &[(usize, u32)]) -> Vec<u8> {
    let mut file = shared().desk.save_as(Form::Two).unwrap();
    for &(at, value) in changes {
        file[at..at + 4].copy_from_slice(&value.to_le_bytes());
    }
    file
}

/// Where the file with these changes breaks a rule.
fn broken(changes: &[(usize, u32)]) -> Option<usize> {
    let file = with(changes);
    let mut desk = shared().desk;
    let bad = desk.load(&file).err()?;
    assert_eq!(desk, shared().desk);
    let (field, place) = (bad.field().unwrap(), bad.place());
    assert_eq!(bad, BadFile::BreaksRule { field, place });
    assert_eq!(FileLayout::of(&file).field(place), Some(field));
    assert_eq!(saved::move_form(&file), Err(NotMoved::BadFile(bad)));
    Some(place)
}

#[test]
fn names_tokens_and_the_detail_come_back() {
    let mut night = shared();
    let file = with(&[]);
    assert_eq!(file.len(), END);
    assert_eq!(Desk::from_saved(&file).as_ref(), Ok(&night.desk));
    assert_eq!(night.desk.save(), Err(Refused::NotInForm));
    play(&mut night, &[Packet::Destroy { handle: 99 }]);
    let file = night.desk.save_as(Form::Two).unwrap();
    let loaded = Desk::from_saved(&file).unwrap();
    assert_eq!(loaded, night.desk);
    assert_eq!(loaded.last_error().unwrap().place, Place::Packet(24));
    let names = [
        (2, 2),
        (4, 2),
        (6, 6),
        (7, 6),
        (9, 2),
        (10, 10),
        (12, 12),
        (14, 14),
    ];
    assert_eq!(loaded.names(), names);
    let tokens = [(5, Some(2)), (8, None), (1 << 32, None)];
    assert_eq!(loaded.tokens(), tokens);
}

#[test]
fn a_desk_that_has_moved_plays_on_as_it_would_have() {
    let mut stayed = shared();
    let mut moved = stayed.clone();
    moved.desk = Desk::from_saved(&with(&[])).unwrap();
    for packets in [
        &[Packet::Destroy { handle: 2 }, import(1, 5)][..],
        &[export(6, 5)],
        &[export(1, 8)],
        &[import(30, 1 << 32)],
        &[Packet::Release { token: 5 }, Packet::Destroy { handle: 4 }],
        &[import(31, 5)],
    ] {
        for night in [&mut stayed, &mut moved] {
            play(night, packets);
        }
        assert_eq!(stayed.memory, moved.memory);
        assert_eq!(stayed.desk, moved.desk);
    }
    assert_eq!(stayed.desk.last_error().unwrap().count, 4);
}

#[test]
fn saving_is_refused_in_work_and_for_a_short_buffer_alone() {
    let mut night = shared();
    let file = with(&[]);
    for length in [0, 1, END - 1, END, END + 1, 10_000] {
        let mut buffer = vec![0xAA; length];
        let saved = night.desk.save_as_into(Form::Two, &mut buffer);
        if length < END {
            assert_eq!(saved, Err(Refused::TooShort));
            assert!(buffer.iter().all(|&byte| byte == 0xAA));
        } else {
            assert_eq!(saved, Ok(END));
            assert_eq!(buffer[..END], file);
            assert!(buffer[END..].iter().all(|&byte| byte == 0xAA));
        }
    }
    night.submit(1, &[5], &[]);
    night.run(1);
    assert_eq!(night.desk.save_as(Form::Two), Err(Refused::InWork));
    let refused = night.desk.save_as_into(Form::Two, &mut []);
    assert_eq!(refused, Err(Refused::InWork));
}

#[test]
fn the_number_tells_the_form() {
    assert_eq!(broken(&[]), None);
    // In form 1 the count would be 21; any other number makes it an old file, whose count it is not.
    assert_eq!(broken(&[(0, 1)]), Some(4));
    for number in [0, 3, 22, u32::MAX] {
        assert_eq!(broken(&[(0, number)]), Some(0));
    }
    // An old file of form 1, but for its detail, is too long.
    assert_eq!(broken(&[(0, 21)]), Some(4));
    for count in [0, 21, 23] {
        assert_eq!(broken(&[(4, count)]), Some(4));
    }
}

#[test]
fn the_detail_is_0_with_error_code_0() {
    for detail in [1, u32::MAX] {
        assert_eq!(broken(&[(80, detail)]), Some(80));
        // Beside an error any detail is good, also one that has no place.
        for code in [10, 14, 18, 30] {
            assert_eq!(broken(&[(64, code), (76, 1), (80, detail)]), None);
        }
        // What stands before comes first.
        assert_eq!(broken(&[(76, 1), (80, detail)]), Some(76));
    }
}

#[test]
fn other_names_are_new_and_rise() {
    for (index, good, bad) in [
        (0, &[3, 4, 5][..], &[0, 2, 6, 7, 10, 14][..]),
        (1, &[5, 7, 8], &[0, 4, 9, 10, 100]),
        (2, &[8, 9, 11, u32::MAX], &[0, 7, 10, 12, 14]),
    ] {
        for &name in good {
            // The second pair is of 6, which 5 is not above.
            let at = Some(pair(1) + 4).filter(|_| (index, name) == (1, 5));
            assert_eq!(broken(&[(pair(index), name)]), at, "{} at {}", name, index);
        }
        for &name in bad {
            // A name that is too high is told at the next one, which does not rise.
            let at = match (index, name) {
                (0, 7) | (1, 9 | 100) => pair(index + 1),
                _ => pair(index),
            };
            assert_eq!(
                broken(&[(pair(index), name)]),
                Some(at),
                "{} at {}",
                name,
                index
            );
        }
    }
}

#[test]
fn a_lowest_name_is_below_and_may_be_shared() {
    for (index, good, bad) in [
        (0, &[2][..], &[0, 1, 4, 6, 7, 10, u32::MAX][..]),
        (1, &[2, 6], &[0, 4, 7, 9, 10]),
        (2, &[2, 6], &[0, 4, 7, 9, 10, 12, 14]),
    ] {
        for &lowest in good {
            assert_eq!(broken(&[(pair(index) + 4, lowest)]), None);
        }
        for &lowest in bad {
            let at = pair(index) + 4;
            assert_eq!(broken(&[(at, lowest)]), Some(at), "{} at {}", lowest, at);
        }
    }
    // Above the buffer and those of two mips and two layers, which may not be shared.
    for lowest in [10, 12, 14] {
        let changes = [(pair(2), 15), (pair(2) + 4, lowest)];
        assert_eq!(broken(&changes), Some(pair(2) + 4));
    }
}

#[test]
fn tokens_are_not_0_and_rise() {
    assert_eq!(broken(&[(token(0), 0)]), Some(token(0) + 4));
    for (low, bad) in [
        (1, None),
        (7, None),
        (8, Some(token(1) + 4)),
        (9, Some(token(1) + 4)),
    ] {
        assert_eq!(broken(&[(token(0), low)]), bad);
    }
    // As numbers of 64 bits: the third is 2^32, whose low half is 0.
    assert_eq!(broken(&[(token(1) + 4, 1)]), Some(token(2) + 4));
    assert_eq!(broken(&[(token(1), u32::MAX)]), None);
    assert_eq!(
        broken(&[(token(2), 8), (token(2) + 4, 0)]),
        Some(token(2) + 4)
    );
    assert_eq!(broken(&[(token(2), 9), (token(2) + 4, 0)]), None);
}

#[test]
fn a_token_is_spent_or_bound_to_a_lowest_name() {
    for index in 0..3 {
        let at = token(index) + 8;
        for name in [0, 2, 6] {
            assert_eq!(broken(&[(at, name)]), None);
        }
        for name in [1, 4, 7, 9, 10, 12, 14, 20, u32::MAX] {
            assert_eq!(broken(&[(at, name)]), Some(at), "{} at {}", name, index);
        }
    }
}

#[test]
fn counts_are_judged_before_what_they_count() {
    for (names, bad) in [(60, Some(NAMES)), (u32::MAX, Some(NAMES))] {
        assert_eq!(broken(&[(NAMES, names), (pair(0), 0)]), bad);
    }
    for tokens in [257, u32::MAX] {
        assert_eq!(broken(&[(TOKENS, tokens), (token(0), 0)]), Some(TOKENS));
    }
    // Fewer pairs than there are: the next one is read as section 4.
    let missing = Desk::from_saved(&with(&[(TOKENS, 4)])).unwrap_err();
    let (index, field) = (3, TokenField::Lo);
    let field = FileField::Token { index, field };
    assert_eq!(missing, BadFile::Missing { field, place: END });
    let goes_on = Desk::from_saved(&with(&[(TOKENS, 2)])).unwrap_err();
    assert_eq!(goes_on, BadFile::GoesOn { place: END - 12 });
}

#[test]
fn a_file_that_is_cut_misses_the_field_at_the_cut() {
    let file = with(&[]);
    let layout = FileLayout::of(&file);
    for cut in 0..file.len() {
        let place = cut / 4 * 4;
        let field = layout.field(place).unwrap();
        let missing = BadFile::Missing { field, place };
        assert_eq!(Desk::from_saved(&file[..cut]), Err(missing));
    }
    let (index, field) = (1, NameField::Lowest);
    let lowest = FileField::Name { index, field };
    assert_eq!(layout.place(lowest), Some(pair(1) + 4));
    let longer = [&file[..], &[0]].concat();
    let goes_on = BadFile::GoesOn { place: END };
    assert_eq!(Desk::from_saved(&longer), Err(goes_on));
}

/// 64 names and 256 tokens, as far as they go.
#[test]
fn the_longest_file_is_loaded() {
    let mut fields: Vec<u32> = with(&[])[..96]
        .chunks_exact(4)
        .map(|field| u32::from_le_bytes(field.try_into().unwrap()))
        .collect();
    fields.push(64);
    for handle in 1..=64 {
        fields.extend([handle, 2, 0, 0, 1, 5, 3, 1, 1, 0, 0, 0]);
    }
    fields.extend([0, 256]);
    for token in 1..=256 {
        fields.extend([0, token, token % 65]);
    }
    let file: Vec<u8> = fields
        .iter()
        .flat_map(|field| field.to_le_bytes())
        .collect();
    assert_eq!(file.len(), Form::Two.longest());
    let desk = Desk::from_saved(&file).unwrap();
    assert_eq!((desk.names().len(), desk.tokens().len()), (64, 256));
    assert_eq!(desk.save_as(Form::Two), Ok(file));
}
