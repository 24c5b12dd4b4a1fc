//! A file moves to the other form and back: to equal bytes where it can, and with the right refusal where it cannot.
mod current;
mod night;

use current::ticket;
use night::Night;
use zelezmut::guest::{Packet, Shape};
use zelezmut::saved::{self, NotMoved};
use zelezmut::{BadFile, Desk, Form, HostAnswer};

const SHAPE: Shape = Shape {
    format: 1,
    width: 5,
    height: 3,
    mips: 1,
    layers: 1,
    pitch: 0,
};

/// A desk after a submission of these packets.
fn after(packets: &[Packet]) -> Desk {
    let mut night = Night::new();
    night.submit(1, &[5], packets);
    night.run(100);
    let _ = night.answer(ticket(&night.desk), HostAnswer::Good, 100);
    night.desk
}

fn texture(handle: u32) -> Packet {
    Packet::CreateTexture {
        handle,
        shape: SHAPE,
        backing: None,
    }
}

/// Desks that form 1 can hold.
fn plain_desks() -> Vec<Desk> {
    vec![
        Desk::new(0),
        Desk::new(usize::MAX),
        after(&[texture(7), texture(3)]),
    ]
}

/// Desks that it cannot: a token that is bound, one that is spent, and a detail.
fn desks_beyond_form_1() -> Vec<Desk> {
    let export = Packet::Export {
        handle: 3,
        token: 9,
    };
    let import = Packet::Import {
        handle: 1,
        token: 9,
    };
    let release = Packet::Release { token: 9 };
    vec![
        after(&[texture(3), export]),
        after(&[texture(3), export, import]),
        after(&[texture(3), export, release]),
        after(&[texture(3), export, Packet::Destroy { handle: 3 }]),
        after(&[Packet::Destroy { handle: 3 }]),
    ]
}

#[test]
fn every_file_of_form_1_moves_to_form_2_and_back() {
    for desk in plain_desks() {
        let [one, two] = Form::ALL.map(|form| desk.save_as(form).unwrap());
        assert_eq!(saved::move_form(&one), Ok(two.clone()));
        assert_eq!(saved::move_form(&two), Ok(one.clone()));
        // An old file gets its number on the way.
        assert_eq!(saved::move_form(&one[4..]), Ok(two.clone()));
        for file in [&one[..], &one[4..], &two] {
            assert_eq!(Desk::from_saved(file).as_ref(), Ok(&desk));
        }
    }
}

#[test]
fn what_form_1_cannot_hold_stays_in_form_2() {
    for desk in desks_beyond_form_1() {
        let file = desk.save_as(Form::Two).unwrap();
        assert_eq!(Desk::from_saved(&file), Ok(desk));
        assert_eq!(saved::move_form(&file), Err(NotMoved::NotInForm));
        for length in [0, 95, 10_000] {
            let mut buffer = vec![0xAA; length];
            let refused = saved::move_form_into(&file, &mut buffer);
            assert_eq!(refused, Err(NotMoved::NotInForm));
            assert!(buffer.iter().all(|&byte| byte == 0xAA));
        }
    }
}

/// No run leaves a second name without a token, but a file may have one.
#[test]
fn another_name_alone_keeps_a_file_in_form_2() {
    let desk = after(&[texture(3)]);
    let mut file = desk.save_as(Form::Two).unwrap();
    let names = file.len() - 8;
    file[names] = 1;
    let pair = [8, 0, 0, 0, 3, 0, 0, 0];
    file.splice(names + 4..names + 4, pair);
    assert_eq!(Desk::from_saved(&file).unwrap().names(), [(3, 3), (8, 3)]);
    assert_eq!(saved::move_form(&file), Err(NotMoved::NotInForm));
}

#[test]
fn a_bad_file_comes_first_and_a_short_buffer_last() {
    for desk in plain_desks() {
        for form in Form::ALL {
            let file = desk.save_as(form).unwrap();
            let moved = desk.save_as(form.other()).unwrap();
            for length in [0, 1, moved.len() - 1, moved.len(), moved.len() + 9] {
                let mut buffer = vec![0xAA; length];
                let said = saved::move_form_into(&file, &mut buffer);
                let fits = length >= moved.len();
                let expected = if fits {
                    Ok(moved.len())
                } else {
                    Err(NotMoved::TooShort)
                };
                assert_eq!(said, expected);
                let written = said.unwrap_or(0);
                assert_eq!(buffer[..written], moved[..written]);
                assert!(buffer[written..].iter().all(|&byte| byte == 0xAA));
            }
            let longer = [&file[..], &[0]].concat();
            let bad = NotMoved::BadFile(BadFile::GoesOn { place: file.len() });
            assert_eq!(saved::move_form_into(&longer, &mut []), Err(bad));
        }
    }
    let file = desks_beyond_form_1()[0].save_as(Form::Two).unwrap();
    let short = saved::move_form(&file[..file.len() - 1]).unwrap_err();
    assert_eq!(short.number(), 7);
    assert_eq!(
        short.to_string(),
        "a field is missing at byte 164, the name of token 0"
    );
}
