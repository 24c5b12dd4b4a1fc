//! The program `show_desk`, called as a user calls it: a saved desk in words, and what is wrong with a file that is none.
mod current;
mod night;
mod project;

use current::ticket;
use night::{Night, MEMORY};
use project::{started, Folder};
use std::fs;
use std::path::Path;
use zelezmut::guest::{Backing, Packet, Shape};
use zelezmut::{registers, Desk, Form, HostAnswer};

const SHOWN: &str = include_str!("shown_desk.txt");

struct Said {
    status: Option<i32>,
    out: String,
    err: String,
}

fn show(words: &[&str]) -> Said {
    let mut command = started(Path::new(env!("CARGO_BIN_EXE_show_desk")));
    let output = command.args(words).output().expect("it can be started");
    Said {
        status: output.status.code(),
        out: String::from_utf8(output.stdout).expect("text"),
        err: String::from_utf8(output.stderr).expect("text"),
    }
}

/// Shows a file of these bytes, by its name alone where that stands in a message.
fn shown(bytes: &[u8]) -> Said {
    let folder = Folder::new("show-desk");
    let file = folder.path("desk");
    fs::write(&file, bytes).expect("a file can be written");
    let name = file.to_str().expect("a path of text");
    let mut said = show(&[name]);
    said.err = said.err.replace(name, "desk");
    said
}

fn texture(handle: u32, mips: u32, backing: Option<Backing>) -> Packet {
    let shape = Shape {
        format: 64,
        width: 16,
        height: 8,
        mips,
        layers: mips,
        pitch: 64,
    };
    Packet::CreateTexture {
        handle,
        shape,
        backing,
    }
}

/// A night with resources of all kinds, one of three names, a token that is bound and one that is spent, and an error.
fn night() -> Night {
    let backing = Some(Backing { id: 5, offset: 512 });
    let import = |handle| Packet::Import {
        handle,
        token: 5_000_000_000,
    };
    let packets = [
        texture(9, 3, None),
        texture(2, 1, backing),
        Packet::CreateBuffer {
            handle: 3,
            size: 1,
            backing: None,
        },
        Packet::Export {
            handle: 2,
            token: 5_000_000_000,
        },
        import(40),
        import(7),
        Packet::Export {
            handle: 2,
            token: 77,
        },
        Packet::Release { token: 77 },
    ];
    let mut night = Night::new();
    night.submit(1, &[5], &packets);
    night.run(100);
    let ticket = ticket(&night.desk);
    night.answer(ticket, HostAnswer::Good, 100).unwrap();
    night.submit(2, &[5], &[Packet::Destroy { handle: 99 }]);
    night.run(100);
    night.write(registers::DOORBELL, 1);
    night
}

#[test]
fn a_desk_of_form_2_is_shown_whole() {
    let said = shown(&night().desk.save_as(Form::Two).unwrap());
    for (i, (line, stored)) in said.out.lines().zip(SHOWN.lines()).enumerate() {
        assert_eq!(line, stored, "line {}", i + 1);
    }
    assert_eq!(said.out, SHOWN);
    assert_eq!((said.status, said.err.as_str()), (Some(0), ""));
}

#[test]
fn form_1_and_an_old_file_are_shown_with_what_they_have() {
    let file = Desk::new(MEMORY).save().unwrap();
    let (one, old) = (shown(&file), shown(&file[4..]));
    assert_eq!((one.status, old.status), (Some(0), Some(0)));
    let behind = |said: &Said| said.out.split_once('\n').map(|(_, rest)| rest.to_string());
    assert_eq!(behind(&one), behind(&old));
    assert!(one.out.starts_with(
        "A saved desk of form 1: 96 bytes.\n\
         It is for a memory of 16384 bytes.\n\
         The doorbell flag is 0: nothing has rung since the device last looked.\n\
         Errors: none.\n"
    ));
    let title = "A saved desk of form 1, from before files had numbers: 92 bytes.\n";
    assert!(old.out.starts_with(title), "{}", old.out);
    assert!(one.out.ends_with(
        "\n\nResources: 0, names: 0 of 64\n\nTokens: none, as in every desk of form 1\n"
    ));
}

#[test]
fn a_bad_file_is_told_by_its_place_and_its_field() {
    let file = night().desk.save_as(Form::Two).unwrap();
    let mut spoilt = file.clone();
    spoilt[252] = 9;
    let long = [&file[..], &[0; 10_000]].concat();
    for (bytes, words) in [
        (
            &spoilt[..],
            "a rule is broken at byte 252, the lowest name of pair 0: below the other name, and of section 2 a texture with one mip and one layer",
        ),
        (&file[..100], "a field is missing at byte 100, the handle of resource 0"),
        (&long, "the file goes on at byte 292, behind its last field"),
        (b"", "a field is missing at byte 0, the form's number"),
        (
            b"This is no saved desk.",
            "a rule is broken at byte 0, the form's number: 1 or 2, or 21 in an old file, whose count of section 1 this is",
        ),
    ] {
        let said = shown(bytes);
        assert_eq!(said.err, format!("show_desk: desk: no saved desk: {}\n", words));
        assert_eq!((said.status, said.out.as_str()), (Some(1), ""));
    }
}

#[test]
fn what_it_is_not_called_with_is_told() {
    let said = show(&["there/is/no/such.desk"]);
    assert_eq!((said.status, said.out.as_str()), (Some(1), ""));
    let words = "show_desk: there/is/no/such.desk: cannot be read: ";
    assert!(said.err.starts_with(words), "{}", said.err);
    let help = show(&["--help"]);
    assert_eq!((help.status, help.err.as_str()), (Some(0), ""));
    assert!(help.out.starts_with("usage: show_desk [--] FILE\n"));
    for words in [&[][..], &["one", "two"], &["--loud"], &["--"]] {
        let said = show(words);
        assert_eq!((said.status, said.out.as_str()), (Some(2), ""));
        assert_eq!(said.err, help.out);
    }
    let dashes = show(&["--", "--help"]);
    assert_eq!(dashes.status, Some(1));
    assert!(dashes.err.starts_with("show_desk: --help: cannot be read"));
}
