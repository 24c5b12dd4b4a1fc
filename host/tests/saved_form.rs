//! docs/SAVED-DESK.md, which publishes the forms: its tables and its examples are held against the crate and desks that were played.
mod current;

use current::ticket;
use zelezmut::guest::{self, Backing, Descriptor, Entry, Packet, Part, Shape};
use zelezmut::saved::{self, NotMoved};
use zelezmut::{registers, BadFile, Desk, Ended, FileField, FileLayout, Form, HostAnswer};
use zelezmut::{NameField, Refused, ResourceField, TokenField};

const PAGE: &str = include_str!("../../docs/SAVED-DESK.md");

const MEMORY: usize = 32_768;
const TABLE: usize = 1024;
const STREAM: usize = 2048;
const RING: u32 = 4096;
const FENCE_PAGE: u32 = 8192;
const SLOTS: u32 = 4;

/// The rows of the table behind a heading, without its head: the cells of each.
fn rows(heading: &str) -> Vec<Vec<&'static str>> {
    let behind = PAGE.split(heading).nth(1).expect("a heading of the page");
    let table = behind.lines().skip_while(|line| !line.starts_with("|---"));
    let rows = table.skip(1).take_while(|line| line.starts_with('|'));
    rows.map(|row| row.trim_matches('|').split('|').map(str::trim).collect())
        .collect()
}

/// The page's listings, in its order.
const FORM_1: usize = 0;
const OLD: usize = 1;
const MOVED: usize = 2;
const FORM_2: usize = 3;

/// A listing's bytes: of each line the offset, four bytes and what they say.
fn listing(index: usize) -> Vec<u8> {
    let listing = PAGE.split("```").nth(2 * index + 1).expect("a listing");
    let mut bytes = Vec::new();
    for line in listing.lines().filter(|line| !line.is_empty()) {
        let (offset, rest) = line.split_once(':').expect("an offset");
        assert_eq!(offset.trim().parse(), Ok(bytes.len()), "{}", line);
        let (field, comment) = rest.trim_start().split_at(11);
        assert!(comment.trim().len() > 3, "{}", line);
        let digits = field.split(' ').map(|two| u8::from_str_radix(two, 16));
        bytes.extend(digits.map(|byte| byte.expect("a byte")));
        assert_eq!(bytes.len() % 4, 0, "{}", line);
    }
    bytes
}

/// The driver submits packets, and the host gives this answer.
fn submit(desk: &mut Desk, memory: &mut [u8], fence: u32, packets: &[Packet], answer: HostAnswer) {
    let table = guest::table(&[Entry {
        id: 5,
        gpa: 16_384,
        size: 8192,
        read_only: false,
    }]);
    let stream = guest::stream(packets);
    let submission = Descriptor {
        commands: Part::of(STREAM as u64, &stream),
        table: Part::of(TABLE as u64, &table),
        fence: fence.into(),
        silent: false,
    };
    let slot = RING as usize + guest::slot_offset(fence - 1);
    guest::put(memory, slot, &submission.to_bytes());
    guest::put(memory, TABLE, &table);
    guest::put(memory, STREAM, &stream);
    guest::put_tail(memory, RING as usize, fence);
    desk.write(registers::DOORBELL, 1).unwrap();
    if desk.run(memory, 100).unwrap().ended == Ended::Waiting {
        desk.answer(memory, ticket(desk), answer, 100).unwrap();
    }
}

/// A texture that lives with the host.
const HOSTED: Shape = Shape {
    format: 64,
    width: 16,
    height: 8,
    mips: 5,
    layers: 6,
    pitch: 0,
};

/// A texture in guest memory.
const BACKED: Shape = Shape {
    format: 1,
    width: 5,
    height: 3,
    mips: 3,
    layers: 1,
    pitch: 20,
};

/// What the guest makes in the example, in another order than the file's.
const CREATES: [Packet; 3] = [
    Packet::CreateTexture {
        handle: 9,
        shape: HOSTED,
        backing: None,
    },
    Packet::CreateBuffer {
        handle: 1,
        size: 256,
        backing: Some(Backing { id: 5, offset: 64 }),
    },
    Packet::CreateTexture {
        handle: 2,
        shape: BACKED,
        backing: Some(Backing { id: 5, offset: 512 }),
    },
];

/// What the guests make in the example of form 2, and what becomes of it.
const SHARES: [Packet; 7] = [
    Packet::CreateBuffer {
        handle: 3,
        size: 256,
        backing: None,
    },
    Packet::CreateTexture {
        handle: 2,
        shape: Shape { mips: 1, ..BACKED },
        backing: Some(Backing { id: 5, offset: 512 }),
    },
    Packet::Export {
        handle: 2,
        token: 5_000_000_000,
    },
    Packet::Import {
        handle: 7,
        token: 5_000_000_000,
    },
    Packet::CreateTexture {
        handle: 9,
        shape: Shape {
            mips: 1,
            layers: 1,
            ..HOSTED
        },
        backing: None,
    },
    Packet::Export {
        handle: 9,
        token: 77,
    },
    Packet::Destroy { handle: 9 },
];

/// A desk whose driver has set it up.
fn set_up(memory: &mut [u8]) -> Desk {
    guest::put(memory, RING as usize, &guest::ring(SLOTS, 0, 0));
    let mut desk = Desk::new(MEMORY);
    for (offset, value) in [
        (registers::RING_GPA_LO, RING),
        (registers::RING_SIZE, guest::ring_size(SLOTS)),
        (registers::FENCE_GPA_LO, FENCE_PAGE),
        (registers::IRQ_ENABLE, 3),
        (registers::CONTROL, registers::CONTROL_ENABLE),
    ] {
        desk.write(offset, value).unwrap();
    }
    desk
}

/// The desk of the example of form 1.
fn played() -> Desk {
    let mut memory = vec![0; MEMORY];
    let mut desk = set_up(&mut memory);
    let destroy = [Packet::Destroy { handle: 9 }];
    submit(&mut desk, &mut memory, 1, &CREATES, HostAnswer::Good);
    submit(&mut desk, &mut memory, 2, &destroy, HostAnswer::Failed);
    desk.write(registers::IRQ_ACK, registers::IRQ_FENCE)
        .unwrap();
    desk.write(registers::DOORBELL, 1).unwrap();
    desk
}

/// The desk of the example of form 2.
fn shared() -> Desk {
    let mut memory = vec![0; MEMORY];
    let mut desk = set_up(&mut memory);
    let destroy = [Packet::Destroy { handle: 9 }];
    submit(&mut desk, &mut memory, 1, &SHARES, HostAnswer::Good);
    submit(&mut desk, &mut memory, 2, &destroy, HostAnswer::Good);
    desk
}

#[test]
fn the_examples_are_loaded_and_saved_again() {
    for (index, form) in [(FORM_1, Form::One), (MOVED, Form::Two), (FORM_2, Form::Two)] {
        let file = listing(index);
        let desk = Desk::from_saved(&file).unwrap();
        assert_eq!(desk.save_as(form), Ok(file));
    }
}

#[test]
fn the_examples_are_what_a_desk_is_saved_as() {
    for (desk, index, form) in [
        (played(), FORM_1, Form::One),
        (shared(), FORM_2, Form::Two),
        (Desk::new(MEMORY), MOVED, Form::Two),
    ] {
        assert_eq!(desk.save_as(form), Ok(listing(index)));
        assert_eq!(Desk::from_saved(&listing(index)), Ok(desk));
    }
}

#[test]
fn the_old_file_is_loaded_and_moved() {
    let (old, moved) = (listing(OLD), listing(MOVED));
    assert_eq!(Desk::from_saved(&old), Ok(Desk::new(MEMORY)));
    assert_eq!(saved::move_form(&old), Ok(moved.clone()));
    let back = saved::move_form(&moved).unwrap();
    assert_eq!(back, [&[1, 0, 0, 0], &old[..]].concat());
    assert_eq!(Desk::new(MEMORY).save(), Ok(back));
    for (index, length) in [(FORM_1, 252), (FORM_2, 0)] {
        let moved = saved::move_form(&listing(index));
        assert_eq!(moved.map_or(0, |file| file.len()), length);
    }
}

/// Each field of a section in its place, with its name and its rule.
fn assert_part(heading: &str, layout: FileLayout, fields: &[(FileField, String)]) {
    let rows = rows(heading);
    assert_eq!(rows.len(), fields.len());
    let first = layout.place(fields[0].0).unwrap();
    for (row, (field, words)) in rows.iter().zip(fields) {
        let offset = format!("+{}", layout.place(*field).unwrap() - first);
        assert_eq!(row[..3], [offset.as_str(), words, field.rule()]);
    }
}

#[test]
fn the_tables_of_the_sections_have_every_field() {
    let layout = FileLayout::of(&listing(FORM_2));
    let index = 0;
    let resources =
        ResourceField::ALL.map(|field| (FileField::Resource { index, field }, field.to_string()));
    assert_part("### Section 2", layout, &resources);
    let names = NameField::ALL.map(|field| (FileField::Name { index, field }, field.to_string()));
    assert_part("### Section 3", layout, &names);
    let tokens =
        TokenField::ALL.map(|field| (FileField::Token { index, field }, field.to_string()));
    assert_part("### Section 4", layout, &tokens);
    for count in [
        FileField::ResourceCount,
        FileField::NameCount,
        FileField::TokenCount,
    ] {
        assert!(PAGE.contains(&format!("{}: {}", count, count.rule())));
    }
}

#[test]
fn the_table_of_section_1_has_every_field_in_its_place_with_its_rule() {
    let rows = rows("### Section 1");
    let layouts = [FORM_1, FORM_2].map(|index| FileLayout::of(&listing(index)));
    let last = layouts[1].place(FileField::ResourceCount).unwrap();
    let fields = (0..last).step_by(4).map(|at| layouts[1].field(at).unwrap());
    assert_eq!(rows.len(), last / 4);
    for (row, field) in rows.iter().zip(fields) {
        let counted = matches!(field, FileField::NumberCount(_));
        let in_form_1 = if counted {
            FileField::NumberCount(Form::One)
        } else {
            field
        };
        let places = [layouts[0].place(in_form_1), layouts[1].place(field)];
        let places = places.map(|place| place.map_or(String::new(), |place| place.to_string()));
        let rule = if counted {
            format!("{} in form 1, {} in form 2", in_form_1.rule(), field.rule())
        } else {
            field.rule().to_string()
        };
        let [one, two] = &places;
        assert_eq!(row[..4], [one.as_str(), two, &field.to_string(), &rule]);
    }
}

#[test]
fn the_lengths_are_the_forms() {
    for (form, words) in [
        (Form::One, "3,168 bytes at most"),
        (Form::Two, "6,252 bytes at most"),
    ] {
        assert!(PAGE.contains(words));
        let digits: String = words.chars().filter(char::is_ascii_digit).collect();
        assert_eq!(digits.parse(), Ok(form.longest()));
    }
    for (index, form, words) in [
        (FORM_1, "form 1", "240 bytes"),
        (OLD, "old", "92 bytes"),
        (MOVED, "moved", "108 bytes"),
        (FORM_2, "form 2", "236 bytes"),
    ] {
        let length = format!("{} bytes", listing(index).len());
        assert_eq!(length, words, "{}", form);
        assert!(PAGE.contains(words));
    }
}

#[test]
fn the_answers_are_the_crates() {
    let numbers: Vec<u32> = rows("## Answers")
        .iter()
        .map(|row| row[0].parse().unwrap())
        .collect();
    let bad = NotMoved::BadFile(BadFile::GoesOn { place: 0 });
    let moving = [bad, NotMoved::NotInForm, NotMoved::TooShort].map(NotMoved::number);
    assert_eq!(numbers[1..], moving);
    let saving = [Refused::InWork, Refused::NotInForm, Refused::TooShort].map(Refused::number);
    assert_eq!(saving, [numbers[0], numbers[2], numbers[3]].map(Some));
}
