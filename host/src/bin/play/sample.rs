//! The sample night: thirteen submissions of one guest, and a host that is swapped twice between them, written as a desk script and played
//! like one, each line of the transcript with what it means. It is in two halves, since an example plays them in two programs.
use std::io::{self, Write};
use zelezmut::guest::{self, Backing, Clear, Descriptor, Entry, Packet, Part};
use zelezmut::guest::{Scissor, Shape, Viewport};
use zelezmut::script::{self, Operation, Player};
use zelezmut::{registers, FileField, FileLayout, Form, HostAnswer, NameField, Refused};

/// The bytes of the guest's memory.
pub const MEMORY: u32 = 16_384;

// Where the guest has put its things.
const RING: u32 = 0;
const SLOTS: u32 = 4;
/// The ring's tail, in its header.
const TAIL: u32 = RING + 28;
const FENCE_PAGE: u32 = 512;
const TABLE: u32 = 1024;
const WRONG_TABLE: u32 = 1536;
const STREAM: u32 = 2048;
const PICTURES: Entry = Entry {
    id: 5,
    gpa: 8192,
    size: 4096,
    read_only: false,
};
const RESULTS: Entry = Entry {
    id: 6,
    gpa: 12_288,
    size: 1024,
    read_only: false,
};

const TEXTURE: u32 = 1;
const SOURCE: u32 = 2;
const RESULT: u32 = 3;
const NEVER_MADE: u32 = 9;
/// The desktop's own names.
const WINDOW: u32 = 20;
const ANOTHER_WINDOW: u32 = 21;

/// What the program and the desktop know the shared texture by.
const TOKEN: u64 = 7_000_000_000;

const WALLPAPER: Shape = Shape {
    format: 1,
    width: 32,
    height: 16,
    mips: 1,
    layers: 1,
    pitch: 128,
};

/// As large as the wallpaper.
const WHOLE: Viewport = Viewport {
    x: 0.0,
    y: 0.0,
    width: 32.0,
    height: 16.0,
    near: 0.0,
    far: 1.0,
};

/// Its corner lies eight columns left of the wallpaper, and it ends far below.
const STRIP: Scissor = Scissor {
    x: -8,
    y: 4,
    width: 24,
    height: 100,
};

const BLUE: Clear = Clear {
    flags: 1,
    colour: [0.0, 0.0, 1.0, 1.0],
    depth: 1.0,
    stencil: 0,
};

/// An operation, and what its line means.
type Step = (Operation, &'static str);

/// Steps under one heading.
pub struct Scene {
    pub heading: &'static str,
    pub steps: Vec<Step>,
}

fn poke(address: u32, bytes: &[u8], meaning: &'static str) -> Step {
    let bytes = bytes.to_vec();
    (Operation::Poke { address, bytes }, meaning)
}

fn write(offset: u32, value: u32, meaning: &'static str) -> Step {
    (Operation::Write { offset, value }, meaning)
}

fn reset(meaning: &'static str) -> Step {
    write(registers::CONTROL, registers::CONTROL_RESET, meaning)
}

fn read(offset: u32, meaning: &'static str) -> Step {
    (Operation::Read { offset }, meaning)
}

fn run(allowance: u16, meaning: &'static str) -> Step {
    (Operation::Run { allowance }, meaning)
}

fn record(index: u32, meaning: &'static str) -> Step {
    (Operation::Record { index }, meaning)
}

fn answer(answer: HostAnswer, allowance: u16, meaning: &'static str) -> Step {
    (Operation::Answer { answer, allowance }, meaning)
}

fn save(form: Form, length: u32, meaning: &'static str) -> Step {
    (Operation::Save { form, length }, meaning)
}

fn load(file: &[u8], meaning: &'static str) -> Step {
    let file = file.to_vec();
    (Operation::Load { file }, meaning)
}

fn move_form(length: u32, file: &[u8], meaning: &'static str) -> Step {
    let file = file.to_vec();
    (Operation::Move { length, file }, meaning)
}

/// The guest writes submission `fence` into its slot, moves the tail and rings. Fences count from 1, and slots from 0.
fn submit(fence: u32, packets: &[Packet], meaning: &'static str) -> Vec<Step> {
    submit_stream(fence, &guest::stream(packets), meaning)
}

fn submit_stream(fence: u32, stream: &[u8], meaning: &'static str) -> Vec<Step> {
    let table = guest::table(&[PICTURES, RESULTS]);
    submit_parts(fence, Part::of(TABLE.into(), &table), stream, meaning)
}

/// The table is in guest memory already.
fn submit_parts(fence: u32, table: Part, stream: &[u8], meaning: &'static str) -> Vec<Step> {
    let slot = Descriptor {
        commands: Part::of(STREAM.into(), stream),
        table,
        fence: fence.into(),
        silent: false,
    };
    let place = RING + guest::slot_offset((fence - 1) % SLOTS) as u32;
    vec![
        poke(STREAM, stream, meaning),
        poke(
            place,
            &slot.to_bytes(),
            "the ring's next slot names stream, table and fence",
        ),
        poke(
            TAIL,
            &fence.to_le_bytes(),
            "the ring's tail moves on by one",
        ),
        write(registers::DOORBELL, 1, "and the doorbell rings"),
    ]
}

fn set_up() -> Scene {
    let table = guest::table(&[PICTURES, RESULTS]);
    Scene {
        heading: "The guest's driver finds the adapter and sets it up.",
        steps: vec![
            read(registers::MAGIC, "the bytes AGPU: this is the adapter"),
            read(registers::VERSION, "version 1.3: 1 times 65536, and 3"),
            poke(
                TABLE,
                &table,
                "a table of two entries: 5 for pictures, 6 for results",
            ),
            poke(
                RING,
                &guest::ring(SLOTS, 0, 0),
                "a ring of four slots, head and tail at 0",
            ),
            write(
                registers::RING_GPA_LO,
                RING,
                "the ring stands at 0 in guest memory",
            ),
            write(
                registers::RING_SIZE,
                guest::ring_size(SLOTS),
                "and is as long as its four slots ask for",
            ),
            write(
                registers::FENCE_GPA_LO,
                FENCE_PAGE,
                "the fence page stands at 512",
            ),
            write(
                registers::IRQ_ENABLE,
                registers::IRQ_FENCE | registers::IRQ_ERROR,
                "fences and errors shall interrupt",
            ),
            write(registers::CONTROL, registers::CONTROL_ENABLE, "go"),
            run(100, "nobody has rung: idle, and no unit is spent"),
        ],
    }
}

fn shared_texture() -> Scene {
    let create = Packet::CreateTexture {
        handle: TEXTURE,
        shape: WALLPAPER,
        backing: Some(Backing {
            id: PICTURES.id,
            offset: 256,
        }),
    };
    let dirty = Packet::DirtyRange {
        handle: TEXTURE,
        offset: 0,
        size: 2048,
    };
    // A newer driver's packet: what its last two fields mean is no business of the front's.
    let stream = guest::stream_of(&[create.grown(&[7, 77]), dirty.to_bytes()]);
    let mut steps = submit_stream(
        1,
        &stream,
        "a stream: create texture 1 (32 by 16, entry 5; two fields appended); it is dirty",
    );
    steps.extend([
        run(2, "two units: the opening, and the table's first entry"),
        run(
            100,
            "three more: an entry, two packets. Now the host's turn",
        ),
        record(0, "kind 1: texture 1 lives in entry 5, at 8448, 2048 bytes"),
        record(1, "kind 2: the guest has painted it, so the host reads it"),
        record(2, "there is no third record: answer 4"),
    ]);
    Scene {
        heading: "Submission 1 makes a texture in guest memory, and is run in two slices.",
        steps,
    }
}

fn readback() -> Scene {
    let mut steps = submit(
        2,
        &[
            Packet::CreateBuffer {
                handle: SOURCE,
                size: 1024,
                backing: None,
            },
            Packet::CreateBuffer {
                handle: RESULT,
                size: 512,
                backing: Some(Backing {
                    id: RESULTS.id,
                    offset: 0,
                }),
            },
            Packet::Unknown {
                opcode: 1537,
                size: 64,
            },
            Packet::CopyBuffer {
                destination: RESULT,
                source: SOURCE,
                destination_offset: 128,
                source_offset: 0,
                size: 256,
                writeback: true,
            },
        ],
        "a stream: buffers 2 and 3, a packet unknown to the front, a copy",
    );
    steps.extend([
        answer(
            HostAnswer::Good,
            100,
            "good: texture 1 is the device's. Then seven units of submission 2, until it waits",
        ),
        read(
            registers::COMPLETED_FENCE_LO,
            "fence 1 is finished, fence 2 is not",
        ),
        read(registers::IRQ_STATUS, "status bit 0: a fence"),
        record(
            0,
            "kind 1: buffer 3 lives in entry 6. Buffer 2 is the host's",
        ),
        record(1, "kind 3: the host writes 256 bytes of buffer 3, at 12416"),
        poke(
            12_416,
            &[0xA5; 256],
            "it does: here are the bytes that the guest reads back",
        ),
        answer(
            HostAnswer::Good,
            0,
            "good: buffers 2 and 3 are the device's. Allowance 0: the ring is not looked at again",
        ),
        read(registers::COMPLETED_FENCE_LO, "fence 2 is finished"),
    ]);
    Scene {
        heading:
            "Submission 2, a copy back to guest memory, comes while 1 waits: one call answers 1 and runs 2.",
        steps,
    }
}

fn refused_at_a_packet() -> Scene {
    let mut steps = submit(
        3,
        &[
            Packet::Destroy { handle: TEXTURE },
            Packet::DirtyRange {
                handle: NEVER_MADE,
                offset: 0,
                size: 16,
            },
        ],
        "a stream: destroy texture 1; handle 9 is dirty",
    );
    steps.extend([
        run(100, "five units to the refusal; a sixth finds no more work"),
        read(registers::ERROR_CODE, "error 18: handle 9 is not live"),
        read(
            registers::ERROR_DETAIL,
            "detail: the packet 40 bytes into the stream, after header and destroy",
        ),
        read(registers::ERROR_FENCE_LO, "of the submission with fence 3"),
        read(registers::COMPLETED_FENCE_LO, "its fence is finished, too"),
        read(registers::IRQ_STATUS, "bits 0 and 1: a fence, an error"),
        write(
            registers::IRQ_ACK,
            registers::IRQ_FENCE | registers::IRQ_ERROR,
            "the guest takes note of both",
        ),
        save(
            Form::One,
            256,
            "a desk saved in form 1 has no field for the detail: answer 8",
        ),
    ]);
    Scene {
        heading: "Submission 3 is refused: a packet names a resource that is not there.",
        steps,
    }
}

fn failed() -> Scene {
    let mut steps = submit(
        4,
        &[Packet::Destroy { handle: TEXTURE }],
        "a stream: destroy texture 1, which the refusal has kept alive",
    );
    steps.extend([
        run(100, "four units: opening, two entries, one packet"),
        record(0, "nothing to read or write: no record, answer 4"),
        save(
            Form::One,
            256,
            "and no saving while a submission is in work: answer 5",
        ),
        answer(
            HostAnswer::Failed,
            100,
            "but the host says that it failed, and carries on: a unit finds no more work",
        ),
        read(registers::ERROR_CODE, "error 27: the host failed"),
        read(
            registers::ERROR_DETAIL,
            "detail: 0 in place of 40, no entry and no packet is at fault",
        ),
        read(registers::ERROR_COUNT, "the second error of the night"),
        read(registers::COMPLETED_FENCE_LO, "fence 4 is finished"),
    ]);
    Scene {
        heading: "Submission 4 is failed by the host.",
        steps,
    }
}

/// A file in which a field has another number.
fn spoilt(file: &[u8], field: FileField, value: u8) -> Vec<u8> {
    let mut spoilt = file.to_vec();
    if let Some(place) = FileLayout::of(file).place(field) {
        spoilt[place] = value;
    }
    spoilt
}

/// Between two submissions another host takes over. It gets the file that the desk was saved as.
fn moved(file: &[u8]) -> Scene {
    let control = FileField::Register(registers::CONTROL);
    let spoilt = spoilt(file, control, 2);
    Scene {
        heading: "The host is swapped: the desk is saved, and loaded where another host takes over.",
        steps: vec![
            save(
                Form::One,
                100,
                "the detail is 0 by now, but a buffer of 100 bytes is too short: answer 6",
            ),
            save(
                Form::One,
                256,
                "240 bytes: 96, and 48 for each of texture 1 and buffers 2 and 3. Later bytes are kept",
            ),
            reset("the other host's device: it is reset, and has no resources"),
            read(registers::COMPLETED_FENCE_LO, "no fence is finished there"),
            load(
                &spoilt,
                "a file in which control is 2: answer 7; control stands at byte 36",
            ),
            load(
                &file[..100],
                "the first 100 bytes alone: the field at 100 is missing, a kind",
            ),
            load(file, "the file as it was saved"),
            read(registers::COMPLETED_FENCE_LO, "fence 4 is finished"),
            read(registers::CONTROL, "and the device is enabled"),
        ],
    }
}

fn refused_at_an_entry() -> Scene {
    let twice = Entry {
        id: PICTURES.id,
        ..RESULTS
    };
    let table = guest::table(&[PICTURES, twice]);
    let mut steps = vec![poke(
        WRONG_TABLE,
        &table,
        "another table: both of its entries have id 5",
    )];
    steps.extend(submit_parts(
        5,
        Part::of(WRONG_TABLE.into(), &table),
        &guest::stream(&[Packet::Destroy { handle: TEXTURE }]),
        "a stream: destroy texture 1",
    ));
    steps.extend([
        run(
            100,
            "three units to the refusal, before any packet; a fourth finds no work",
        ),
        read(
            registers::ERROR_CODE,
            "error 15: an id stands twice in the table",
        ),
        read(
            registers::ERROR_DETAIL,
            "detail: entry 1, the second; entries count from 0",
        ),
        read(registers::ERROR_COUNT, "the third error of the night"),
    ]);
    Scene {
        heading: "Submission 5 is refused before its packets: its table has one id twice.",
        steps,
    }
}

fn kept_alive() -> Scene {
    let mut steps = submit(
        6,
        &[Packet::DirtyRange {
            handle: TEXTURE,
            offset: 128,
            size: 256,
        }],
        "a stream: two rows of texture 1 are dirty; it lives still",
    );
    steps.extend([
        run(100, "four units"),
        record(
            0,
            "kind 2: 256 bytes at 8576, after the texture's first row",
        ),
        answer(
            HostAnswer::Good,
            100,
            "good. Then one unit: the opening finds head and tail equal. Idle",
        ),
        read(registers::COMPLETED_FENCE_LO, "fence 6 is finished"),
        read(
            registers::ERROR_DETAIL,
            "detail: the last error's, until there is another",
        ),
    ]);
    Scene {
        heading: "Submission 6 shows that none of these endings undid the texture.",
        steps,
    }
}

fn drawing() -> Scene {
    let mut steps = submit(
        7,
        &[
            Packet::Target { handle: TEXTURE },
            Packet::Viewport(WHOLE),
            Packet::Scissor(STRIP),
            Packet::Clear(BLUE),
        ],
        "a stream: target texture 1; a viewport; a scissor, 24 by 100 at -8, 4; a clear",
    );
    steps.extend([
        run(100, "seven units: opening, two entries, four packets"),
        record(
            0,
            "kind 4: of the scissor, 16 by 12 pixels at 0, 4 lie on the texture",
        ),
        record(1, "the other three make no record: answer 4"),
        answer(HostAnswer::Good, 100, "good, and no more work"),
    ]);
    Scene {
        heading: "Submission 7 draws on the texture: a scissor is clipped to it.",
        steps,
    }
}

fn without_a_target() -> Scene {
    let mut steps = submit(
        8,
        &[Packet::Viewport(WHOLE), Packet::Scissor(STRIP)],
        "a stream: the viewport and the scissor again, and no target",
    );
    steps.extend([
        run(100, "five units to the refusal; a sixth finds no more work"),
        read(
            registers::ERROR_CODE,
            "error 30: the target of submission 7 ended with it, and a scissor needs one",
        ),
        read(
            registers::ERROR_DETAIL,
            "detail: the packet 56 bytes into the stream; the viewport before it is good",
        ),
        read(registers::ERROR_COUNT, "the fourth error of the night"),
        answer(
            HostAnswer::Good,
            100,
            "nothing waits any more: answer 3, and nothing is run",
        ),
    ]);
    Scene {
        heading: "Submission 8 is refused: its scissor has no target.",
        steps,
    }
}

fn exported() -> Scene {
    let mut steps = submit(
        9,
        &[Packet::Export {
            handle: TEXTURE,
            token: TOKEN,
        }],
        "a stream: export texture 1, of one mip and one layer, by a token",
    );
    steps.extend([
        run(100, "four units: opening, two entries, one packet"),
        record(
            0,
            "an export makes no record: the host finds it in the stream",
        ),
    ]);
    Scene {
        heading: "Submission 9 is a program's: the desktop may show its texture.",
        steps,
    }
}

fn imported() -> Scene {
    let mut steps = submit(
        10,
        &[
            Packet::Import {
                handle: WINDOW,
                token: TOKEN,
            },
            Packet::DirtyRange {
                handle: WINDOW,
                offset: 256,
                size: 128,
            },
        ],
        "a stream: import by the token as 20; a row of 20 is dirty",
    );
    steps.extend([
        answer(
            HostAnswer::Good,
            100,
            "good: the token is bound. Then five units of submission 10",
        ),
        record(
            0,
            "kind 2, by the desktop's name: the texture's third row, at 8704",
        ),
        record(1, "an import makes no record either"),
        answer(
            HostAnswer::Good,
            100,
            "good: 1 and 20 are two names of one texture",
        ),
    ]);
    Scene {
        heading:
            "Submission 10 is the desktop's: it has its own name for the texture, and composes.",
        steps,
    }
}

/// The same once more, with what form 1 has no field for; `earlier` is the file of the first time.
fn moved_with_names(earlier: &[u8], file: &[u8]) -> Scene {
    let (index, field) = (0, NameField::Lowest);
    let spoilt = spoilt(file, FileField::Name { index, field }, NEVER_MADE as u8);
    let steps = vec![
        save(Form::One, 512, "form 1 has no field for a second name, a token or a detail: answer 8"),
        save(
            Form::Two,
            512,
            "form 2 does: 100 bytes, 48 for each of three resources, 12 for the names, 16 for the tokens",
        ),
        move_form(
            512,
            file,
            "nor can that file be moved back to form 1: answer 8",
        ),
        move_form(
            512,
            earlier,
            "the file of the first swap can be moved to form 2: one more register, two more counts",
        ),
        reset("the other host's device: it is reset, and knows no names and no tokens"),
        load(
            &spoilt,
            "a file in which 20 is another name of 9: answer 7; there is no 9. It stands at byte 252",
        ),
        load(file, "the file as it was saved, of which the first number says its form"),
        read(
            registers::ERROR_DETAIL,
            "detail: 56, as it was. Form 2 has that register, too",
        ),
    ];
    Scene {
        heading:
            "The host is swapped again, over night: name 20 and the token are saved, in form 2.",
        steps,
    }
}

fn one_name_left() -> Scene {
    let dirty = |handle| Packet::DirtyRange {
        handle,
        offset: 0,
        size: 128,
    };
    let mut steps = submit(
        11,
        &[Packet::Destroy { handle: TEXTURE }, dirty(WINDOW)],
        "a stream: the program destroys 1; the desktop composes from 20",
    );
    steps.extend([
        run(100, "five units: the texture lives on under its other name"),
        record(0, "kind 2: its first row, where it was"),
        answer(HostAnswer::Good, 100, "good, and no more work"),
        read(registers::ERROR_COUNT, "no error has been added"),
    ]);
    Scene {
        heading: "Submission 11 ends the first name, and leaves the texture.",
        steps,
    }
}

fn released() -> Scene {
    let mut steps = submit(
        12,
        &[Packet::Release { token: TOKEN }],
        "a stream: release the token; the name 20 stays",
    );
    steps.extend([
        run(100, "four units"),
        answer(HostAnswer::Good, 100, "good: the token is spent"),
    ]);
    steps.extend(submit(
        13,
        &[Packet::Import {
            handle: ANOTHER_WINDOW,
            token: TOKEN,
        }],
        "a stream: import by the token once more",
    ));
    steps.extend([
        run(100, "four units to the refusal; a fifth finds no more work"),
        read(
            registers::ERROR_CODE,
            "error 29: the token is bound to nothing any more",
        ),
        read(
            registers::ERROR_DETAIL,
            "detail: the packet 24 bytes into the stream, the first",
        ),
        read(registers::ERROR_COUNT, "the fifth error of the night"),
        (
            Operation::State,
            "every readable register, and the hash of guest memory",
        ),
    ]);
    Scene {
        heading: "Submission 12 releases the token, and so submission 13 is refused.",
        steps,
    }
}

/// What the desk is saved as after these scenes.
fn saved_after(scenes: &[Scene], form: Form) -> Result<Vec<u8>, Refused> {
    let mut player = Player::new(MEMORY);
    for operation in operations(scenes) {
        player.play(&operation);
    }
    player.desk().save_as(form)
}

/// The night, up to where another host has taken over for the second time, and from there on.
pub fn halves() -> Result<[Vec<Scene>; 2], Refused> {
    let mut first = vec![
        set_up(),
        shared_texture(),
        readback(),
        refused_at_a_packet(),
        failed(),
    ];
    let earlier = saved_after(&first, Form::One)?;
    first.extend([
        moved(&earlier),
        refused_at_an_entry(),
        kept_alive(),
        drawing(),
        without_a_target(),
        exported(),
        imported(),
    ]);
    let file = saved_after(&first, Form::Two)?;
    first.push(moved_with_names(&earlier, &file));
    Ok([first, vec![one_name_left(), released()]])
}

/// The operations of some scenes, as the file of a desk script has them.
pub fn operations(scenes: &[Scene]) -> Vec<Operation> {
    let steps = scenes.iter().flat_map(|scene| &scene.steps);
    let operations: Vec<Operation> = steps.map(|(operation, _)| operation.clone()).collect();
    script::decode(&script::encode(MEMORY, &operations)).operations
}

/// A line's room before its meaning; a longer line has its meaning below.
pub const LINE: usize = 26;

/// Prints what the night begins with.
pub fn print_title(out: &mut impl Write) -> io::Result<()> {
    writeln!(
        out,
        "A sample night: guest memory of {} bytes, played through the proved front.",
        MEMORY
    )?;
    writeln!(
        out,
        "After each call's name stands its answer (0: done), then what the call gives."
    )
}

/// Plays scenes and prints them.
pub fn play(scenes: &[Scene], player: &mut Player, out: &mut impl Write) -> io::Result<()> {
    let mut operations = operations(scenes).into_iter();
    for scene in scenes {
        writeln!(out, "\n{}", scene.heading)?;
        for ((_, meaning), operation) in scene.steps.iter().zip(&mut operations) {
            let line = player.play(&operation);
            if line.len() < LINE {
                writeln!(out, "  {:LINE$}{}", line, meaning)?;
            } else {
                writeln!(out, "  {}\n  {:LINE$}{}", line, "", meaning)?;
            }
        }
    }
    Ok(())
}
