//! A desk is saved in form 1 and loaded: what comes back is the same desk, what is refused changes nothing, and what came before a load is over.
mod current;
mod night;

use current::ticket;
use night::{Night, MEMORY};
use zelezmut::guest::{Backing, Packet, Shape};
use zelezmut::{
    registers, Desk, DeviceError, Ended, Form, HostAnswer, Place, Refused, Ticket,
    LONGEST_SAVED_DESK,
};

const HEAD: usize = 96;
const RESOURCE: usize = 48;
const UNWRITTEN: u8 = 0xAA;

const SHAPE: Shape = Shape {
    format: 1,
    width: 5,
    height: 3,
    mips: 1,
    layers: 1,
    pitch: 20,
};

fn buffer(handle: u32) -> Packet {
    Packet::CreateBuffer {
        handle,
        size: 256,
        backing: Some(Backing { id: 5, offset: 64 }),
    }
}

fn texture(handle: u32, backing: Option<Backing>) -> Packet {
    Packet::CreateTexture {
        handle,
        shape: SHAPE,
        backing,
    }
}

fn export(handle: u32, token: u64) -> Packet {
    Packet::Export { handle, token }
}

fn dirty(handle: u32) -> Packet {
    Packet::DirtyRange {
        handle,
        offset: 0,
        size: 8,
    }
}

/// Plays a submission to its end.
fn play(night: &mut Night, packets: &[Packet], answer: HostAnswer) {
    night.submit(1, &[5], packets);
    if night.run(100) == Ended::Waiting {
        night.answer(ticket(&night.desk), answer, 100).unwrap();
    }
}

/// A night after these submissions, all answered good.
fn after(submissions: &[&[Packet]]) -> Night {
    let mut night = Night::new();
    for packets in submissions {
        play(&mut night, packets, HostAnswer::Good);
    }
    night
}

/// A night with resources of all kinds.
fn furnished() -> Night {
    let backing = Some(Backing { id: 5, offset: 512 });
    after(&[&[texture(7, None), buffer(1), texture(3, backing)]])
}

/// Saving is refused with this, into buffers of all kinds, none of which is touched.
fn assert_refused(desk: &Desk, refused: Refused) {
    for length in [0, 1, HEAD, LONGEST_SAVED_DESK, 5_000] {
        let mut buffer = vec![UNWRITTEN; length];
        assert_eq!(desk.save_into(&mut buffer), Err(refused));
        assert!(buffer.iter().all(|&byte| byte == UNWRITTEN));
    }
    assert_eq!(desk.save(), Err(refused));
}

#[test]
fn what_is_loaded_is_what_was_saved() {
    let mut rung = furnished();
    rung.write(registers::DOORBELL, 1);
    let mut failed = furnished();
    play(&mut failed, &[buffer(9)], HostAnswer::Failed);
    for desk in [
        Desk::new(0),
        Desk::new(usize::MAX),
        Night::new().desk,
        rung.desk,
        failed.desk,
        furnished().desk,
    ] {
        let old_length = HEAD - 4 + RESOURCE * desk.names().len();
        let one = desk.save().unwrap();
        assert_eq!(one.len(), 4 + old_length);
        let two = desk.save_as(Form::Two).unwrap();
        assert_eq!(two.len(), one.len() + 12);
        // An old file is one of form 1 without its number.
        for (file, form) in [
            (&one[..], Form::One),
            (&one[4..], Form::One),
            (&two, Form::Two),
        ] {
            let loaded = Desk::from_saved(file).unwrap();
            assert_eq!(loaded, desk);
            assert_eq!(loaded.memory_len(), desk.memory_len());
            let saved = loaded.save_as(form).unwrap();
            assert!(saved == one || saved == two);
            assert!(saved.ends_with(file));
            let mut other = furnished().desk;
            assert_eq!(other.load(file), Ok(()));
            assert_eq!(other, desk);
        }
    }
}

#[test]
fn the_longest_file_has_64_resources() {
    let creates: Vec<Packet> = (1..=64).rev().map(buffer).collect();
    let halves: Vec<&[Packet]> = creates.chunks(32).collect();
    let night = after(&halves);
    assert_eq!(night.desk.last_error(), None);
    let file = night.desk.save().unwrap();
    assert_eq!(file.len(), Form::One.longest());
    let mut handles = file[HEAD..].chunks_exact(RESOURCE).map(|row| row[0]);
    assert!((1..=64).all(|handle| handles.next() == Some(handle)));
    assert_eq!(Desk::from_saved(&file), Ok(night.desk));
}

#[test]
fn a_desk_that_has_moved_plays_on_as_it_would_have() {
    let mut stayed = furnished();
    let mut moved = stayed.clone();
    moved.desk = Desk::from_saved(&stayed.desk.save().unwrap()).unwrap();
    for packets in [
        &[dirty(1), dirty(3), buffer(8)][..],
        &[Packet::Destroy { handle: 3 }],
        &[dirty(3)],
        &[export(7, 1), dirty(1), Packet::Target { handle: 7 }],
    ] {
        for night in [&mut stayed, &mut moved] {
            play(night, packets, HostAnswer::Good);
        }
        assert_eq!(stayed.memory, moved.memory);
        assert_eq!(stayed.desk, moved.desk);
    }
    assert_eq!(stayed.desk.last_error().unwrap().error.number(), 18);
}

#[test]
fn the_file_goes_to_the_front_of_the_buffer() {
    let desk = furnished().desk;
    let file = desk.save().unwrap();
    for length in [file.len(), file.len() + 1, LONGEST_SAVED_DESK, 10_000] {
        let mut buffer = vec![UNWRITTEN; length];
        assert_eq!(desk.save_into(&mut buffer), Ok(file.len()));
        let (written, later) = buffer.split_at(file.len());
        assert_eq!(written, file);
        assert!(later.iter().all(|&byte| byte == UNWRITTEN));
    }
    for length in 0..file.len() {
        let mut buffer = vec![UNWRITTEN; length];
        assert_eq!(desk.save_into(&mut buffer), Err(Refused::TooShort));
        assert!(buffer.iter().all(|&byte| byte == UNWRITTEN));
    }
}

#[test]
fn a_submission_in_work_comes_before_all() {
    // A token was used, so that the later refusal is there too.
    let mut night = after(&[&[texture(1, None), export(1, 7)]]);
    assert_refused(&night.desk, Refused::NotInForm);
    night.submit(1, &[5, 6], &[buffer(2), buffer(3)]);
    assert_refused(&night.desk, Refused::NotInForm);
    // Opening, two entries, two packets: then it waits.
    for _ in 0..5 {
        night.run(1);
        assert_refused(&night.desk, Refused::InWork);
    }
    night.write(registers::CONTROL, 0);
    assert_refused(&night.desk, Refused::InWork);
    let settled = night.answer(ticket(&night.desk), HostAnswer::Good, 0);
    assert_eq!(settled, Ok(Ended::Idle));
    assert_refused(&night.desk, Refused::NotInForm);
}

#[test]
fn a_token_is_not_in_form_until_the_next_reset_or_load() {
    let used = after(&[&[texture(1, None), export(1, 7)]]);
    let released = after(&[&[texture(1, None), export(1, 7), Packet::Release { token: 7 }]]);
    let gone = after(&[&[
        texture(1, None),
        export(1, 7),
        Packet::Destroy { handle: 1 },
    ]]);
    let imported = after(&[&[
        texture(1, None),
        export(1, 7),
        Packet::Import {
            handle: 2,
            token: 7,
        },
    ]]);
    for mut night in [used, released, gone, imported] {
        assert_refused(&night.desk, Refused::NotInForm);
        let mut reset = night.clone();
        reset.start(registers::CONTROL_RESET);
        assert!(reset.desk.save().is_ok());
        let file = furnished().desk.save().unwrap();
        assert_eq!(night.desk.load(&file), Ok(()));
        assert_eq!(night.desk.save(), Ok(file));
    }
    // What was only named is not used.
    let mut failed = furnished();
    play(&mut failed, &[export(7, 1)], HostAnswer::Failed);
    assert!(failed.desk.save().is_ok());
}

#[test]
fn an_error_detail_is_not_in_form_until_another_error() {
    let mut night = furnished();
    play(&mut night, &[dirty(99)], HostAnswer::Good);
    assert_eq!(night.desk.last_error().unwrap().place, Place::Packet(24));
    assert_refused(&night.desk, Refused::NotInForm);
    night.start(registers::CONTROL_RESET | registers::CONTROL_ENABLE);
    assert_refused(&night.desk, Refused::NotInForm);
    let mut loaded = night.clone();
    let file = furnished().desk.save().unwrap();
    assert_eq!(loaded.desk.load(&file), Ok(()));
    assert_eq!(loaded.desk.save(), Ok(file));
    play(&mut night, &[], HostAnswer::Failed);
    assert_eq!(night.desk.last_error().unwrap().place, Place::Nowhere);
    assert!(night.desk.save().is_ok());
}

#[test]
fn tickets_of_before_a_load_are_stale() {
    let mut night = Night::new();
    let file = night.desk.save().unwrap();
    night.submit(1, &[5], &[buffer(1)]);
    assert_eq!(night.run(100), Ended::Waiting);
    let before = ticket(&night.desk);

    // A bad file is no load.
    assert!(night.desk.load(&file[1..]).is_err());
    assert_eq!(ticket(&night.desk), before);
    assert_eq!(night.desk.load(&file), Ok(()));
    assert_eq!(night.desk.waiting(), None);
    assert_eq!(
        night.answer(before, HostAnswer::Good, 100),
        Err(Refused::NothingWaits)
    );
    night.write(registers::DOORBELL, 1);
    assert_eq!(night.run(100), Ended::Waiting);
    assert_eq!(
        night.answer(before, HostAnswer::Good, 100),
        Err(Refused::StaleTicket)
    );
    let current = ticket(&night.desk);
    assert_ne!(current, Ticket::NONE);
    assert_eq!(
        night.answer(current, HostAnswer::Good, 100),
        Ok(Ended::Idle)
    );
}

#[test]
fn a_load_drops_what_is_in_work() {
    let file = furnished().desk.save().unwrap();
    for units in 0..6 {
        let mut night = Night::new();
        night.submit(9, &[5, 6], &[buffer(2), buffer(4)]);
        night.run(units);
        let memory = night.memory.clone();
        assert_eq!(night.desk.load(&file), Ok(()));
        assert_eq!(night.desk, furnished().desk);
        assert_eq!(night.memory, memory);
        assert_eq!(night.desk.records().count(), 0);
        assert_eq!(night.desk.completed_fence(), 1);
        // The ring is as it was: who rings has the submission opened again, at this device.
        night.write(registers::DOORBELL, 1);
        assert_eq!(night.run(100), Ended::Waiting);
        assert_eq!(night.desk.waiting().unwrap().fence, 9);
    }
}

#[test]
fn the_completed_fence_may_be_lower_and_the_memory_another() {
    let mut night = Night::new();
    let file = Desk::new(MEMORY + 1).save().unwrap();
    night.submit(77, &[], &[]);
    night.run(100);
    let settled = night.answer(ticket(&night.desk), HostAnswer::Good, 100);
    assert_eq!(
        (settled, night.desk.completed_fence()),
        (Ok(Ended::Idle), 77)
    );
    assert_eq!(night.desk.load(&file), Ok(()));
    assert_eq!(night.desk.completed_fence(), 0);
    assert_eq!(night.desk.memory_len(), MEMORY + 1);
    let refused = night.desk.run(&mut night.memory, 1);
    assert_eq!(refused, Err(Refused::OtherMemory));
    night.memory.push(0);
    assert!(night.desk.run(&mut night.memory, 1).is_ok());
}

/// No run saves such a file, since a packet's error has a place; but it breaks no rule.
#[test]
fn a_loaded_error_has_no_place() {
    let mut file = Desk::new(64).save().unwrap();
    for (at, value) in [(64, 18), (68, 5), (76, 2)] {
        file[at] = value;
    }
    let report = Desk::from_saved(&file).unwrap().last_error().unwrap();
    assert_eq!(report.error, DeviceError::BadHandle);
    assert_eq!(
        (report.place, report.fence, report.count),
        (Place::Nowhere, 5, 2)
    );
}
