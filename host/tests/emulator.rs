//! The example emulator: built, run, and shown a guest that changes what was checked.
#[path = "../examples/emulator.rs"]
mod emulator;

use emulator::{play, start, submit, Emulator, GET_BACK, MEMORY, PICTURE, SHARE, STREAM, UPLOAD};
use zelezmut::guest::{self, Backing, Clear, Packet, Scissor, Shape, Viewport};
use zelezmut::{registers, DeviceError};

/// Where buffer 1 of the example lives in guest memory.
const BACKING: usize = PICTURE.gpa as usize + 64;

#[test]
fn it_uploads_copies_gets_back_and_shares() {
    emulator::main().unwrap();
    let mut out = Vec::new();
    play(&mut out).unwrap();
    assert_eq!(
        String::from_utf8(out).unwrap(),
        "fence 1, surfaces [1, 2], troubles []\n\
         fence 2, surfaces [1], troubles []\n\
         fence 3, surfaces [1, 4], troubles []\n\
         back in guest memory: hello\n\
         in the shared texture: hello\n"
    );
}

/// An emulator after the upload.
fn uploaded() -> Emulator {
    let mut emulator = Emulator::new(MEMORY);
    guest::put(&mut emulator.memory, BACKING + 16, b"hello");
    start(&mut emulator).unwrap();
    assert_eq!(submit(&mut emulator, 1, &UPLOAD), Ok(true));
    assert_eq!(emulator.serve(|_| ()), Ok(Vec::new()));
    emulator
}

fn names_of_the_desk(emulator: &Emulator) -> Vec<u32> {
    let names = emulator.desk.names().into_iter();
    names.map(|(name, _)| name).collect()
}

/// What the second submission comes to if the guest does this to the memory behind the check: the trouble.
fn changed_behind(packets: &[Packet], change: impl Fn(&mut [u8])) -> String {
    let mut emulator = uploaded();
    submit(&mut emulator, 2, packets).unwrap();
    // Opening, entry and packets in slices of two: after the last one the submission waits.
    let (mut slices, last) = (0, (2 + packets.len() + 1) / 2);
    let troubles = emulator.serve(|memory| {
        slices += 1;
        if slices == last {
            change(memory);
        }
    });
    let error = emulator.desk.last_error().map(|report| report.error);
    assert_eq!(error, Some(DeviceError::HostFailed));
    assert_eq!(emulator.surfaces.names(), [1, 2]);
    assert_eq!(names_of_the_desk(&emulator), [1, 2]);
    assert_eq!(emulator.desk.completed_fence(), 2);
    troubles.unwrap().join("; ")
}

#[test]
fn what_the_guest_changes_behind_the_check_is_answered_failed() {
    let first = STREAM + 24;
    let put = |at: usize, value: u32| {
        move |memory: &mut [u8]| guest::put(memory, at, &value.to_le_bytes())
    };
    for (at, value, trouble) in [
        (STREAM, 7, "error 16: the stream's header breaks a rule"),
        (first + 4, 12, "error 17 at byte 24 of the stream: a packet's size breaks a rule, or bytes are left over"),
        (first + 40, 2, "error 26 at byte 24 of the stream: a copy within one buffer, or with unknown flags"),
        (first + 8, 2, "surface 2 has no 5 bytes at 100"),
        (first + 12, 9, "surface 9 has no 5 bytes at 8"),
        (first + 20, 1, "surface 1 has no 5 bytes at 4294967396"),
        (first + 24, u32::MAX, "surface 2 has no 5 bytes at 4294967295"),
        (first + 32, 4, "no record writes 4 bytes of surface 1"),
        (first + 40, 0, "the stream has nothing for: writes 5 bytes at 8356: resource 1, table entry 5"),
        (first + 48 + 8, 3, "there is no surface 3"),
        (64 + 64 + 48, 8, "the ring has changed"),
    ] {
        let told = changed_behind(&GET_BACK, put(at, value));
        assert_eq!(told, format!("fence 2: {}", trouble));
    }
}

#[test]
fn the_guest_is_not_given_more_than_the_host_has() {
    let create = |size| Packet::CreateBuffer {
        handle: 3,
        size,
        backing: None,
    };
    for size in [1 << 21, u64::MAX] {
        let told = changed_behind(&[create(size)], |_| ());
        assert_eq!(
            told,
            format!("fence 2: surface 3 of {} bytes is too large", size)
        );
    }
}

/// A texture, and what says how to draw on it.
fn drawing() -> [Packet; 5] {
    let shape = Shape {
        format: 1,
        width: 5,
        height: 3,
        mips: 1,
        layers: 1,
        pitch: 0,
    };
    [
        Packet::CreateTexture {
            handle: 3,
            shape,
            backing: None,
        },
        Packet::Target { handle: 3 },
        Packet::Viewport(Viewport {
            x: 0.0,
            y: 0.0,
            width: 5.0,
            height: 3.0,
            near: 0.0,
            far: 1.0,
        }),
        Packet::Scissor(Scissor {
            x: -1,
            y: 1,
            width: 3,
            height: 9,
        }),
        Packet::Clear(Clear {
            flags: 1,
            colour: [1.0; 4],
            depth: 1.0,
            stencil: 0,
        }),
    ]
}

#[test]
fn state_packets_are_carried_out_and_judged_anew() {
    let mut emulator = uploaded();
    submit(&mut emulator, 2, &drawing()).unwrap();
    assert_eq!(emulator.serve(|_| ()), Ok(Vec::new()));
    assert!(emulator.surfaces.get(3).is_some());

    let [texture, target, viewport] = [24, 24 + 56, 24 + 56 + 16].map(|at| STREAM + at);
    let scissor = viewport + 32;
    let not_a_number = f32::NAN.to_bits();
    for (at, value, trouble) in [
        (target + 8, 9, "there is no surface 9"),
        (viewport + 28, not_a_number, "a float is no number"),
        (scissor + 24 + 28, not_a_number, "a float is no number"),
        // A texture that lives with the host has no record, one that is backed would have the scissor's.
        (texture + 40, 5, "no record backs 0 bytes of surface 3"),
        (
            scissor,
            9,
            "the stream has nothing for: clips to 2 by 2 pixels at 0, 1",
        ),
        (viewport, 1026, "no record clips"),
    ] {
        let put = |memory: &mut [u8]| guest::put(memory, at, &value.to_le_bytes());
        let told = changed_behind(&drawing(), put);
        assert!(told.contains(trouble), "{}", told);
    }
}

#[test]
fn textures_have_the_bytes_that_back_them() {
    let shape = Shape {
        format: 1,
        width: 5,
        height: 3,
        mips: 3,
        layers: 1,
        pitch: 20,
    };
    let texture = |handle, backing| Packet::CreateTexture {
        handle,
        shape,
        backing,
    };
    let mut emulator = uploaded();
    let dirty = Packet::DirtyRange {
        handle: 3,
        offset: 70,
        size: 2,
    };
    let backed = texture(
        3,
        Some(Backing {
            id: 5,
            offset: 1024,
        }),
    );
    guest::put(
        &mut emulator.memory,
        PICTURE.gpa as usize + 1024 + 70,
        b"!?",
    );
    submit(&mut emulator, 2, &[backed, texture(4, None), dirty]).unwrap();
    assert_eq!(emulator.serve(|_| ()), Ok(Vec::new()));
    let bytes = emulator.surfaces.get(3).unwrap();
    assert_eq!((bytes.len(), &bytes[70..]), (72, &b"!?"[..]));
    assert_eq!(emulator.surfaces.get(4), Some(&[][..]));
}

#[test]
fn a_surface_goes_with_its_last_name() {
    let mut emulator = uploaded();
    let import = |handle| Packet::Import { handle, token: 77 };
    let destroy = |handle| Packet::Destroy { handle };
    for (fence, packets, names) in [
        (2, &SHARE[..], &[1, 2, 4][..]),
        (3, &[import(3), import(9), destroy(4)], &[1, 2, 3, 9]),
        (4, &[destroy(3)], &[1, 2, 9]),
        (5, &[Packet::Release { token: 77 }], &[1, 2, 9]),
        (6, &[destroy(9)], &[1, 2]),
    ] {
        submit(&mut emulator, fence, packets).unwrap();
        assert_eq!(emulator.serve(|_| ()), Ok(Vec::new()), "fence {}", fence);
        assert_eq!(emulator.surfaces.names(), names);
        assert_eq!(names_of_the_desk(&emulator), names);
        if let Some(bytes) = emulator.surfaces.get(9) {
            assert_eq!(bytes[16..21], *b"hello");
        }
    }
    assert_eq!(emulator.desk.tokens(), [(77, None)]);
    // The reset forgets tokens: this one can be used again.
    emulator
        .write(registers::CONTROL, registers::CONTROL_RESET)
        .unwrap();
    assert_eq!(emulator.surfaces.names(), []);
    guest::put(&mut emulator.memory, BACKING + 16, b"again");
    start(&mut emulator).unwrap();
    submit(&mut emulator, 1, &SHARE).unwrap();
    assert_eq!(emulator.serve(|_| ()), Ok(Vec::new()));
    assert_eq!(emulator.surfaces.get(4).unwrap()[16..21], *b"again");
}

#[test]
fn names_and_tokens_are_judged_anew() {
    let export = STREAM + 24 + 56;
    let [import, dirty] = [export + 24, export + 48];
    let destroy = dirty + 32;
    for (at, value, trouble) in [
        (export + 8, 9, "there is no surface 9"),
        (export + 16, 76, "token 77 is bound to nothing"),
        (import, 1808, "there is no surface 4"),
        (import + 8, 3, "there is a surface 3 already"),
        (import + 16, 76, "token 76 is bound to nothing"),
        (dirty + 8, 3, "no record reads 5 bytes of surface 3"),
        (destroy + 8, 5, "there is no surface 5"),
        (destroy, 1810, "token 3 is bound to nothing"),
    ] {
        let put = |memory: &mut [u8]| guest::put(memory, at, &u32::to_le_bytes(value));
        let told = changed_behind(&SHARE, put);
        assert_eq!(told, format!("fence 2: {}", trouble));
    }
    // A token that the guest has put in place of another: what the host was told before counts.
    let again = [SHARE[0], SHARE[1], SHARE[1]];
    let put = |memory: &mut [u8]| guest::put(memory, import + 8, &1u32.to_le_bytes());
    let told = changed_behind(&again, put);
    assert_eq!(told, "fence 2: token 77 is taken or spent");
}
