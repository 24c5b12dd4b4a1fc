//! Saving in form 1: what a file holds, when there is none, and what comes back
//! of it.

use crate::scene::*;
use plain::{Desk, Ended};

const ENTRIES: [Entry; 2] = [(5, 0, 8192, 4096), (6, 1, 12_288, 4096)];

/// The readable registers of a file, in its order.
pub const REGISTERS: [u32; 18] = [
    0x000, 0x004, 0x008, 0x00C, 0x100, 0x104, 0x108, 0x10C, 0x120, 0x124, 0x130, 0x134, 0x300,
    0x304, 0x310, 0x314, 0x318, 0x31C,
];

/// The old file of [`full`], field by field: form 1 without its number.
#[rustfmt::skip]
pub const FULL: [u32; 71] = [
    // Section 1: the registers, the memory length, the doorbell flag.
    21,
    0x5550_4741, 65_539, 7, 0,
    1024, 0, 576, 1, 512, 0,
    8, 9, 3, 0xFFFF_FFFE,
    27, 6, 7, 1,
    16_384, 0, 1,
    // Section 2: a resource a line.
    4,
    2, 1, 4, 3, 0, 0, 0, 0, 0, 0, 0, 0,
    7, 2, 0, 0, 1, 5, 3, 2, 256, 0, 0, 0,
    9, 1, 256, 0, 0, 0, 0, 0, 0, 0, 5, 64,
    u32::MAX, 2, 0, 0, 64, 5, 6, 3, 2, 17, 6, 8,
];

/// A device at rest with a buffer and a texture of each backing, after an
/// error without a place.
pub fn full() -> Scene {
    let mut scene = Scene::new();
    let packets = [
        create_texture(u32::MAX, (64, 5, 6, 3, 2, 17), 6, 8),
        create_buffer(9, 256, 5, 64),
        create_texture(7, (1, 5, 3, 2, 256, 99), 0, 77),
        create_buffer(2, 0x3_0000_0004, 0, 66),
    ];
    scene.settle_good(&ENTRIES, &packets, 0x9_0000_0008);
    scene.submit(&[], &[destroy(2)], 0x7_0000_0006);
    assert_eq!(scene.verdict().0, 0);
    assert_eq!(scene.answer(false), 0);
    scene.write(0x304, 0xFFFF_FFFE);
    scene
}

fn surface(handle: u32) -> Vec<u8> {
    create_texture(handle, (1, 5, 3, 1, 1, 20), 0, 0)
}

/// A device with another name, a spent token, a detail, and a submission in
/// work that waits for the host.
pub fn busy() -> Scene {
    let mut scene = Scene::new();
    let packets = [surface(1), export(1, 5), import(2, 5), release(5)];
    assert_eq!(scene.settle(&[], &packets), 0);
    assert_eq!(scene.settle(&[], &[export(1, 6), destroy(9)]), 18);
    assert_eq!(scene.detail(), 48);
    scene.submit(&ENTRIES, &[create_buffer(9, 256, 5, 64), export(1, 7)], 3);
    assert_eq!(scene.verdict().0, 0);
    scene
}

/// Tries to save into a buffer of this length; gives the call answer, once
/// nothing else has come of it.
fn refused(desk: &Desk, length: usize) -> u32 {
    let mut buffer: Vec<u8> = (0..length).map(|at| at as u8).collect();
    let before = (desk.clone(), buffer.clone());
    let (answer, length) = desk.save(&mut buffer);
    assert_ne!(answer, 0);
    assert_eq!(length, 0);
    assert_eq!((desk, &buffer), (&before.0, &before.1));
    answer
}

#[test]
fn a_full_file_field_by_field() {
    // "Saving in form 1 writes the number 1 first".
    assert_eq!(saved(&full().desk), numbered(&file(&FULL)));
}

#[test]
fn a_new_devices_file() {
    let mut fields = [0; 23];
    fields[..5].copy_from_slice(&[21, u32::from_le_bytes(*b"AGPU"), 65_539, 7, 0]);
    for length in [0, 1, 4096] {
        fields[19] = length as u32;
        assert_eq!(saved(&Desk::new(length)), numbered(&file(&fields)));
    }
}

#[test]
fn registers_stand_by_rising_offset() {
    let mut scene = full();
    for (i, offset) in [0x100, 0x104, 0x108, 0x10C, 0x120, 0x124, 0x304]
        .into_iter()
        .enumerate()
    {
        scene.write(offset, 0xABCD_EF00 + i as u32);
        let bytes = saved(&scene.desk);
        for (i, offset) in REGISTERS.iter().enumerate() {
            assert_eq!(get32(&bytes, 8 + 4 * i), scene.read(*offset));
        }
    }
}

#[test]
fn the_flag_and_the_control_bit() {
    let mut scene = full();
    assert_eq!(get32(&saved(&scene.desk), 88), 1);
    let ran = scene.run(9);
    assert_eq!((ran.units, ran.ended), (1, Ended::Idle));
    assert_eq!(get32(&saved(&scene.desk), 88), 0);
    scene.write(0x10C, 0);
    assert_eq!(get32(&saved(&scene.desk), 36), 0);
    scene.write(0x200, 0);
    let bytes = saved(&scene.desk);
    assert_eq!((get32(&bytes, 36), get32(&bytes, 88)), (0, 1));
    scene.write(0x10C, 3);
    let bytes = saved(&scene.desk);
    assert_eq!((get32(&bytes, 36), get32(&bytes, 88)), (1, 0));
    assert_eq!(bytes.len(), 96);
}

#[test]
fn a_file_comes_back_whole() {
    let scene = full();
    let bytes = saved(&scene.desk);
    for mut desk in [Desk::new(0), scene.desk.clone(), busy().desk] {
        assert_eq!(desk.load(&bytes), (0, 0));
        assert_eq!(desk, scene.desk);
        assert_eq!((desk.names(), desk.tokens()), (scene.desk.names(), vec![]));
        assert_eq!(desk.read(0x320), (0, 0));
        assert_eq!(saved(&desk), bytes);
    }
}

#[test]
fn a_loaded_device_goes_on_as_the_saved_one() {
    let scene = full();
    let mut loaded = busy();
    assert_eq!(loaded.desk.load(&saved(&scene.desk)), (0, 0));
    loaded.mem.copy_from_slice(&scene.mem);
    for packets in [
        vec![dirty(9, 16, 32), dirty(u32::MAX, 0, 100)],
        vec![dirty(u32::MAX, 0, 101)],
        vec![dirty(9, 0, 257)],
        vec![copy((9, 0), (2, 0x3_0000_0000), 4, 1)],
        vec![copy((9, 0), (2, 0x3_0000_0000), 5, 0)],
        vec![dirty(7, 0, 0)],
        vec![target(7), scissor((1, 1), (9, 9))],
        vec![destroy(2), destroy(7), destroy(9), destroy(u32::MAX)],
        vec![surface(3), export(3, 6), import(4, 6), export(3, 5)],
        vec![create_buffer(9, 1, 0, 0)],
        vec![],
    ] {
        let (mut one, mut two) = (scene.clone(), loaded.clone());
        for scene in [&mut one, &mut two] {
            scene.submit(&ENTRIES, &packets, 0x9_0000_0009);
        }
        assert_eq!(one.verdict(), two.verdict());
        assert_eq!(one.records(), two.records());
        assert_eq!(one, two);
        assert_eq!(one.answer(true), two.answer(true));
        assert_eq!(one, two);
    }
}

#[test]
fn the_order_of_the_list_does_not_count() {
    let buffers = |handles: &[u32]| -> Scene {
        let create = |handle: &u32| create_buffer(*handle, u64::from(*handle), 0, 0);
        let packets: Vec<_> = handles.iter().map(create).collect();
        let mut scene = Scene::new();
        assert_eq!(scene.settle(&[], &packets), 0);
        scene
    };
    let bytes = saved(&buffers(&[1, 2, 0x8000_0000, u32::MAX]).desk);
    for handles in [
        [u32::MAX, 0x8000_0000, 2, 1],
        [0x8000_0000, 1, u32::MAX, 2],
        [2, u32::MAX, 1, 0x8000_0000],
    ] {
        assert_eq!(saved(&buffers(&handles).desk), bytes);
    }
}

#[test]
fn five_from_opening_to_settling() {
    for control in [1, 0] {
        let mut scene = full();
        let head = scene.head();
        scene.put_ring(RING, head);
        scene.submit(&ENTRIES, &[dirty(9, 16, 32)], 1);
        assert_eq!(saved(&scene.desk).len(), 288);
        for _ in 0..4 {
            assert_eq!(scene.run(1).units, 1);
            scene.write(0x10C, control);
            assert_eq!(refused(&scene.desk, 288), 5);
            assert_eq!(refused(&scene.desk, 4096), 5);
            scene.write(0x10C, 1);
        }
        scene.write(0x10C, control);
        assert_eq!(scene.run(0).ended, Ended::Waiting);
        assert_eq!(refused(&scene.desk, 288), 5);
        assert_eq!(scene.answer(true), 0);
        assert_eq!(saved(&scene.desk).len(), 288);
    }
}

#[test]
fn six_for_every_buffer_too_short() {
    let desk = full().desk;
    for length in 0..288 {
        assert_eq!(refused(&desk, length), 6);
    }
    let new = Desk::new(0);
    for length in 0..96 {
        assert_eq!(refused(&new, length), 6);
    }
    assert_eq!(new.save(&mut [0; 96]), (0, 96));
}

#[test]
fn later_bytes_stay() {
    let desk = full().desk;
    let bytes = numbered(&file(&FULL));
    for more in [0, 1, 2, 3, 4, 48, 1000] {
        let mut buffer: Vec<u8> = (0..288 + more).map(|at| at as u8).collect();
        let before = buffer.clone();
        assert_eq!(desk.save(&mut buffer), (0, 288));
        assert_eq!(buffer[..288], bytes);
        assert_eq!(buffer[288..], before[288..]);
    }
}

#[test]
fn five_then_eight_then_six() {
    let mut scene = busy();
    // All three reasons, then one less each time.
    assert_eq!(refused(&scene.desk, 0), 5);
    assert_eq!(refused(&scene.desk, 4096), 5);
    assert_eq!(scene.answer(true), 0);
    assert_eq!(refused(&scene.desk, 0), 8);
    assert_eq!(refused(&scene.desk, 4096), 8);
    scene.write(0x10C, 3);
    assert_eq!(refused(&scene.desk, 0), 8);
    assert_eq!(refused(&scene.desk, 4096), 8);
    scene.write(0x108, 0);
    scene.write(0x200, 0);
    assert_eq!(scene.verdict(), (10, 1));
    assert_eq!(refused(&scene.desk, 95), 6);
    assert_eq!(saved(&scene.desk).len(), 96);
}

#[test]
fn five_comes_before_six() {
    let mut scene = Scene::with(&[], &[]);
    assert_eq!(refused(&scene.desk, 95), 6);
    assert_eq!(scene.run(1).units, 1);
    assert_eq!(refused(&scene.desk, 0), 5);
    assert_eq!(refused(&scene.desk, 95), 5);
}

#[test]
fn eight_once_any_token_was_used() {
    let exported = [surface(1), export(1, 5)];
    for rest in [
        vec![],
        vec![release(5)],
        vec![import(2, 5)],
        vec![import(2, 5), destroy(2)],
        vec![import(2, 5), destroy(1)],
        vec![destroy(1)],
        vec![import(2, 5), release(5)],
    ] {
        let mut scene = Scene::new();
        let packets = [&exported[..], &rest[..]].concat();
        assert_eq!(scene.settle(&[], &packets), 0);
        assert_eq!(refused(&scene.desk, 0), 8);
        assert_eq!(refused(&scene.desk, 4096), 8);
        // Whatever comes after, until a reset.
        for packets in [vec![], vec![create_buffer(7, 1, 0, 0)]] {
            assert_eq!(scene.settle(&[], &packets), 0);
            assert_eq!(refused(&scene.desk, 4096), 8);
        }
        scene.write(0x10C, 0);
        assert_eq!(refused(&scene.desk, 4096), 8);
        scene.write(0x10C, 2);
        assert_eq!(saved(&scene.desk).len(), 96);
    }
}

#[test]
fn eight_for_tokens_lasts_until_a_load() {
    let mut scene = Scene::new();
    let bytes = saved(&scene.desk);
    assert_eq!(scene.settle(&[], &[surface(1), export(1, 5)]), 0);
    assert_eq!(scene.desk.load(&bytes[..92]), (7, 92));
    assert_eq!(refused(&scene.desk, 4096), 8);
    assert_eq!(scene.desk.load(&bytes), (0, 0));
    assert_eq!(saved(&scene.desk), bytes);
    // The token is as new.
    assert_eq!(scene.settle(&[], &[surface(4), export(4, 5)]), 0);
    assert_eq!(scene.desk.tokens(), [(5, 4)]);
}

#[test]
fn a_token_of_a_failed_submission_was_not_used() {
    let mut scene = Scene::new();
    scene.submit(&[], &[surface(1), export(1, 5), import(2, 5)], 1);
    assert_eq!(scene.verdict().0, 0);
    assert_eq!(refused(&scene.desk, 4096), 5);
    assert_eq!(scene.answer(false), 0);
    assert_eq!(saved(&scene.desk).len(), 96);
    // Nor is one that a reset takes out of work.
    scene.submit(&[], &[surface(1), export(1, 5)], 1);
    assert_eq!(scene.verdict().0, 0);
    scene.write(0x10C, 3);
    assert_eq!(saved(&scene.desk).len(), 96);
    let head = scene.head();
    scene.put_ring(RING, head);
    // A refused one leaves only its detail.
    assert_eq!(
        scene.settle(&[], &[surface(1), export(1, 5), surface(1)]),
        18
    );
    assert_eq!(refused(&scene.desk, 4096), 8);
    scene.submit(&[], &[], 1);
    assert_eq!(scene.verdict().0, 0);
    assert_eq!(scene.answer(false), 0);
    assert_eq!(saved(&scene.desk).len(), 96);
}

#[test]
fn eight_as_long_as_the_detail_is_not_0() {
    let mut scene = Scene::new();
    // An entry at index 0 has detail 0, one at index 1 has not.
    assert_eq!(scene.settle(&[(0, 0, 0, 1)], &[]), 14);
    assert_eq!(get32(&saved(&scene.desk), 64), 14);
    assert_eq!(scene.settle(&[(1, 0, 0, 1), (1, 0, 0, 1)], &[]), 15);
    assert_eq!(scene.detail(), 1);
    assert_eq!(refused(&scene.desk, 4096), 8);
    scene.write(0x308, 3);
    assert_eq!(refused(&scene.desk, 4096), 8);
    assert_eq!(scene.settle(&[], &[]), 0);
    assert_eq!(refused(&scene.desk, 4096), 8);
    for control in [0, 1, 2, 3] {
        scene.write(0x10C, control);
        assert_eq!(refused(&scene.desk, 4096), 8);
    }
    let mut loaded = scene.clone();
    assert_eq!(loaded.desk.load(&file(&FULL)), (0, 0));
    assert_eq!(loaded.detail(), 0);
    assert_eq!(saved(&loaded.desk), numbered(&file(&FULL)));
    scene.submit(&[], &[], 1);
    assert_eq!(scene.verdict().0, 0);
    assert_eq!(scene.answer(false), 0);
    assert_eq!(scene.detail(), 0);
    assert_eq!(saved(&scene.desk).len(), 96);
}

#[test]
fn every_error_without_a_place_is_saved() {
    let mut scene = Scene::new();
    for spoil in [STREAM, TABLE, RING] {
        scene.submit(&[(1, 0, 0, 1)], &[packet(7, 8)], 0x1_0000_0002);
        scene.put32(spoil, 0);
        let error = scene.verdict().0;
        let bytes = saved(&scene.desk);
        let mut desk = Desk::new(1);
        assert_eq!(desk.load(&bytes), (0, 0));
        assert_eq!(desk, scene.desk);
        assert_eq!(get32(&bytes, 64), error);
        let fence = if error == 10 { 0 } else { 0x1_0000_0002 };
        assert_eq!(get64(&bytes, 68), fence);
    }
    assert_eq!((scene.error(), scene.errors()), (10, 3));
}
