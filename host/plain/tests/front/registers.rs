//! The register file.

use crate::scene::*;
use plain::{Desk, Ended};

const READ_ONLY: [u32; 12] = [
    0x000, 0x004, 0x008, 0x00C, 0x130, 0x134, 0x300, 0x310, 0x314, 0x318, 0x31C, 0x320,
];
const BOTH_WAYS: [u32; 7] = [0x100, 0x104, 0x108, 0x10C, 0x120, 0x124, 0x304];
const WRITE_ONLY: [u32; 2] = [0x200, 0x308];

#[test]
fn fixed_registers() {
    let desk = Desk::new(0);
    assert_eq!(desk.read(0x000), (0, u32::from_le_bytes(*b"AGPU")));
    assert_eq!(desk.read(0x004), (0, 65_539));
    assert_eq!(desk.read(0x008), (0, 7));
    assert_eq!(desk.read(0x00C), (0, 0));
}

#[test]
fn a_new_device_is_all_zero() {
    let desk = Desk::new(0);
    for offset in READ_ONLY[4..].iter().chain(&BOTH_WAYS) {
        assert_eq!(desk.read(*offset), (0, 0), "{:#x}", offset);
    }
}

#[test]
fn every_offset_is_readable_or_writable_as_listed() {
    for offset in (0..0x1000).chain([0x8000_0000, u32::MAX, u32::MAX - 3]) {
        let readable = READ_ONLY.contains(&offset) || BOTH_WAYS.contains(&offset);
        let writable = WRITE_ONLY.contains(&offset) || BOTH_WAYS.contains(&offset);
        let mut desk = Desk::new(64);
        let before = desk.clone();
        let (answer, value) = desk.read(offset);
        assert_eq!(answer, if readable { 0 } else { 2 }, "{:#x}", offset);
        assert!(readable || value == 0);
        let answer = desk.write(offset, 0x55);
        assert_eq!(answer, if writable { 0 } else { 2 }, "{:#x}", offset);
        assert!(writable || desk == before, "{:#x}", offset);
    }
}

#[test]
fn both_ways_keep_all_bits_but_control() {
    let mut desk = Desk::new(0);
    for (i, offset) in BOTH_WAYS.iter().enumerate() {
        desk.write(*offset, 0xFFFF_FF0D + i as u32);
    }
    for (i, offset) in BOTH_WAYS.iter().enumerate() {
        let value = 0xFFFF_FF0D + i as u32;
        let expected = if *offset == 0x10C { value & 1 } else { value };
        assert_eq!(desk.read(*offset), (0, expected), "{:#x}", offset);
    }
}

#[test]
fn the_ring_gpa_is_64_bits_with_low_first() {
    let mut scene = Scene::with(&[], &[]);
    scene.write(0x104, 1);
    assert_eq!(scene.verdict(), (10, 1));
    scene.write(0x104, 0);
    scene.write(0x200, 0);
    assert_eq!(scene.verdict(), (0, 1));
}

#[test]
fn doorbell_sets_the_flag_even_when_disabled_and_for_any_number() {
    let mut scene = Scene::with(&[], &[]);
    scene.write(0x10C, 2);
    assert_eq!(scene.run(9).ended, Ended::Idle);
    scene.write(0x200, 0);
    scene.write(0x10C, 1);
    assert_eq!(scene.run(0).ended, Ended::Paused);
    assert_eq!(scene.run(1).ended, Ended::Waiting);
}

#[test]
fn ack_clears_the_bits_written_as_one() {
    let mut scene = Scene::with(&[], &[]);
    scene.run(1);
    scene.answer(false);
    assert_eq!(scene.status(), 3);
    scene.write(0x308, 0);
    assert_eq!(scene.status(), 3);
    scene.write(0x308, 0xFFFF_FFFD);
    assert_eq!(scene.status(), 2);
    scene.write(0x308, 2);
    assert_eq!(scene.status(), 0);
}

#[test]
fn enable_does_not_mask_status() {
    for enable in [0, 1, 2, 3, u32::MAX] {
        let mut scene = Scene::with(&[], &[]);
        scene.write(0x304, enable);
        scene.run(1);
        scene.answer(false);
        assert_eq!((scene.status(), scene.read(0x304)), (3, enable));
    }
}

#[test]
fn reset_drops_the_submission_in_work() {
    let entries = [(5, 0, 8192, 4096)];
    let packets = [create_buffer(1, 256, 5, 64)];
    for units in 1..=3 {
        let mut scene = Scene::with(&entries, &packets);
        scene.run(units);
        let mem = scene.mem.clone();
        scene.write(0x10C, 3);
        assert_eq!(scene.mem, mem);
        assert_eq!(scene.answer(true), 3);
        assert_eq!(scene.desk.record(0).0, 4);
        let ran = scene.run(9);
        assert_eq!((ran.units, ran.ended), (0, Ended::Idle));
        assert_eq!((scene.head(), scene.errors(), scene.completed()), (0, 0, 0));
        scene.write(0x200, 0);
        assert_eq!(scene.verdict(), (0, 3));
    }
}

#[test]
fn reset_empties_resources_completed_and_status_but_no_errors_or_settings() {
    let mut scene = Scene::new();
    scene.settle_good(&[], &[create_buffer(1, 256, 0, 0)], 0x1_0000_0004);
    scene.submit(&[], &[destroy(9)], 0x7_0000_0006);
    assert_eq!(scene.verdict(), (18, 2));
    scene.write(0x304, 3);
    scene.write(0x10C, u32::MAX);
    assert_eq!(scene.read(0x10C), 1);
    assert_eq!((scene.completed(), scene.status()), (0, 0));
    assert_eq!((scene.error(), scene.errors()), (18, 1));
    assert_eq!(scene.error_fence(), 0x7_0000_0006);
    assert_eq!(scene.read(0x100), RING as u32);
    assert_eq!(scene.read(0x108), RING_SIZE);
    assert_eq!(scene.read(0x120), FENCE as u32);
    assert_eq!(scene.read(0x304), 3);
    scene.submit(&[], &[destroy(1)], 7);
    assert_eq!(scene.verdict(), (18, 2));
}

#[test]
fn reset_takes_bit_0_from_the_same_write() {
    let mut scene = Scene::new();
    scene.write(0x10C, 2);
    assert_eq!(scene.read(0x10C), 0);
    scene.write(0x10C, 3);
    assert_eq!(scene.read(0x10C), 1);
}

#[test]
fn a_reset_device_equals_a_new_one_with_the_same_settings() {
    let mut scene = Scene::new();
    let fresh = scene.desk.clone();
    scene.settle_good(&[], &[create_buffer(1, 256, 0, 0)], 4);
    scene.submit(&[], &[create_buffer(2, 256, 0, 0)], 5);
    scene.run(2);
    scene.write(0x10C, 3);
    assert_eq!(scene.desk, fresh);
}
