//! The ten night-log examples.

use crate::scene::*;
use plain::{packed_size, table_error, Desk, Ended, Ran};

#[test]
fn example_1_packed_size_by_pitch() {
    assert_eq!(packed_size(1, 5, 3, 3, 1, 20), 60 + 8 + 4);
    assert_eq!(packed_size(1, 5, 3, 3, 1, 32), 108);
}

/// The offset 132 itself is a unit test of `shapes.rs`; here it follows from
/// the sizes: one layer, and mip 0 of the next.
#[test]
fn example_2_two_layers() {
    assert_eq!(packed_size(1, 5, 3, 3, 2, 20), 144);
    let layer = packed_size(1, 5, 3, 3, 1, 20);
    let mip_0 = packed_size(1, 5, 3, 1, 1, 20);
    assert_eq!(layer + mip_0, 132);
}

#[test]
fn example_3_block_rows() {
    assert_eq!(packed_size(64, 5, 5, 3, 1, 16), 32 + 8 + 8);
    assert_eq!(packed_size(64, 5, 5, 3, 1, 15), 0);
    let entry = (5, 0, 8192, 4096);
    let good = create_texture(1, (64, 5, 5, 3, 1, 16), 5, 0);
    assert_eq!(records(&[entry], &[good]), [record(1, 1, 5, 8192, 48)]);
    let bad = create_texture(1, (64, 5, 5, 3, 1, 15), 5, 0);
    assert_eq!(verdict(&[entry], &[bad]), 20);
}

#[test]
fn example_4_the_full_chain() {
    let texture = |width, mips| [create_texture(1, (1, width, 1, mips, 1, 0), 0, 0)];
    assert_eq!(verdict(&[], &texture(16_384, 15)), 0);
    assert_eq!(verdict(&[], &texture(16_384, 16)), 20);
    assert_eq!(verdict(&[], &texture(1, 1)), 0);
    assert_eq!(verdict(&[], &texture(1, 2)), 20);
    assert_ne!(packed_size(1, 16_384, 1, 15, 1, 65_536), 0);
    assert_eq!(packed_size(1, 16_384, 1, 16, 1, 65_536), 0);
    assert_eq!(packed_size(1, 1, 1, 2, 1, 4), 0);
}

#[test]
fn example_5_the_completed_fence() {
    for (signal, completed, status) in [(7, 9, 0), (9, 9, 0), (10, 10, 1)] {
        let mut scene = Scene::new();
        scene.settle_good(&[], &[], 9);
        assert_eq!((scene.completed(), scene.status()), (9, 1));
        scene.write(0x308, 1);
        scene.settle_good(&[], &[], signal);
        assert_eq!((scene.completed(), scene.status()), (completed, status));
    }
}

#[test]
fn example_6_the_wrapping_head() {
    let mut scene = Scene::new();
    scene.put_ring(RING, u32::MAX);
    assert_eq!(scene.slot(), RING + 64 + 7 * 64);
    scene.submit(&[], &[], 3);
    assert_eq!(get32(&scene.mem, TAIL), 0);
    assert_eq!(scene.run(1).ended, Ended::Waiting);
    scene.answer(true);
    assert_eq!((scene.head(), scene.completed()), (0, 3));
    let ran = scene.run(5);
    assert_eq!((ran.units, ran.ended), (1, Ended::Idle));
}

#[test]
fn example_7_too_many_pending() {
    let mut scene = Scene::with(&[], &[]);
    scene.put32(TAIL, 9);
    assert_eq!(scene.verdict(), (10, 1));
    let mut scene = Scene::with(&[], &[]);
    scene.put32(TAIL, 8);
    assert_eq!(scene.verdict(), (0, 1));
}

#[test]
fn example_8_an_entry_as_large_as_memory() {
    assert_eq!(table_error(&table(&[(1, 0, 0, 4096)]), 4096), 0);
    assert_eq!(table_error(&table(&[(1, 0, 1, 4096)]), 4096), 14);
    for (gpa, error) in [(0, 0), (1, 14)] {
        let mut scene = Scene::with(&[(1, 0, gpa, 4096)], &[]);
        let small = scene.mem[..4096].to_vec();
        scene.mem = small;
        let mut desk = Desk::new(4096);
        desk.write(0x100, RING as u32);
        desk.write(0x108, RING_SIZE);
        desk.write(0x10C, 1);
        desk.write(0x200, 1);
        scene.desk = desk;
        assert_eq!(scene.verdict(), (error, 2));
    }
}

#[test]
fn example_9_whole() {
    let entries = [(5, 0, 8192, 4096)];
    let packets = [create_buffer(1, 256, 5, 64), dirty(1, 16, 32)];
    let mut scene = Scene::with(&entries, &packets);
    let ran = scene.run(100);
    let waits = Ran {
        answer: 0,
        units: 4,
        ended: Ended::Waiting,
    };
    assert_eq!(ran, waits);
    let expected = [record(1, 1, 5, 8256, 256), record(2, 1, 5, 8272, 32)];
    assert_eq!(scene.records(), expected);
}

#[test]
fn example_10_a_duplicate() {
    let entries = [(5, 0, 8192, 4096), (5, 0, 8192, 4096)];
    let mut scene = Scene::with(&entries, &[]);
    assert_eq!(scene.verdict(), (15, 3));
    assert_eq!(table_error(&table(&entries), MEMORY as u64), 15);
}
