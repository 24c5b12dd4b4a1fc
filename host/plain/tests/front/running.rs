//! Runs: units, ends, disables, lent lengths, slicing.

use crate::scene::*;
use plain::{Desk, Ended, Ran, Record};

const ENTRIES: [Entry; 2] = [(5, 0, 8192, 4096), (6, 1, 12_288, 4096)];

fn packets() -> Vec<Vec<u8>> {
    vec![
        create_buffer(1, 256, 5, 64),
        packet(7, 8),
        create_buffer(2, 256, 6, 0),
        dirty(1, 16, 32),
        copy((1, 0), (2, 0), 64, 1),
        destroy(2),
    ]
}

fn ran(units: u16, ended: Ended) -> Ran {
    Ran {
        answer: 0,
        units,
        ended,
    }
}

#[test]
fn a_device_without_doorbell_is_idle() {
    let mut scene = Scene::new();
    assert_eq!(scene.run(5), ran(0, Ended::Idle));
}

#[test]
fn an_empty_ring_costs_the_opening_and_clears_the_flag() {
    let mut scene = Scene::new();
    scene.write(0x200, 77);
    let mem = scene.mem.clone();
    assert_eq!(scene.run(0), ran(0, Ended::Paused));
    assert_eq!(scene.run(5), ran(1, Ended::Idle));
    assert_eq!(scene.run(5), ran(0, Ended::Idle));
    assert_eq!((scene.errors(), scene.status()), (0, 0));
    assert_eq!(scene.mem, mem);
}

#[test]
fn an_empty_submission_waits_after_its_opening() {
    let mut scene = Scene::with(&[], &[]);
    assert_eq!(scene.run(9), ran(1, Ended::Waiting));
    assert_eq!(scene.run(9), ran(0, Ended::Waiting));
    assert_eq!(scene.desk.record(0), (4, Record::default()));
    assert_eq!(scene.answer(true), 0);
    assert_eq!(scene.run(9), ran(1, Ended::Idle));
}

#[test]
fn a_table_without_a_stream_is_checked() {
    assert_eq!(Scene::with(&ENTRIES, &[]).verdict(), (0, 3));
    assert_eq!(Scene::with(&[(0, 0, 0, 1)], &[]).verdict(), (14, 2));
}

#[test]
fn the_last_step_itself_reaches_the_wait() {
    let mut scene = Scene::with(&ENTRIES, &packets());
    assert_eq!(scene.run(8), ran(8, Ended::Paused));
    assert_eq!(scene.desk.record(0), (4, Record::default()));
    assert_eq!(scene.answer(true), 3);
    assert_eq!(scene.run(1), ran(1, Ended::Waiting));
    assert_eq!(scene.run(0), ran(0, Ended::Waiting));
    let expected = [
        record(1, 1, 5, 8256, 256),
        record(1, 2, 6, 12_288, 256),
        record(2, 1, 5, 8272, 32),
        record(3, 1, 5, 8256, 64),
    ];
    assert_eq!(scene.records(), expected);
    assert_eq!(scene.desk.record(u32::MAX), (4, Record::default()));
}

#[test]
fn refusals_go_on_to_the_next_submission() {
    let mut scene = Scene::new();
    scene.submit(&[], &[], 1);
    scene.submit(&[], &[], 2);
    scene.put32(RING + 64, 63);
    assert_eq!(scene.run(9), ran(2, Ended::Waiting));
    assert_eq!((scene.error(), scene.error_fence()), (11, 1));
    assert_eq!(scene.head(), 1);
    assert_eq!(scene.answer(true), 0);
    assert_eq!(scene.head(), 2);
    assert_eq!(scene.run(9), ran(1, Ended::Idle));
}

#[test]
fn a_disabled_device_spends_nothing_and_keeps_its_work() {
    for units in 0..9 {
        let mut scene = Scene::with(&ENTRIES, &packets());
        scene.run(units);
        scene.write(0x10C, 0);
        assert_eq!(scene.run(50), ran(0, Ended::Idle));
        assert_eq!(scene.answer(true), 3);
        scene.write(0x10C, 1);
        assert_eq!(scene.run(50), ran(9 - units, Ended::Waiting));
        assert_eq!(scene.records().len(), 4);
    }
}

#[test]
fn a_disabled_device_still_waits_and_settles() {
    let mut scene = Scene::with(&ENTRIES, &packets());
    scene.run(9);
    scene.write(0x10C, 0);
    assert_eq!(scene.run(50), ran(0, Ended::Waiting));
    assert_eq!(scene.records().len(), 4);
    assert_eq!(scene.answer(true), 0);
    assert_eq!((scene.head(), scene.completed()), (1, 1));
    assert_eq!(scene.run(50), ran(0, Ended::Idle));
}

#[test]
fn another_memory_length_changes_nothing() {
    for units in [0, 1, 4, 9] {
        let mut scene = Scene::with(&ENTRIES, &packets());
        scene.run(units);
        let before = scene.clone();
        let refused = Ran {
            answer: 1,
            units: 0,
            ended: Ended::Idle,
        };
        for length in [0, MEMORY - 1, MEMORY + 1] {
            let mut other = scene.mem.clone();
            other.resize(length, 0);
            let bytes = other.clone();
            assert_eq!(scene.desk.run(&mut other, 5), refused);
            for allowance in [0, 5] {
                for good in [true, false] {
                    let ran = scene.desk.answer(&mut other, good, allowance);
                    assert_eq!(ran, refused);
                }
            }
            assert_eq!(other, bytes);
            assert_eq!(scene, before);
        }
    }
}

#[test]
fn an_answer_with_nothing_waiting_changes_nothing() {
    for units in [0, 1, 5] {
        let mut scene = Scene::with(&ENTRIES, &packets());
        scene.run(units);
        let before = scene.clone();
        assert_eq!(scene.answer(true), 3);
        assert_eq!(scene.answer(false), 3);
        assert_eq!(scene, before);
    }
}

#[test]
fn n_units_equal_n_runs_of_one_unit() {
    let mut whole = Scene::new();
    let mut sliced = Scene::new();
    for scene in [&mut whole, &mut sliced] {
        scene.submit(&ENTRIES, &packets(), 3);
    }
    for total in 0..=9 {
        let mut one = whole.clone();
        let last = one.run(total);
        let mut many = sliced.clone();
        for _ in 0..total {
            assert_eq!(many.run(1).units, 1);
        }
        assert_eq!(one, many);
        assert_eq!(last.ended, many.run(0).ended);
    }
}

#[test]
fn kept_numbers_and_entries_outlive_the_guest_bytes() {
    let mut scene = Scene::with(&ENTRIES, &packets());
    scene.run(1);
    // Every header and the descriptor are kept from the opening on.
    for byte in &mut scene.mem[RING..RING + RING_SIZE as usize] {
        *byte = 0xFF;
    }
    for byte in &mut scene.mem[TABLE..TABLE + 24] {
        *byte = 0xFF;
    }
    for byte in &mut scene.mem[STREAM..STREAM + 24] {
        *byte = 0xFF;
    }
    scene.write(0x100, 0);
    scene.write(0x108, 0);
    scene.run(2);
    // So are the entries after their own steps.
    for byte in &mut scene.mem[TABLE..TABLE + 88] {
        *byte = 0xFF;
    }
    assert_eq!(scene.run(50), ran(6, Ended::Waiting));
    assert_eq!(scene.records()[3], record(3, 1, 5, 8256, 64));
    scene.answer(true);
    assert_eq!((scene.head(), scene.completed()), (1, 1));
}

#[test]
fn entries_and_packets_are_read_at_their_own_unit() {
    let mut scene = Scene::with(&ENTRIES, &packets());
    scene.run(2);
    scene.put32(TABLE + 24 + 32, 5);
    scene.run(1);
    assert_eq!(scene.error(), 15);

    let mut scene = Scene::with(&ENTRIES, &packets());
    scene.run(3);
    scene.put64(STREAM + 24 + 16, 128);
    scene.run(6);
    assert_eq!(scene.desk.record(0), (0, record(1, 1, 5, 8256, 128)));
}

#[test]
fn the_largest_allowance_ends_when_idle() {
    let mut scene = Scene::new();
    assert_eq!(scene.run(u16::MAX), ran(0, Ended::Idle));
    // Eight bad descriptors, over and over: the guest moves the tail.
    for _ in 0..100 {
        let head = scene.head();
        scene.put32(TAIL, head.wrapping_add(8));
        scene.write(0x200, 0);
        for slot in 0..8 {
            scene.put32(RING + 64 + slot * 64, 0);
        }
        assert_eq!(scene.run(u16::MAX), ran(9, Ended::Idle));
    }
    assert_eq!((scene.errors(), scene.head()), (800, 800));
}

#[test]
fn the_largest_allowance_can_be_spent() {
    let cmd = stream(&vec![packet(7, 8); 70_000]);
    let length = STREAM + cmd.len();
    let mut scene = Scene::with(&[], &[packet(7, 8)]);
    scene.mem.resize(length, 0);
    scene.place(RING + 64 + 16, STREAM, &cmd);
    scene.desk = Desk::new(length);
    scene.write(0x100, RING as u32);
    scene.write(0x108, RING_SIZE);
    scene.write(0x10C, 1);
    scene.write(0x200, 0);
    assert_eq!(scene.run(u16::MAX), ran(u16::MAX, Ended::Paused));
    assert_eq!(scene.run(u16::MAX), ran(4466, Ended::Waiting));
}
