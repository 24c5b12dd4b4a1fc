//! The host's answer and the run after it, in one call.

use crate::scene::*;
use plain::{Ended, Ran};

const ENTRIES: [Entry; 2] = [(5, 0, 8192, 4096), (6, 1, 12_288, 4096)];
const ALLOWANCES: [u16; 4] = [0, 1, 9, u16::MAX];

fn ran(units: u16, ended: Ended) -> Ran {
    Ran {
        answer: 0,
        units,
        ended,
    }
}

fn refused(answer: u32) -> Ran {
    Ran {
        answer,
        units: 0,
        ended: Ended::Idle,
    }
}

/// A device whose first submission, a create of buffer 1 with fence 1, waits
/// for the host, with no other behind it.
fn waiting() -> Scene {
    let mut scene = Scene::with(&ENTRIES, &[create_buffer(1, 256, 5, 64)]);
    assert_eq!(scene.run(9), ran(4, Ended::Waiting));
    scene
}

#[test]
fn an_allowance_of_0_only_settles() {
    for (good, error, status) in [(true, 0, 1), (false, 27, 3)] {
        let mut scene = waiting();
        scene.submit(&[], &[], 2);
        assert_eq!(scene.answer_and_run(good, 0), ran(0, Ended::Paused));
        assert_eq!((scene.head(), scene.completed()), (1, 1));
        assert_eq!(get64(&scene.mem, FENCE + 8), 1);
        assert_eq!((scene.error(), scene.status()), (error, status));
        assert_eq!(scene.records(), []);
        assert_eq!(scene.run(0), ran(0, Ended::Paused));
    }
}

#[test]
fn the_run_spends_up_to_the_allowance() {
    // One opening, two entries, three packets.
    let packets = [packet(7, 8), create_buffer(2, 16, 5, 0), destroy(2)];
    for good in [true, false] {
        for allowance in (0..9).chain([u16::MAX]) {
            let mut scene = waiting();
            scene.submit(&ENTRIES, &packets, 2);
            let expected = match allowance {
                0..=5 => ran(allowance, Ended::Paused),
                _ => ran(6, Ended::Waiting),
            };
            assert_eq!(scene.answer_and_run(good, allowance), expected);
            assert_eq!(scene.run(9).units, 6 - expected.units);
            assert_eq!(scene.records(), [record(1, 2, 5, 8192, 16)]);
            assert_eq!((scene.head(), scene.completed()), (1, 1));
        }
    }
}

#[test]
fn the_run_may_find_no_work() {
    for allowance in [1, 9, u16::MAX] {
        let mut scene = waiting();
        assert_eq!(scene.answer_and_run(true, allowance), ran(1, Ended::Idle));
        assert_eq!(scene.run(9), ran(0, Ended::Idle));
    }
}

#[test]
fn an_answer_is_for_one_submission() {
    let mut scene = waiting();
    scene.submit(&[], &[create_buffer(2, 16, 0, 0)], 2);
    assert_eq!(scene.answer_and_run(true, 1), ran(1, Ended::Paused));
    assert_eq!(scene.answer_and_run(true, 9), refused(3));
    assert_eq!(scene.run(9), ran(1, Ended::Waiting));
    assert_eq!(scene.completed(), 1);
    scene.submit(&ENTRIES, &[dirty(1, 0, 8)], 3);
    assert_eq!(scene.answer_and_run(false, 9), ran(4, Ended::Waiting));
    assert_eq!((scene.completed(), scene.error_fence()), (2, 2));
    assert_eq!(scene.records(), [record(2, 1, 5, 8256, 8)]);
    assert_eq!(scene.answer_and_run(true, 9), ran(1, Ended::Idle));
    assert_eq!((scene.completed(), scene.head()), (3, 3));
}

#[test]
fn the_run_sees_what_the_answer_left() {
    // Buffer 1 lives only after "good".
    let mut scene = waiting();
    scene.submit(&[], &[destroy(1)], 2);
    assert_eq!(scene.answer_and_run(true, 9), ran(2, Ended::Waiting));
    assert_eq!(scene.errors(), 0);

    let mut scene = waiting();
    scene.submit(&[], &[destroy(1)], 2);
    assert_eq!(scene.answer_and_run(false, 1), ran(1, Ended::Paused));
    assert_eq!((scene.error(), scene.error_fence()), (27, 1));
    assert_eq!((scene.errors(), scene.detail()), (1, 0));

    // The error of the run takes the place of 27.
    let mut scene = waiting();
    scene.submit(&[], &[destroy(1)], 2);
    assert_eq!(scene.answer_and_run(false, 9), ran(3, Ended::Idle));
    assert_eq!((scene.error(), scene.error_fence()), (18, 2));
    assert_eq!((scene.errors(), scene.detail()), (2, 24));
    assert_eq!((scene.completed(), scene.head()), (2, 2));
}

#[test]
fn the_run_reads_memory_as_settling_left_it() {
    // The fence page lies over the ring's header: its magic is the stride.
    let mut scene = waiting();
    scene.write(0x120, (HEAD - 8) as u32);
    assert_eq!(scene.answer_and_run(true, 9), ran(1, Ended::Idle));
    assert_eq!((scene.error(), scene.error_fence()), (10, 0));
    // The head goes to the opened ring, the run takes the one then named.
    let mut scene = waiting();
    scene.put_ring(9000, 5);
    scene.put32(9000 + 28, 4);
    scene.write(0x100, 9000);
    assert_eq!(scene.answer_and_run(true, 9), ran(1, Ended::Idle));
    assert_eq!((scene.error(), scene.head()), (10, 1));
}

#[test]
fn a_disabled_device_settles_and_runs_nothing() {
    for allowance in ALLOWANCES {
        for good in [true, false] {
            let mut scene = waiting();
            scene.submit(&[], &[], 2);
            scene.write(0x10C, 0);
            assert_eq!(scene.answer_and_run(good, allowance), ran(0, Ended::Idle));
            assert_eq!((scene.head(), scene.completed()), (1, 1));
            scene.write(0x10C, 1);
            assert_eq!(scene.run(9), ran(1, Ended::Waiting));
        }
    }
}

#[test]
fn nothing_waiting_refuses_the_whole_call() {
    let idle = Scene::new();
    let unopened = Scene::with(&ENTRIES, &[destroy(1)]);
    let mut in_work = unopened.clone();
    in_work.run(2);
    let mut settled = waiting();
    settled.submit(&[], &[], 2);
    settled.answer(true);
    let mut reset = waiting();
    reset.write(0x10C, 3);
    for mut scene in [idle, unopened, in_work, settled, reset] {
        let before = scene.clone();
        for allowance in ALLOWANCES {
            for good in [true, false] {
                assert_eq!(scene.answer_and_run(good, allowance), refused(3));
                assert_eq!(scene, before);
            }
        }
    }
}

#[test]
fn another_length_refuses_the_whole_call_first() {
    let unopened = Scene::with(&[], &[destroy(1)]);
    for mut scene in [Scene::new(), unopened, waiting()] {
        let before = scene.clone();
        for length in [0, MEMORY - 1, MEMORY + 1] {
            let mut other = scene.mem.clone();
            other.resize(length, 0);
            let bytes = other.clone();
            for allowance in ALLOWANCES {
                for good in [true, false] {
                    let ran = scene.desk.answer(&mut other, good, allowance);
                    assert_eq!(ran, refused(1));
                }
            }
            assert_eq!((&scene, &other), (&before, &bytes));
        }
    }
}
