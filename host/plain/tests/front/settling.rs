//! Settling: resources, errors, fences, heads, fence pages.

use crate::scene::*;
use plain::Ended;

const ENTRIES: [Entry; 1] = [(5, 0, 8192, 4096)];

#[test]
fn good_takes_the_submissions_resources() {
    let mut scene = Scene::new();
    scene.settle_good(&ENTRIES, &[create_buffer(1, 256, 5, 0)], 1);
    scene.settle_good(&[], &[destroy(1), create_buffer(2, 8, 0, 0)], 2);
    scene.submit(&[], &[destroy(2), destroy(1)], 3);
    assert_eq!(scene.verdict(), (18, 3));
    scene.settle_good(&[], &[destroy(2)], 4);
    assert_eq!(scene.errors(), 1);
}

#[test]
fn refused_and_failed_leave_the_resources_before() {
    let mut scene = Scene::new();
    scene.settle_good(&[], &[create_buffer(1, 8, 0, 0)], 1);
    // Refused after a destroy and a create.
    let packets = [destroy(1), create_buffer(2, 8, 0, 0), destroy(9)];
    scene.submit(&[], &packets, 2);
    assert_eq!(scene.verdict(), (18, 4));
    // Failed by the host.
    scene.submit(&[], &packets[..2], 3);
    assert_eq!(scene.verdict(), (0, 3));
    assert_eq!(scene.answer(false), 0);
    assert_eq!((scene.error(), scene.error_fence()), (27, 3));
    assert_eq!(scene.errors(), 2);
    // 1 lives, 2 does not.
    scene.settle_good(&[], &[destroy(1), create_buffer(2, 8, 0, 0)], 4);
}

#[test]
fn no_irq_leaves_the_fence_status_but_not_the_error_status() {
    for (flags, good, status) in [
        (0, true, 1),
        (1, true, 0),
        (0xFFFF_FFFE, true, 1),
        (u32::MAX, true, 0),
        (0, false, 3),
        (1, false, 2),
    ] {
        let mut scene = Scene::with(&[], &[]);
        scene.put32(RING + 64 + 4, flags);
        scene.run(1);
        scene.answer(good);
        assert_eq!((scene.status(), scene.completed()), (status, 1));
    }
}

#[test]
fn a_signal_fence_of_0_never_rises() {
    let mut scene = Scene::new();
    scene.settle_good(&[], &[], 0);
    assert_eq!((scene.status(), scene.completed()), (0, 0));
    assert_eq!(scene.head(), 1);
    assert_eq!(get64(&scene.mem, FENCE + 8), 0);
    assert_eq!(&scene.mem[FENCE..FENCE + 4], b"FENC");
}

#[test]
fn fences_are_64_bits() {
    let mut scene = Scene::new();
    scene.settle_good(&[], &[], u64::MAX);
    assert_eq!(scene.read(0x130), u32::MAX);
    assert_eq!(scene.read(0x134), u32::MAX);
    let mut scene = Scene::new();
    scene.settle_good(&[], &[], 0x1_0000_0000);
    scene.settle_good(&[], &[], 0xFFFF_FFFF);
    assert_eq!((scene.read(0x130), scene.read(0x134)), (0, 1));
}

#[test]
fn an_error_keeps_the_larger_completed_fence() {
    let mut scene = Scene::new();
    scene.settle_good(&[], &[], 9);
    scene.write(0x308, 3);
    scene.submit(&[], &[destroy(1)], 7);
    assert_eq!(scene.verdict(), (18, 2));
    assert_eq!((scene.completed(), scene.error_fence()), (9, 7));
    assert_eq!(scene.status(), 2);
    assert_eq!(get64(&scene.mem, FENCE + 8), 9);
}

#[test]
fn only_the_head_and_the_fence_page_change() {
    let entries = ENTRIES;
    let packets = [create_buffer(1, 256, 5, 0), dirty(1, 0, 16)];
    for good in [true, false] {
        let mut scene = Scene::with(&entries, &packets);
        let mut expected = scene.mem.clone();
        scene.run(100);
        assert_eq!(scene.mem, expected);
        scene.answer(good);
        put32(&mut expected, HEAD, 1);
        expected[FENCE..FENCE + 4].copy_from_slice(b"FENC");
        put32(&mut expected, FENCE + 4, 65_539);
        put64(&mut expected, FENCE + 8, 1);
        assert_eq!(scene.mem, expected);
    }
}

#[test]
fn the_fence_page_has_to_fit() {
    let memory = MEMORY as u64;
    for (gpa, written) in [
        (0, false),
        (1, true),
        (memory - 16, true),
        (memory - 15, false),
        (memory, false),
        (0x1_0000_0200, false),
        (u64::MAX - 15, false),
        (u64::MAX, false),
    ] {
        let mut scene = Scene::with(&[], &[]);
        scene.run(1);
        scene.write(0x120, gpa as u32);
        scene.write(0x124, (gpa >> 32) as u32);
        let mut expected = scene.mem.clone();
        scene.answer(true);
        put32(&mut expected, HEAD, 1);
        if written {
            let at = gpa as usize;
            expected[at..at + 4].copy_from_slice(b"FENC");
            put32(&mut expected, at + 4, 65_539);
            put64(&mut expected, at + 8, 1);
        }
        assert_eq!(scene.mem, expected, "{:#x}", gpa);
    }
}

#[test]
fn the_fence_page_goes_over_the_head() {
    // The page's completed fence lies on head and tail.
    let mut scene = Scene::with(&[], &[]);
    scene.put64(RING + 64 + 48, 0x22_0000_0011);
    scene.write(0x120, (HEAD - 8) as u32);
    scene.run(1);
    scene.answer(true);
    assert_eq!((scene.head(), get32(&scene.mem, TAIL)), (0x11, 0x22));
    // The opening that follows sees what the page left there: its magic
    // is the ring's stride.
    let ran = scene.run(9);
    assert_eq!((ran.units, ran.ended), (1, Ended::Idle));
    assert_eq!(scene.error(), 10);
}

#[test]
fn overlapping_ranges_are_read_as_they_stand() {
    // Table and stream share bytes with the ring: a table whose only entry
    // is the ring itself, and a stream read over the same place is refused.
    let mut scene = Scene::with(&[(5, 0, RING as u64, 64)], &[create_buffer(1, 64, 5, 0)]);
    assert_eq!(scene.verdict(), (0, 3));
    assert_eq!(scene.records(), [record(1, 1, 5, RING as u64, 64)]);
    let mut scene = Scene::with(&ENTRIES, &[create_buffer(1, 64, 5, 0)]);
    scene.put64(RING + 64 + 16, TABLE as u64);
    scene.put32(RING + 64 + 24, 24);
    assert_eq!(scene.verdict(), (16, 1));
}

#[test]
fn the_head_goes_to_the_opened_ring() {
    let mut scene = Scene::with(&[], &[]);
    scene.run(1);
    scene.put32(HEAD, 77);
    scene.put32(RING, 0);
    scene.write(0x100, 9000);
    scene.write(0x108, 64);
    scene.answer(true);
    assert_eq!(scene.head(), 1);
    assert_eq!(get32(&scene.mem, 9024), 0xCCCC_CCCC);
}

#[test]
fn a_failing_step_settles_at_once() {
    for (entries, packets, error, units) in [
        (vec![(0, 0, 0, 1)], vec![], 14, 2),
        (vec![(5, 0, 0, 1), (5, 0, 0, 1)], vec![], 15, 3),
        (vec![(5, 0, 0, 1)], vec![packet(7, 9)], 17, 3),
        (vec![], vec![packet(7, 8), destroy(1), packet(7, 8)], 18, 3),
    ] {
        let mut scene = Scene::new();
        scene.submit(&entries, &packets, 6);
        let before = scene.mem.clone();
        scene.run(units - 1);
        assert_eq!((scene.errors(), &scene.mem), (0, &before));
        let ran = scene.run(1);
        assert_eq!((ran.units, ran.ended), (1, Ended::Paused));
        assert_eq!((scene.error(), scene.error_fence()), (error, 6));
        assert_eq!((scene.completed(), scene.status()), (6, 3));
        assert_eq!((scene.head(), get64(&scene.mem, FENCE + 8)), (1, 6));
        assert_eq!(scene.answer(true), 3);
    }
}

#[test]
fn errors_stay_after_a_good_submission() {
    let mut scene = Scene::with(&[], &[destroy(1)]);
    scene.run(2);
    scene.settle_good(&[], &[], 2);
    assert_eq!((scene.error(), scene.error_fence()), (18, 1));
    assert_eq!((scene.errors(), scene.status()), (1, 3));
}

#[test]
fn a_full_ring_is_worked_off_in_order() {
    let mut scene = Scene::new();
    scene.put_ring(RING, u32::MAX - 3);
    for fence in 1..=8 {
        scene.submit(&[], &[], fence);
    }
    for fence in 1..=8 {
        assert_eq!(scene.run(9).ended, Ended::Waiting);
        scene.answer(true);
        assert_eq!(scene.completed(), fence);
        assert_eq!(scene.head(), (u32::MAX - 3).wrapping_add(fence as u32));
    }
    let ran = scene.run(9);
    assert_eq!((ran.units, ran.ended), (1, Ended::Idle));
}
