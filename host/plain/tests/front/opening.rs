//! Opening: the ring checks, the descriptor, the ranges, the headers.

use crate::scene::*;
use plain::Ended;

const ENTRIES: [Entry; 1] = [(5, 0, 8192, 4096)];
const SLOT: usize = RING + 64;
const CMD: usize = SLOT + 16;
const TAB: usize = SLOT + 32;

fn good() -> Scene {
    Scene::with(&ENTRIES, &[create_buffer(1, 256, 5, 64)])
}

/// The error the first unit finds after `change`, or 0.
fn error_after(change: impl Fn(&mut Scene)) -> u32 {
    let mut scene = good();
    change(&mut scene);
    let ran = scene.run(1);
    assert_eq!((ran.answer, ran.units), (0, 1));
    scene.error()
}

#[test]
fn a_bad_ring_settles_nothing() {
    let mut scene = good();
    scene.put32(RING, 0);
    let mem = scene.mem.clone();
    let ran = scene.run(9);
    assert_eq!((ran.units, ran.ended), (1, Ended::Idle));
    assert_eq!((scene.error(), scene.error_fence()), (10, 0));
    assert_eq!((scene.errors(), scene.status()), (1, 2));
    assert_eq!(scene.completed(), 0);
    assert_eq!(scene.mem, mem);
    assert_eq!(scene.run(9).units, 0);
}

#[test]
fn ring_size_and_place() {
    assert_eq!(error_after(|s| s.write(0x108, 63)), 10);
    assert_eq!(error_after(|s| s.write(0x108, 0)), 10);
    assert_eq!(error_after(|s| s.write(0x108, RING_SIZE - 1)), 10);
    let room = (MEMORY - RING) as u32;
    assert_eq!(error_after(|s| s.write(0x108, room)), 0);
    assert_eq!(error_after(|s| s.write(0x108, room + 1)), 10);
    assert_eq!(error_after(|s| s.write(0x108, u32::MAX)), 10);
    let all_ones = |s: &mut Scene| {
        s.write(0x100, u32::MAX);
        s.write(0x104, u32::MAX);
    };
    assert_eq!(error_after(all_ones), 10);
}

#[test]
fn a_ring_may_lie_at_gpa_0_and_end_with_memory() {
    let mut scene = Scene::new();
    scene.write(0x100, 0);
    scene.put_ring(0, 5);
    scene.write(0x200, 0);
    assert_eq!(scene.run(1).ended, Ended::Idle);
    let last = MEMORY - RING_SIZE as usize;
    scene.put_ring(last, 5);
    scene.write(0x100, last as u32);
    scene.write(0x200, 0);
    assert_eq!(scene.run(1).ended, Ended::Idle);
    assert_eq!(scene.errors(), 0);
    scene.write(0x100, last as u32 + 1);
    scene.write(0x200, 0);
    scene.run(1);
    assert_eq!(scene.error(), 10);
}

#[test]
fn ring_magic_and_version() {
    assert_eq!(error_after(|s| s.mem[RING + 3] = b'H'), 10);
    for version in [0, 0xFFFF, 0x2_0000, 0x1_0001_u32.swap_bytes(), u32::MAX] {
        assert_eq!(error_after(|s| s.put32(RING + 4, version)), 10);
    }
    for version in [0x1_0000, 0x1_0003, 0x1_FFFF] {
        assert_eq!(error_after(|s| s.put32(RING + 4, version)), 0);
    }
}

#[test]
fn ring_count() {
    for count in [0, 3, 5, 6, 7, 9, 16, 2048, 0x8000_0000, u32::MAX] {
        assert_eq!(error_after(|s| s.put32(RING + 12, count)), 10);
    }
    for count in [1, 2, 4, 8] {
        assert_eq!(error_after(|s| s.put32(RING + 12, count)), 0);
    }
}

#[test]
fn the_largest_ring() {
    for (count, error) in [(1024, 10), (2048, 10)] {
        // Too large for its header size, then given the size it needs.
        assert_eq!(error_after(|s| s.put32(RING + 12, count)), error);
    }
    let mut scene = Scene::new();
    let mut mem = vec![0; 200_000];
    mem[..MEMORY].copy_from_slice(&scene.mem);
    scene.mem = mem;
    for (count, stride, error) in [(1024, 64, 0), (1024, 128, 0), (2048, 64, 10)] {
        let mut desk = plain::Desk::new(200_000);
        desk.write(0x100, RING as u32);
        desk.write(0x108, 200_000 - RING as u32);
        desk.write(0x10C, 1);
        desk.write(0x200, 1);
        scene.desk = desk;
        scene.put32(RING + 8, 64 + count * stride);
        scene.put32(RING + 12, count);
        scene.put32(RING + 16, stride);
        scene.run(1);
        assert_eq!(scene.error(), error, "{} of {}", count, stride);
    }
}

#[test]
fn ring_stride_and_header_size() {
    assert_eq!(error_after(|s| s.put32(RING + 16, 63)), 10);
    assert_eq!(error_after(|s| s.put32(RING + 16, 65)), 10);
    assert_eq!(error_after(|s| s.put32(RING + 16, u32::MAX)), 10);
    assert_eq!(error_after(|s| s.put32(RING + 8, RING_SIZE - 1)), 10);
    assert_eq!(error_after(|s| s.put32(RING + 8, RING_SIZE + 1)), 10);
    let larger = |header, size| {
        error_after(|s| {
            s.put32(RING + 8, header);
            s.write(0x108, size);
        })
    };
    assert_eq!(larger(RING_SIZE + 9, RING_SIZE + 9), 0);
    assert_eq!(larger(RING_SIZE, RING_SIZE + 9), 0);
    assert_eq!(larger(RING_SIZE + 10, RING_SIZE + 9), 10);
}

#[test]
fn descriptors_follow_the_stride() {
    let mut scene = good();
    scene.put32(RING + 12, 4);
    scene.put32(RING + 16, 100);
    scene.put32(HEAD, 6);
    scene.put32(TAIL, 7);
    let descriptor = scene.mem[SLOT..SLOT + 64].to_vec();
    let at = RING + 64 + 2 * 100;
    scene.mem[at..at + 64].copy_from_slice(&descriptor);
    scene.put32(SLOT, 0);
    scene.put32(at, 100);
    assert_eq!(scene.verdict(), (0, 3));
    scene.answer(true);
    assert_eq!(scene.head(), 7);
}

#[test]
fn pending_up_to_the_count() {
    for (head, tail, error) in [
        (0, 8, 0),
        (0, 9, 10),
        (1, 0, 10),
        (0, u32::MAX, 10),
        (u32::MAX - 7, 0, 0),
        (u32::MAX - 8, 0, 10),
    ] {
        let mut scene = Scene::new();
        for slot in 0..8 {
            let at = SLOT + slot * 64;
            scene.mem[at..at + 64].fill(0);
            scene.put32(at, 64);
        }
        scene.put32(HEAD, head);
        scene.put32(TAIL, tail);
        scene.write(0x200, 0);
        scene.run(1);
        assert_eq!(scene.error(), error, "{} to {}", head, tail);
    }
}

#[test]
fn descriptor_size() {
    assert_eq!(error_after(|s| s.put32(SLOT, 63)), 11);
    assert_eq!(error_after(|s| s.put32(SLOT, 65)), 11);
    assert_eq!(error_after(|s| s.put32(SLOT, 0)), 11);
    assert_eq!(error_after(|s| s.put32(SLOT, u32::MAX)), 11);
}

#[test]
fn ranges_are_whole_or_absent() {
    for field in [CMD, TAB] {
        assert_eq!(error_after(|s| s.put64(field, 0)), 11);
        assert_eq!(error_after(|s| s.put32(field + 8, 0)), 11);
        assert_eq!(error_after(|s| s.put64(field, u64::MAX)), 11);
        let absent = |s: &mut Scene| {
            s.put64(field, 0);
            s.put32(field + 8, 0);
        };
        assert_eq!(error_after(absent), 0);
    }
}

#[test]
fn ranges_beyond_2_to_the_64_are_11_and_beyond_memory_12() {
    for field in [CMD, TAB] {
        let placed = |gpa: u64, size: u32| {
            error_after(|s| {
                s.put64(field, gpa);
                s.put32(field + 8, size);
            })
        };
        assert_eq!(placed(u64::MAX - 99, 100), 11);
        assert_eq!(placed(u64::MAX - 100, 100), 12);
        assert_eq!(placed(MEMORY as u64 - 99, 100), 12);
        assert_eq!(placed(MEMORY as u64, 1), 12);
        assert_eq!(placed(1, u32::MAX), 12);
    }
    let to_the_end = error_after(|s| s.put32(CMD + 8, (MEMORY - STREAM) as u32));
    assert_eq!(to_the_end, 0);
    let past_it = error_after(|s| s.put32(CMD + 8, (MEMORY - STREAM) as u32 + 1));
    assert_eq!(past_it, 12);
}

#[test]
fn table_header() {
    let size = 24 + 32;
    assert_eq!(error_after(|s| s.put32(TAB + 8, 23)), 13);
    assert_eq!(error_after(|s| s.put32(TAB + 8, size - 1)), 13);
    assert_eq!(error_after(|s| s.put32(TAB + 8, size + 1)), 0);
    assert_eq!(error_after(|s| s.mem[TABLE] = b'B'), 13);
    assert_eq!(error_after(|s| s.put32(TABLE + 4, 3)), 13);
    assert_eq!(error_after(|s| s.put32(TABLE + 4, 0x1_8000)), 0);
    assert_eq!(error_after(|s| s.put32(TABLE + 8, 23)), 13);
    assert_eq!(error_after(|s| s.put32(TABLE + 8, size - 1)), 13);
    assert_eq!(error_after(|s| s.put32(TABLE + 8, size + 1)), 13);
    assert_eq!(error_after(|s| s.put32(TABLE + 12, 2)), 13);
    assert_eq!(error_after(|s| s.put32(TABLE + 12, u32::MAX)), 13);
    assert_eq!(error_after(|s| s.put32(TABLE + 16, 31)), 13);
    assert_eq!(error_after(|s| s.put32(TABLE + 16, 33)), 13);
    assert_eq!(error_after(|s| s.put32(TABLE + 16, u32::MAX)), 13);
}

#[test]
fn stride_is_checked_even_without_entries() {
    let empty = |stride| {
        error_after(move |s| {
            s.put32(TABLE + 12, 0);
            s.put32(TABLE + 16, stride);
        })
    };
    assert_eq!(empty(31), 13);
    assert_eq!(empty(32), 0);
    assert_eq!(empty(u32::MAX), 0);
}

#[test]
fn at_most_64_entries() {
    let entries = |count: u32| -> Vec<Entry> { (1..=count).map(|i| (i, 0, 0, 1)).collect() };
    assert_eq!(Scene::with(&entries(64), &[]).verdict(), (0, 65));
    assert_eq!(Scene::with(&entries(65), &[]).verdict(), (19, 1));
}

#[test]
fn stream_header() {
    let size = 24 + 40;
    assert_eq!(error_after(|s| s.put32(CMD + 8, 23)), 16);
    assert_eq!(error_after(|s| s.put32(CMD + 8, size - 1)), 16);
    assert_eq!(error_after(|s| s.put32(CMD + 8, size + 1)), 0);
    assert_eq!(error_after(|s| s.mem[STREAM + 1] = 0), 16);
    assert_eq!(error_after(|s| s.put32(STREAM + 4, 0x2_0000)), 16);
    assert_eq!(error_after(|s| s.put32(STREAM + 4, 0x1_0009)), 0);
    assert_eq!(error_after(|s| s.put32(STREAM + 8, 23)), 16);
    assert_eq!(error_after(|s| s.put32(STREAM + 8, 24)), 0);
    assert_eq!(error_after(|s| s.put32(STREAM + 8, size + 1)), 16);
    assert_eq!(error_after(|s| s.put32(STREAM + 8, u32::MAX)), 16);
}

/// A change to a scene, and the error it alone would give.
type Change<'a> = (&'a dyn Fn(&mut Scene), u32);

#[test]
fn the_first_broken_rule_wins() {
    let ring = |s: &mut Scene| s.put32(RING + 16, 63);
    let descriptor = |s: &mut Scene| s.put32(SLOT, 1);
    let cmd_place = |s: &mut Scene| s.put64(CMD, MEMORY as u64);
    let table_place = |s: &mut Scene| s.put64(TAB, MEMORY as u64);
    let table = |s: &mut Scene| s.put32(TABLE, 0);
    let many = |s: &mut Scene| {
        s.put32(TAB + 8, 24 + 65 * 32);
        s.put32(TABLE + 8, 24 + 65 * 32);
        s.put32(TABLE + 12, 65);
    };
    let stream = |s: &mut Scene| s.put32(STREAM, 0);
    let entry = |s: &mut Scene| s.put32(TABLE + 24, 0);
    let changes: [Change; 8] = [
        (&ring, 10),
        (&descriptor, 11),
        (&cmd_place, 12),
        (&table_place, 12),
        (&table, 13),
        (&many, 19),
        (&stream, 16),
        (&entry, 0),
    ];
    for (i, (first, error)) in changes.iter().enumerate() {
        for (second, _) in &changes[i..] {
            let found = error_after(|s| {
                second(s);
                first(s);
            });
            assert_eq!(found, *error);
        }
    }
}

#[test]
fn refused_openings_settle_in_their_unit() {
    for (at, value, error) in [
        (SLOT, 63, 11),
        (CMD + 8, u32::MAX, 12),
        (TABLE, 0, 13),
        (STREAM, 0, 16),
    ] {
        let mut scene = good();
        scene.put64(SLOT + 48, 0x5_0000_0007);
        scene.put32(at, value);
        let ran = scene.run(1);
        assert_eq!((ran.units, ran.ended), (1, Ended::Paused));
        assert_eq!((scene.error(), scene.errors()), (error, 1));
        assert_eq!(scene.error_fence(), 0x5_0000_0007);
        assert_eq!(scene.completed(), 0x5_0000_0007);
        assert_eq!((scene.status(), scene.head()), (3, 1));
        assert_eq!(scene.answer(true), 3);
        assert_eq!(scene.run(9).ended, Ended::Idle);
    }
}
