//! Entry steps.

use crate::scene::*;

#[test]
fn entry_rules() {
    let memory = MEMORY as u64;
    for (entry, error) in [
        ((1, 0, 0, 1), 0),
        ((u32::MAX, u32::MAX, 0, memory), 0),
        ((0, 0, 0, 1), 14),
        ((1, 0, 0, 0), 14),
        ((1, 0, memory - 1, 1), 0),
        ((1, 0, memory, 1), 14),
        ((1, 0, memory, 0), 14),
        ((1, 0, 0, memory + 1), 14),
        ((1, 0, u64::MAX, 1), 14),
        ((1, 0, 1, u64::MAX), 14),
        ((1, 0, u64::MAX, u64::MAX), 14),
    ] {
        assert_eq!(Scene::with(&[entry], &[]).verdict(), (error, 2));
    }
}

#[test]
fn a_bad_entry_comes_before_a_duplicate() {
    let entries = [(1, 0, 0, 1), (1, 0, 0, 0)];
    assert_eq!(Scene::with(&entries, &[]).verdict(), (14, 3));
}

#[test]
fn the_first_bad_entry_ends_the_table() {
    let entries = [(1, 0, 0, 1), (2, 0, 0, 1), (1, 0, 0, 1), (0, 0, 0, 0)];
    assert_eq!(Scene::with(&entries, &[]).verdict(), (15, 4));
}

#[test]
fn a_duplicate_of_any_earlier_entry() {
    let mut entries: Vec<Entry> = (1..=64).map(|id| (id, 0, 0, 1)).collect();
    for twin in [1, 30, 63] {
        entries[63].0 = twin;
        assert_eq!(Scene::with(&entries, &[]).verdict(), (15, 65));
    }
}

#[test]
fn overlapping_entries_pass() {
    let entries = [(1, 0, 0, 4096), (2, 0, 0, 4096), (3, 1, 100, 4096)];
    assert_eq!(Scene::with(&entries, &[]).verdict(), (0, 4));
}

#[test]
fn entries_follow_the_stride() {
    let mut scene = Scene::with(&[(1, 0, 0, 1)], &[dirty(9, 0, 0)]);
    let bytes = table_with_stride(&[(1, 0, 0, 1), (2, 0, 0, 1), (3, 0, 8, 64)], 56);
    scene.place(RING + 64 + 32, TABLE, &bytes);
    let packets = [create_buffer(1, 16, 3, 4)];
    scene.place(RING + 64 + 16, STREAM, &stream(&packets));
    assert_eq!(scene.verdict(), (0, 5));
    assert_eq!(scene.records(), [record(1, 1, 3, 12, 16)]);
}

#[test]
fn entries_are_judged_before_packets() {
    let entries = [(1, 0, 0, 1), (0, 0, 0, 1)];
    let packets = [destroy(1)];
    assert_eq!(Scene::with(&entries, &packets).verdict(), (14, 3));
}
