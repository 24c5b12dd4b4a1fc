//! Error detail: where it broke.

use crate::scene::*;
use plain::{table_error, table_place, Ended};

const ENTRIES: [Entry; 2] = [(5, 0, 8192, 4096), (6, 1, 12_288, 4096)];
const SLOT: usize = RING + 64;
const CMD: usize = SLOT + 16;
const TAB: usize = SLOT + 32;

/// Error and detail once this one submission is refused.
fn refusal(scene: &mut Scene) -> (u32, u32) {
    assert_ne!(scene.verdict().0, 0);
    (scene.error(), scene.detail())
}

fn judged(packets: &[Vec<u8>]) -> (u32, u32) {
    refusal(&mut Scene::with(&ENTRIES, packets))
}

/// Where a packet after these stands in their stream.
fn place_after(packets: &[Vec<u8>]) -> u32 {
    stream(packets).len() as u32
}

/// A device whose detail is 40, for error 18, and that has nothing in work.
fn broken_at_40() -> Scene {
    let mut scene = Scene::with(&[], &[packet(7, 16), destroy(9)]);
    assert_eq!(refusal(&mut scene), (18, 40));
    scene
}

fn many(count: u32) -> Vec<Entry> {
    (1..=count).map(|id| (id, 0, 0, 1)).collect()
}

#[test]
fn entries_give_their_index_from_0() {
    for index in 0..64 {
        for bad in [(0, 0, 0, 1), (99, 0, 0, 0), (99, 0, MEMORY as u64, 1)] {
            let mut entries = many(64);
            entries[index] = bad;
            let mut scene = Scene::with(&entries, &[destroy(9)]);
            assert_eq!(refusal(&mut scene), (14, index as u32));
        }
    }
}

#[test]
fn a_duplicate_gives_the_later_index() {
    for (twin, index) in [(0, 1), (0, 63), (30, 31), (30, 40), (62, 63)] {
        let mut entries = many(64);
        entries[index].0 = entries[twin].0;
        let mut scene = Scene::with(&entries, &[destroy(9)]);
        assert_eq!(refusal(&mut scene), (15, index as u32));
    }
}

#[test]
fn an_index_knows_no_stride() {
    for stride in [32, 33, 100] {
        for (id, error) in [(0, 14), (1, 15)] {
            let entries = [(1, 0, 0, 1), (2, 0, 0, 1), (id, 0, 0, 1)];
            let bytes = table_with_stride(&entries, stride);
            let mut scene = Scene::with(&entries, &[]);
            scene.place(TAB, TABLE, &bytes);
            assert_eq!(refusal(&mut scene), (error, 2));
            let memory = MEMORY as u64;
            assert_eq!(table_error(&bytes, memory), error);
            assert_eq!(table_place(&bytes, memory), 2);
        }
    }
}

#[test]
fn the_first_bad_step_gives_the_place() {
    let entries = [(1, 0, 0, 1), (2, 0, 0, 1), (1, 0, 0, 1), (0, 0, 0, 0)];
    let mut scene = Scene::with(&entries, &[destroy(9)]);
    assert_eq!(refusal(&mut scene), (15, 2));
    let packets = [packet(7, 8), destroy(9), packet(7, 9)];
    assert_eq!(judged(&packets), (18, 32));
}

#[test]
fn every_packet_error_gives_the_packets_offset() {
    let before = [
        create_buffer(1, 256, 5, 0),
        create_buffer(2, 256, 0, 0),
        create_buffer(4, 256, 6, 0),
    ];
    for (bad, error) in [
        (packet(7, 4), 17),
        (packet(7, 9), 17),
        (packet(7, 12)[..8].to_vec(), 17),
        (sized(destroy(1), 12), 17),
        (create_buffer(1, 16, 0, 0), 18),
        (destroy(9), 18),
        (dirty(9, 0, 1), 18),
        (copy((1, 0), (9, 0), 1, 0), 18),
        (create_texture(9, (4, 1, 1, 1, 1, 4), 0, 0), 20),
        (create_buffer(9, 16, 9, 0), 21),
        (create_buffer(9, 16, 5, 4081), 22),
        (copy((4, 0), (1, 0), 1, 1), 23),
        (dirty(1, 1, 256), 24),
        (copy((1, 1), (2, 0), 256, 0), 24),
        (dirty(2, 0, 1), 25),
        (copy((1, 0), (1, 0), 1, 0), 26),
        (sized(target(1), 12), 17),
        (target(1), 18),
        (target(9), 18),
        (viewport([0; 6]), 30),
        (scissor((0, 0), (1, 1)), 30),
        (clear(8, [0; 4], 0, 0), 30),
        (sized(export(1, 1), 20), 17),
        (export(9, 1), 18),
        (export(1, 1), 20),
        (import(1, 1), 18),
        (import(9, 1), 29),
        (release(1), 29),
    ] {
        let mut packets = before.to_vec();
        packets.push(bad);
        assert_eq!(judged(&packets), (error, 24 + 3 * 40));
    }
}

#[test]
fn the_first_packet_stands_at_24() {
    for bad in [packet(7, 9), sized(destroy(1), 12), vec![0; 5]] {
        assert_eq!(judged(&[bad]), (17, 24));
    }
    assert_eq!(judged(&[destroy(1)]), (18, 24));
    assert_eq!(judged(&[create_buffer(1, 0, 0, 0)]), (20, 24));
}

#[test]
fn bytes_left_give_the_offset_of_the_first_of_them() {
    for packets in [vec![], vec![packet(7, 8)], night()] {
        for left in 1..8 {
            let place = place_after(&packets);
            let mut packets = packets.clone();
            packets.push(vec![0; left]);
            assert_eq!(judged(&packets), (17, place));
        }
    }
}

/// Packets of many sizes, unknown and grown ones among them, all good.
fn night() -> Vec<Vec<u8>> {
    vec![
        create_buffer(1, 256, 5, 64),
        packet(7, 8),
        grown(create_texture(3, (1, 5, 3, 3, 2, 20), 6, 512), &[0xDD; 64]),
        packet(260, 72),
        grown(dirty(3, 16, 32), &destroy(9)),
        destroy(1),
    ]
}

#[test]
fn offsets_count_the_packets_own_sizes() {
    let night = night();
    let mut seen = Vec::new();
    for index in 0..=night.len() {
        let (before, after) = night.split_at(index);
        let packets = [before, &[destroy(9)], after].concat();
        assert_eq!(judged(&packets), (18, place_after(before)));
        seen.push(place_after(before));
    }
    assert_eq!(seen, [24, 64, 72, 192, 264, 312, 328]);
}

#[test]
fn offsets_count_from_the_streams_first_byte() {
    let packets = [packet(7, 8), destroy(9)];
    let cmd = stream(&packets);
    for gpa in [1, STREAM, STREAM + 3, MEMORY - cmd.len()] {
        let mut scene = Scene::with(&ENTRIES, &packets);
        scene.write(0x120, 0);
        scene.place(CMD, gpa, &cmd);
        assert_eq!(refusal(&mut scene), (18, 32));
    }
}

#[test]
fn the_19_of_a_packet_gives_its_offset() {
    let buffers: Vec<_> = (1..=65).map(|i| create_buffer(i, 1, 0, 0)).collect();
    assert_eq!(judged(&buffers), (19, 24 + 64 * 40));
    let mut records = vec![create_buffer(1, 64, 5, 0)];
    records.extend((0..64).map(|i| dirty(1, i, 1)));
    assert_eq!(judged(&records), (19, 24 + 40 + 63 * 32));
    let mut scissors = vec![create_texture(1, (1, 5, 3, 1, 1, 0), 0, 0), target(1)];
    scissors.extend((0..65).map(|_| scissor((0, 0), (1, 1))));
    assert_eq!(judged(&scissors), (19, 24 + 56 + 16 + 64 * 24));
    let surface = create_texture(1, (1, 5, 3, 1, 1, 0), 0, 0);
    let mut exports = vec![surface];
    exports.extend((1..=257).map(|token| export(1, token)));
    assert_eq!(judged(&exports), (19, 24 + 56 + 256 * 24));
    exports.truncate(2);
    exports.extend((2..=65).map(|name| import(name, 1)));
    assert_eq!(judged(&exports), (19, 24 + 56 + 64 * 24));
}

/// A change to a scene, and the error it gives.
type Change<'a> = (&'a dyn Fn(&mut Scene), u32);

#[test]
fn errors_of_an_opening_give_0() {
    let table_of_65 = table(&many(65));
    let changes: [Change; 9] = [
        (&|s| s.put32(SLOT + 64, 63), 11),
        (&|s| s.put64(CMD + 64, 0), 11),
        (&|s| s.put64(CMD + 64, MEMORY as u64), 12),
        (&|s| s.put64(TAB + 64, MEMORY as u64), 12),
        (&|s| s.put32(TABLE, 0), 13),
        (&|s| s.put32(TABLE + 16, 31), 13),
        (&|s| s.place(TAB + 64, TABLE, &table_of_65), 19),
        (&|s| s.put32(STREAM, 0), 16),
        (&|s| s.put32(STREAM + 8, 23), 16),
    ];
    for (change, error) in changes {
        let mut scene = broken_at_40();
        scene.submit(&ENTRIES, &[destroy(9)], 2);
        change(&mut scene);
        assert_eq!(refusal(&mut scene), (error, 0));
        assert_eq!(scene.errors(), 2);
    }
}

#[test]
fn a_bad_ring_gives_0() {
    let mut scene = broken_at_40();
    scene.submit(&ENTRIES, &[destroy(9)], 2);
    scene.put32(RING, 0);
    assert_eq!(refusal(&mut scene), (10, 0));
}

#[test]
fn the_hosts_failed_gives_0() {
    let mut scene = broken_at_40();
    scene.submit(&ENTRIES, &[packet(7, 8)], 2);
    assert_eq!(scene.run(1000).ended, Ended::Waiting);
    assert_eq!((scene.error(), scene.detail()), (18, 40));
    assert_eq!(scene.answer(false), 0);
    assert_eq!((scene.error(), scene.detail()), (27, 0));
}

#[test]
fn a_later_error_overwrites_the_detail() {
    let mut scene = broken_at_40();
    scene.submit(&[], &[destroy(9)], 2);
    assert_eq!(refusal(&mut scene), (18, 24));
    scene.submit(&[(1, 0, 0, 1), (2, 0, 0, 1), (1, 0, 0, 1)], &[], 3);
    assert_eq!(refusal(&mut scene), (15, 2));
    // The index of the first entry is 0 as well.
    scene.submit(&[(0, 0, 0, 1)], &[], 4);
    assert_eq!(refusal(&mut scene), (14, 0));
}

#[test]
fn only_an_error_changes_the_detail() {
    let mut scene = broken_at_40();
    let changes: [&dyn Fn(&mut Scene); 7] = [
        &|s| s.write(0x308, u32::MAX),
        &|s| s.write(0x200, 0),
        &|s| assert_eq!(s.run(9).ended, Ended::Idle),
        &|s| s.settle_good(&ENTRIES, &[packet(7, 8)], 9),
        &|s| s.write(0x10C, 0),
        &|s| s.write(0x10C, 3),
        &|s| assert_eq!(s.desk.write(0x320, 5), 2),
    ];
    for change in changes {
        change(&mut scene);
        assert_eq!((scene.error(), scene.detail()), (18, 40));
    }
}

#[test]
fn the_detail_is_set_in_the_unit_that_fails() {
    let mut scene = broken_at_40();
    let packets = [packet(7, 8), packet(7, 12), destroy(9), packet(7, 8)];
    scene.submit(&ENTRIES, &packets, 2);
    for _ in 0..5 {
        scene.run(1);
        assert_eq!((scene.errors(), scene.detail()), (1, 40));
    }
    scene.run(1);
    assert_eq!((scene.errors(), scene.detail()), (2, 44));
    // So a reset before it leaves the old one.
    let mut scene = broken_at_40();
    scene.submit(&[], &[destroy(9)], 2);
    scene.run(1);
    scene.write(0x10C, 3);
    assert_eq!(scene.run(9).ended, Ended::Idle);
    assert_eq!((scene.errors(), scene.detail()), (1, 40));
}

#[test]
fn the_place_is_kept_from_the_units_before() {
    // The guest changes sizes of packets and the header after their units.
    let mut scene = Scene::with(&[], &[packet(7, 16), packet(7, 8), destroy(9)]);
    scene.run(3);
    scene.put32(STREAM + 8, 24);
    scene.put32(STREAM + 24 + 4, 8);
    scene.put32(STREAM + 40 + 4, 4);
    assert_eq!(refusal(&mut scene), (18, 48));
}

#[test]
fn a_tables_place_is_that_of_its_first_error() {
    let memory = MEMORY as u64;
    let found = |table: &[u8]| (table_error(table, memory), table_place(table, memory));
    assert_eq!(found(&[]), (13, 0));
    assert_eq!(found(&table(&many(64))), (0, 0));
    for index in 0..64 {
        let mut entries = many(64);
        entries[index].0 = 0;
        assert_eq!(found(&table(&entries)), (14, index as u32));
        entries[index].0 = if index == 0 { 2 } else { 1 };
        let later = index.max(1) as u32;
        assert_eq!(found(&table(&entries)), (15, later));
    }
    let mut entries = many(65);
    entries[7].0 = 0;
    assert_eq!(found(&table(&entries)), (19, 0));
    let mut bytes = table(&entries[..9]);
    assert_eq!(found(&bytes), (14, 7));
    put32(&mut bytes, 16, 31);
    assert_eq!(found(&bytes), (13, 0));
    // Entries are judged against the memory length that is told.
    let entries = [(1, 0, 0, 8), (2, 0, 8, 8), (3, 0, 16, 8)];
    for (memory, place) in [(0, 0), (8, 1), (16, 2), (23, 2), (24, 0)] {
        assert_eq!(table_place(&table(&entries), memory), place);
    }
}
