//! The packet rules, each at its boundary and in its order.

use crate::scene::*;

const ENTRIES: [Entry; 3] = [
    (5, 0, 8192, 4096),
    (6, 1, 12_288, 4096),
    (u32::MAX, 0, 0, 100),
];
const BAD_TEXTURE: Texture = (4, 1, 1, 1, 1, 4);
const GOOD_TEXTURE: Texture = (1, 16, 16, 1, 1, 64);

fn judged(packets: &[Vec<u8>]) -> u32 {
    verdict(&ENTRIES, packets)
}

#[test]
fn create_handles() {
    assert_eq!(judged(&[create_buffer(0, 1, 0, 0)]), 18);
    assert_eq!(judged(&[create_texture(0, GOOD_TEXTURE, 0, 0)]), 18);
    assert_eq!(judged(&[create_buffer(u32::MAX, 1, 0, 0)]), 0);
    let twice = [create_buffer(1, 1, 0, 0), create_buffer(1, 1, 0, 0)];
    assert_eq!(judged(&twice), 18);
    let both = [
        create_texture(1, GOOD_TEXTURE, 0, 0),
        create_buffer(1, 1, 0, 0),
    ];
    assert_eq!(judged(&both), 18);
}

#[test]
fn create_order() {
    // Handle before shape before id before range.
    assert_eq!(judged(&[create_buffer(0, 0, 9, 0)]), 18);
    assert_eq!(judged(&[create_buffer(1, 0, 9, 0)]), 20);
    assert_eq!(judged(&[create_buffer(1, 5000, 9, 0)]), 21);
    assert_eq!(judged(&[create_buffer(1, 5000, 5, 0)]), 22);
    assert_eq!(judged(&[create_texture(0, BAD_TEXTURE, 9, 0)]), 18);
    assert_eq!(judged(&[create_texture(1, BAD_TEXTURE, 9, 0)]), 20);
    assert_eq!(judged(&[create_texture(1, GOOD_TEXTURE, 9, 0)]), 21);
    assert_eq!(judged(&[create_texture(1, GOOD_TEXTURE, 5, 3073)]), 22);
    assert_eq!(judged(&[create_texture(1, GOOD_TEXTURE, 5, 3072)]), 0);
}

#[test]
fn create_ranges() {
    assert_eq!(judged(&[create_buffer(1, 4096, 5, 0)]), 0);
    assert_eq!(judged(&[create_buffer(1, 4096, 5, 1)]), 22);
    assert_eq!(judged(&[create_buffer(1, 1, 5, 4095)]), 0);
    assert_eq!(judged(&[create_buffer(1, 1, 5, 4096)]), 22);
    assert_eq!(judged(&[create_buffer(1, u64::MAX, 5, u32::MAX)]), 22);
    assert_eq!(judged(&[create_buffer(1, u64::MAX, 5, 1)]), 22);
    assert_eq!(judged(&[create_buffer(1, 100, u32::MAX, 0)]), 0);
    assert_eq!(judged(&[create_buffer(1, 101, u32::MAX, 0)]), 22);
    // Host-backed: no range, whatever the offset and the pitch.
    assert_eq!(judged(&[create_buffer(1, u64::MAX, 0, u32::MAX)]), 0);
    let texture = (66, 16_384, 16_384, 15, 256, 0);
    assert_eq!(judged(&[create_texture(1, texture, 0, u32::MAX)]), 0);
}

#[test]
fn create_without_a_table() {
    assert_eq!(verdict(&[], &[create_buffer(1, 1, 5, 0)]), 21);
    assert_eq!(verdict(&[], &[create_buffer(1, 1, 0, 0)]), 0);
}

#[test]
fn create_records() {
    let packets = [
        create_buffer(1, 16, 0, 7),
        create_buffer(2, 16, 6, 7),
        create_texture(3, (64, 5, 5, 3, 2, 20), 5, 100),
        create_texture(4, (64, 5, 5, 3, 2, 1), 0, 100),
    ];
    let expected = [
        record(1, 2, 6, 12_295, 16),
        record(1, 3, 5, 8292, 2 * (40 + 8 + 8)),
    ];
    assert_eq!(records(&ENTRIES, &packets), expected);
}

#[test]
fn at_most_64_resources() {
    let mut packets: Vec<_> = (1..=64).map(|h| create_buffer(h, 1, 0, 0)).collect();
    assert_eq!(judged(&packets), 0);
    packets.push(create_buffer(65, 1, 0, 0));
    assert_eq!(judged(&packets), 19);
    // The other rules come first.
    packets[64] = create_buffer(64, 0, 9, 0);
    assert_eq!(judged(&packets), 18);
    packets[64] = create_buffer(65, 0, 9, 0);
    assert_eq!(judged(&packets), 20);
    packets[64] = create_buffer(65, 1, 9, 0);
    assert_eq!(judged(&packets), 21);
    packets[64] = create_buffer(65, 1, 5, 4096);
    assert_eq!(judged(&packets), 22);
    packets[64] = create_buffer(65, 1, 5, 0);
    assert_eq!(judged(&packets), 19);
    // The room of a destroyed one is used again.
    packets[64] = destroy(30);
    packets.push(create_buffer(65, 1, 0, 0));
    assert_eq!(judged(&packets), 0);
    packets.push(create_buffer(66, 1, 0, 0));
    assert_eq!(judged(&packets), 19);
}

#[test]
fn at_most_64_records() {
    let mut packets = vec![create_buffer(1, 64, 5, 0)];
    packets.extend((0..63).map(|_| dirty(1, 0, 1)));
    assert_eq!(judged(&packets), 0);
    let with = |packet| {
        let mut packets = packets.clone();
        packets.push(create_buffer(9, 64, 0, 0));
        packets.push(packet);
        judged(&packets)
    };
    assert_eq!(with(dirty(1, 0, 1)), 19);
    assert_eq!(with(create_buffer(2, 1, 5, 0)), 19);
    assert_eq!(with(copy((1, 0), (9, 0), 1, 1)), 19);
    // These make no record.
    assert_eq!(with(dirty(1, 0, 0)), 0);
    assert_eq!(with(create_buffer(2, 1, 0, 0)), 0);
    assert_eq!(with(copy((1, 0), (9, 0), 1, 0)), 0);
    assert_eq!(with(copy((1, 0), (9, 0), 0, 1)), 0);
    assert_eq!(with(destroy(1)), 0);
    // The other rules come first.
    assert_eq!(with(dirty(1, 0, 65)), 24);
    assert_eq!(with(create_buffer(2, 1, 5, 4096)), 22);
    assert_eq!(with(copy((1, 64), (9, 0), 1, 1)), 24);
}

#[test]
fn destroy_handles() {
    assert_eq!(judged(&[destroy(0)]), 18);
    assert_eq!(judged(&[destroy(1)]), 18);
    let again = [create_buffer(1, 1, 0, 0), destroy(1), destroy(1)];
    assert_eq!(judged(&again), 18);
    let reused = [
        create_buffer(1, 1, 0, 0),
        destroy(1),
        create_texture(1, GOOD_TEXTURE, 0, 0),
        destroy(1),
    ];
    assert_eq!(judged(&reused), 0);
}

#[test]
fn dirty_order_and_ranges() {
    let with = |packet| judged(&[create_buffer(1, 256, 5, 64), packet]);
    assert_eq!(with(dirty(2, 0, 1)), 18);
    assert_eq!(with(dirty(0, 0, 1)), 18);
    assert_eq!(with(dirty(1, 0, 256)), 0);
    assert_eq!(with(dirty(1, 1, 256)), 24);
    assert_eq!(with(dirty(1, 256, 1)), 24);
    assert_eq!(with(dirty(1, 256, 0)), 0);
    assert_eq!(with(dirty(1, 257, 0)), 24);
    assert_eq!(with(dirty(1, u64::MAX, 1)), 24);
    assert_eq!(with(dirty(1, u64::MAX, u64::MAX)), 24);
    assert_eq!(with(dirty(1, 1, u64::MAX)), 24);
}

#[test]
fn dirty_of_host_backed_comes_before_the_range() {
    let with = |packet| judged(&[create_buffer(1, 256, 0, 64), packet]);
    assert_eq!(with(dirty(1, 0, 1)), 25);
    assert_eq!(with(dirty(1, 0, 0)), 25);
    assert_eq!(with(dirty(1, 1, 256)), 25);
    let texture = [create_texture(1, GOOD_TEXTURE, 0, 0), dirty(1, 0, 0)];
    assert_eq!(judged(&texture), 25);
}

#[test]
fn dirty_textures_reach_to_the_packed_size() {
    let with = |packet| judged(&[create_texture(1, (1, 5, 3, 3, 2, 20), 5, 0), packet]);
    assert_eq!(with(dirty(1, 0, 144)), 0);
    assert_eq!(with(dirty(1, 1, 144)), 24);
    assert_eq!(with(dirty(1, 144, 0)), 0);
}

#[test]
fn dirty_uses_this_submissions_table() {
    // Made over a table where the entry has 4,096 bytes.
    let mut scene = Scene::new();
    scene.settle_good(&ENTRIES, &[create_buffer(1, 256, 5, 64)], 1);
    let judged = |entries: &[Entry], offset, size| {
        let mut scene = scene.clone();
        scene.submit(entries, &[dirty(1, offset, size)], 2);
        scene.verdict().0
    };
    assert_eq!(judged(&[(5, 0, 0, 320)], 0, 256), 0);
    assert_eq!(judged(&[(5, 0, 0, 319)], 0, 256), 22);
    assert_eq!(judged(&[(5, 0, 0, 319)], 0, 255), 0);
    assert_eq!(judged(&[(5, 0, 0, 64)], 0, 0), 0);
    assert_eq!(judged(&[(5, 0, 0, 63)], 0, 0), 22);
    assert_eq!(judged(&[(4, 0, 0, 320)], 0, 256), 21);
    assert_eq!(judged(&[(4, 0, 0, 320)], 0, 0), 21);
    assert_eq!(judged(&[], 0, 1), 21);
    assert_eq!(judged(&[], 1, 256), 24);
    // The record names this table's place.
    let mut moved = scene.clone();
    moved.submit(&[(4, 0, 0, 1), (5, 0, 1000, 400)], &[dirty(1, 6, 7)], 2);
    assert_eq!(moved.verdict().0, 0);
    assert_eq!(moved.records(), [record(2, 1, 5, 1070, 7)]);
}

#[test]
fn copy_handles_and_flags() {
    let with = |packet| {
        judged(&[
            create_buffer(1, 256, 5, 0),
            create_buffer(2, 256, 0, 0),
            create_texture(3, GOOD_TEXTURE, 5, 0),
            packet,
        ])
    };
    assert_eq!(with(copy((1, 0), (2, 0), 1, 0)), 0);
    assert_eq!(with(copy((9, 0), (2, 0), 1, 0)), 18);
    assert_eq!(with(copy((1, 0), (9, 0), 1, 0)), 18);
    assert_eq!(with(copy((0, 0), (0, 0), 1, 2)), 18);
    assert_eq!(with(copy((3, 0), (2, 0), 1, 0)), 18);
    assert_eq!(with(copy((1, 0), (3, 0), 1, 0)), 18);
    assert_eq!(with(copy((3, 0), (3, 0), 1, 0)), 18);
    assert_eq!(with(copy((1, 0), (1, 0), 1, 0)), 26);
    assert_eq!(with(copy((1, 0), (1, 0), 999, 0)), 26);
    for flags in [2, 3, 0x8000_0000, u32::MAX] {
        assert_eq!(with(copy((1, 0), (2, 0), 1, flags)), 26);
        assert_eq!(with(copy((1, 0), (2, 0), 999, flags)), 26);
        assert_eq!(with(copy((9, 0), (2, 0), 1, flags)), 18);
    }
}

#[test]
fn copy_ranges() {
    let with = |packet| {
        judged(&[
            create_buffer(1, 100, 0, 0),
            create_buffer(2, 200, 0, 0),
            packet,
        ])
    };
    assert_eq!(with(copy((1, 0), (2, 100), 100, 0)), 0);
    assert_eq!(with(copy((1, 1), (2, 0), 100, 0)), 24);
    assert_eq!(with(copy((1, 0), (2, 101), 100, 0)), 24);
    assert_eq!(with(copy((2, 0), (1, 0), 101, 0)), 24);
    assert_eq!(with(copy((1, 100), (2, 200), 0, 0)), 0);
    assert_eq!(with(copy((1, 101), (2, 200), 0, 0)), 24);
    assert_eq!(with(copy((1, 100), (2, 201), 0, 0)), 24);
    assert_eq!(with(copy((1, u64::MAX), (2, 0), 2, 0)), 24);
    assert_eq!(with(copy((1, 0), (2, u64::MAX), 1, 0)), 24);
    // Range before host-backed.
    assert_eq!(with(copy((1, 0), (2, 101), 100, 1)), 24);
    assert_eq!(with(copy((1, 0), (2, 100), 100, 1)), 25);
    assert_eq!(with(copy((1, 0), (2, 0), 0, 1)), 25);
}

#[test]
fn writeback_looks_at_the_destination_only() {
    let mut scene = Scene::new();
    let made = [
        create_buffer(1, 256, 5, 64),
        create_buffer(2, 256, 0, 0),
        create_buffer(3, 256, 6, 0),
    ];
    scene.settle_good(&ENTRIES, &made, 1);
    let judged = |entries: &[Entry], packet| {
        let mut scene = scene.clone();
        scene.submit(entries, &[packet], 2);
        let error = scene.verdict().0;
        (error, scene.records())
    };
    let good = (5, 0, 1000, 320);
    let none = Vec::new;
    let write = |offset, size| copy((1, offset), (2, 0), size, 1);
    assert_eq!(
        judged(&[good], write(16, 8)),
        (0, vec![record(3, 1, 5, 1080, 8)])
    );
    assert_eq!(judged(&[good], write(16, 0)), (0, none()));
    // Without writeback no table is asked.
    assert_eq!(judged(&[], copy((1, 0), (3, 0), 8, 0)), (0, none()));
    assert_eq!(judged(&[], copy((2, 0), (1, 0), 8, 0)), (0, none()));
    // The source's backing does not count.
    let from_3 = copy((1, 0), (3, 0), 8, 1);
    assert_eq!(judged(&[good], from_3), (0, vec![record(3, 1, 5, 1064, 8)]));
    for size in [0, 8] {
        assert_eq!(judged(&[], write(0, size)).0, 21);
        assert_eq!(judged(&[(6, 0, 0, 320)], write(0, size)).0, 21);
        assert_eq!(judged(&[(5, 1, 0, 63)], write(0, size)).0, 22);
        assert_eq!(judged(&[(5, 0, 0, 63)], write(0, size)).0, 22);
        assert_eq!(judged(&[(5, 1, 0, 320)], write(0, size)).0, 23);
        assert_eq!(judged(&[(5, 0xFFFF_FFFE, 0, 320)], write(0, size)).0, 0);
    }
    assert_eq!(judged(&[(5, 0, 0, 319)], write(0, 256)).0, 22);
    assert_eq!(judged(&[(5, 0, 0, 320)], write(0, 256)).0, 0);
}

#[test]
fn read_only_entries_may_back_creates_and_dirty_ranges() {
    let packets = [create_buffer(1, 256, 6, 0), dirty(1, 0, 256)];
    assert_eq!(judged(&packets), 0);
}

#[test]
fn read_only_comes_before_room() {
    let mut packets = vec![create_buffer(1, 64, 6, 0), create_buffer(2, 64, 0, 0)];
    packets.extend((0..63).map(|_| dirty(1, 0, 1)));
    packets.push(copy((1, 0), (2, 0), 1, 1));
    assert_eq!(judged(&packets), 23);
}

#[test]
fn packets_see_what_earlier_packets_left() {
    let packets = [
        create_buffer(1, 16, 5, 0),
        destroy(1),
        create_buffer(1, 32, 6, 0),
        dirty(1, 16, 16),
    ];
    let expected = [
        record(1, 1, 5, 8192, 16),
        record(1, 1, 6, 12_288, 32),
        record(2, 1, 6, 12_304, 16),
    ];
    assert_eq!(records(&ENTRIES, &packets), expected);
}
