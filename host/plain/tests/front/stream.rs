//! The packet reader.

use crate::scene::*;

/// The verdict over a stream of these bytes after the header.
fn raw(bytes: &[u8]) -> (u32, u16) {
    let mut scene = Scene::with(&[], &[packet(7, 8)]);
    let cmd = stream(&[bytes.to_vec()]);
    scene.place(RING + 64 + 16, STREAM, &cmd);
    scene.verdict()
}

#[test]
fn an_empty_stream_has_no_packets() {
    assert_eq!(raw(&[]), (0, 1));
}

#[test]
fn one_to_seven_bytes_left() {
    for left in 1..8 {
        assert_eq!(raw(&vec![0; left]), (17, 2));
        let mut bytes = packet(7, 12);
        bytes.resize(12 + left, 0);
        assert_eq!(raw(&bytes), (17, 3));
    }
}

#[test]
fn packet_sizes() {
    for size in [0, 4, 7] {
        assert_eq!(raw(&packet(7, size)), (17, 2));
    }
    for size in [8, 12, 16, 400] {
        assert_eq!(raw(&packet(7, size)), (0, 2));
    }
    for size in [9, 10, 11, 13, 14, 15] {
        assert_eq!(raw(&packet(7, size)), (17, 2));
    }
    for size in [12, 0x8000_0000, u32::MAX - 3, u32::MAX] {
        assert_eq!(raw(&sized(packet(7, 8), size)), (17, 2));
    }
}

#[test]
fn known_opcodes_have_least_sizes() {
    for (opcode, least, error) in [
        (256, 40, 18),
        (257, 56, 18),
        (258, 16, 18),
        (259, 32, 18),
        (261, 48, 18),
        (1024, 16, 18),
        (1025, 32, 30),
        (1026, 24, 30),
        (1536, 36, 30),
        (1808, 24, 18),
        (1809, 24, 18),
        (1810, 16, 29),
    ] {
        for size in 0..200 {
            let mut bytes = packet(opcode, size);
            bytes.resize(200, 0);
            put32(&mut bytes, 8, 0);
            // A good size reaches the packet's own rules; all handles are bad,
            // as are the viewport's sides, the clear's depth and the token.
            let good = size >= least && size % 4 == 0;
            let expected = if good { error } else { 17 };
            assert_eq!(raw(&bytes), (expected, 2), "{} of {}", opcode, size);
        }
    }
}

#[test]
fn unknown_opcodes_are_skipped_at_the_price_of_a_unit() {
    for opcode in [
        0,
        1,
        255,
        260,
        262,
        1023,
        1027,
        1535,
        1537,
        1807,
        1811,
        u32::MAX,
    ] {
        let bytes = [packet(opcode, 8), packet(opcode, 64)].concat();
        assert_eq!(raw(&bytes), (0, 3));
    }
}

#[test]
fn bytes_past_the_stream_size_are_no_packets() {
    let mut scene = Scene::with(&[], &[packet(7, 8), destroy(1)]);
    scene.put32(STREAM + 8, 32);
    assert_eq!(scene.verdict(), (0, 2));
    let mut scene = Scene::with(&[], &[packet(7, 8), destroy(1)]);
    scene.put32(STREAM + 8, 40);
    assert_eq!(scene.verdict(), (17, 3));
    let mut scene = Scene::with(&[], &[packet(7, 8), destroy(1)]);
    scene.put32(STREAM + 8, 33);
    assert_eq!(scene.verdict(), (17, 3));
}

#[test]
fn the_first_bad_packet_ends_the_stream() {
    let packets = [packet(7, 8), destroy(1), packet(7, 9)];
    assert_eq!(Scene::with(&[], &packets).verdict(), (18, 3));
}

#[test]
fn a_stream_and_a_table_may_end_with_memory() {
    for left in 0..8 {
        let mut scene = Scene::with(&[], &[packet(7, 8)]);
        let cmd = stream(&[packet(7, 8), vec![0; left]]);
        scene.place(RING + 64 + 16, MEMORY - cmd.len(), &cmd);
        let expected = if left == 0 { (0, 2) } else { (17, 3) };
        assert_eq!(scene.verdict(), expected);
    }
    let mut scene = Scene::with(&[(1, 0, 0, 1)], &[]);
    let bytes = table(&[(1, 0, 0, 1), (2, 0, 0, 1)]);
    scene.place(RING + 64 + 32, MEMORY - bytes.len(), &bytes);
    assert_eq!(scene.verdict(), (0, 3));
}
