//! The listed bytes: which fields, and how far the opening gets.

use crate::scene::*;
use plain::listed::{fields, listed_by, not_listed, submission_listed, Layout, LAYOUTS};
use std::ops::Range;

/// Where the first slot is.
const SLOT: usize = RING + 64;

fn listed(scene: &Scene) -> Vec<Range<usize>> {
    submission_listed(&scene.mem, RING as u64, RING_SIZE)
}

/// The fields of this layout at this place.
fn at(layout: Layout, start: usize) -> Vec<Range<usize>> {
    let fields = fields(layout).iter();
    fields
        .map(|(at, width)| start + at..start + at + width)
        .collect()
}

/// The fields of these layouts at their places.
fn all(parts: &[(Layout, usize)]) -> Vec<Range<usize>> {
    parts
        .iter()
        .flat_map(|(layout, start)| at(*layout, *start))
        .collect()
}

/// What the opening lists before the table.
const OPENED: [(Layout, usize); 2] = [(Layout::RingHeader, RING), (Layout::Descriptor, SLOT)];

/// What it lists with a table and a stream.
const HEADERS: [(Layout, usize); 4] = [
    OPENED[0],
    OPENED[1],
    (Layout::TableHeader, TABLE),
    (Layout::StreamHeader, STREAM),
];

/// A submission of one entry and one unknown packet.
fn small() -> Scene {
    Scene::with(&[(5, 0, 8192, 4096)], &[packet(7, 12)])
}

#[test]
fn every_field_of_a_whole_submission() {
    let scene = Scene::with(&[(5, 0, 8192, 4096)], &[grown(destroy(1), &[1; 8])]);
    let starts = |start: usize, fields: &[(usize, usize)]| -> Vec<Range<usize>> {
        fields
            .iter()
            .map(|(at, width)| start + at..start + at + width)
            .collect()
    };
    let ring = [(0, 4), (4, 4), (8, 4), (12, 4), (16, 4), (24, 4), (28, 4)];
    let slot = [(0, 4), (4, 4), (16, 8), (24, 4), (32, 8), (40, 4), (48, 8)];
    let expected = [
        starts(RING, &ring),
        starts(SLOT, &slot),
        starts(TABLE, &[(0, 4), (4, 4), (8, 4), (12, 4), (16, 4)]),
        starts(STREAM, &[(0, 4), (4, 4), (8, 4)]),
        starts(TABLE + 24, &[(0, 4), (4, 4), (8, 8), (16, 8)]),
        starts(STREAM + 24, &[(0, 4), (4, 4), (8, 4)]),
    ];
    assert_eq!(listed(&scene), expected.concat());
}

#[test]
fn fields_rise_and_stay_within_their_layouts() {
    for (layout, size) in LAYOUTS.iter().zip([
        64, 64, 24, 32, 24, 8, 40, 56, 16, 32, 48, 16, 32, 24, 36, 24, 24, 16,
    ]) {
        let mut end = match layout {
            Layout::Packet(_) => 8,
            _ => 0,
        };
        assert!(!fields(*layout).is_empty());
        for (at, width) in fields(*layout) {
            assert!(*at >= end && [4, 8].contains(width), "{:?}", layout);
            end = at + width;
        }
        assert!(end <= size, "{:?}", layout);
    }
    for opcode in [0, 7, 255, 260, 262, 1027, 1811, u32::MAX] {
        assert!(fields(Layout::Packet(opcode)).is_empty());
    }
}

#[test]
fn no_header_of_a_ring_that_is_not_there() {
    let scene = small();
    for (ring, size) in [
        (RING as u64, 0),
        (RING as u64, 63),
        (MEMORY as u64 - 63, 64),
        (RING as u64, MEMORY as u32),
        (u64::MAX, u32::MAX),
        (u64::MAX - 63, 64),
    ] {
        assert_eq!(submission_listed(&scene.mem, ring, size), []);
    }
    assert_eq!(submission_listed(&[], 0, 64), []);
}

#[test]
fn no_slot_of_a_bad_ring_or_an_empty_one() {
    for (offset, value) in [
        (0, 0),
        (4, 0),
        (8, 63),
        (12, 3),
        (16, 63),
        (28, 9),
        (24, 1),
        (28, 0),
    ] {
        let mut scene = small();
        scene.put32(RING + offset, value);
        assert_eq!(listed(&scene), all(&OPENED[..1]), "{}", offset);
    }
    let scene = small();
    let shorter = submission_listed(&scene.mem, RING as u64, RING_SIZE - 1);
    assert_eq!(shorter, all(&OPENED[..1]));
}

#[test]
fn the_slot_is_the_heads() {
    let mut scene = Scene::new();
    scene.put_ring(RING, u32::MAX);
    scene.submit(&[], &[], 1);
    let expected = [OPENED[0], (Layout::Descriptor, RING + 64 + 7 * 64)];
    assert_eq!(listed(&scene), all(&expected));
}

#[test]
fn no_table_after_11_or_12() {
    for (offset, value) in [
        (0, 63),
        (0, 65),
        (16, 0),
        (40, 0),
        (20, u32::MAX),
        (24, MEMORY as u32),
        (36, 1),
    ] {
        let mut scene = small();
        scene.put32(SLOT + offset, value);
        assert_eq!(listed(&scene), all(&OPENED), "{}", offset);
    }
}

#[test]
fn no_stream_header_after_13_or_19() {
    for (offset, value) in [(0, 0), (4, 0), (8, 23), (12, 2), (16, 31)] {
        let mut scene = small();
        scene.put32(TABLE + offset, value);
        assert_eq!(listed(&scene), all(&HEADERS[..3]), "{}", offset);
    }
    let many: Vec<Entry> = (1..=65).map(|id| (id, 0, 0, 1)).collect();
    let mut scene = Scene::with(&many, &[packet(7, 8)]);
    assert_eq!(listed(&scene), all(&HEADERS[..3]));
    assert_eq!(scene.verdict(), (19, 1));
    let mut short = small();
    short.put32(SLOT + 40, 23);
    assert_eq!(listed(&short), all(&OPENED));
    assert_eq!(short.verdict(), (13, 1));
}

#[test]
fn no_entry_or_packet_after_16() {
    for (offset, value) in [(0, 0), (4, 0), (8, 23), (8, 37)] {
        let mut scene = small();
        scene.put32(STREAM + offset, value);
        assert_eq!(listed(&scene), all(&HEADERS), "{}", offset);
    }
    let mut short = small();
    short.put32(SLOT + 24, 23);
    assert_eq!(listed(&short), all(&HEADERS[..3]));
    assert_eq!(short.verdict(), (16, 1));
}

#[test]
fn what_is_absent_is_not_listed() {
    assert_eq!(listed(&Scene::with(&[], &[])), all(&OPENED));
    let table = Scene::with(&[(5, 0, 8192, 4096)], &[]);
    let expected = [
        OPENED[0],
        OPENED[1],
        HEADERS[2],
        (Layout::Entry, TABLE + 24),
    ];
    assert_eq!(listed(&table), all(&expected));
    let stream = Scene::with(&[], &[release(1)]);
    let expected = [
        OPENED[0],
        OPENED[1],
        HEADERS[3],
        (Layout::PacketHeader, STREAM + 24),
        (Layout::Packet(1810), STREAM + 24),
    ];
    assert_eq!(listed(&stream), all(&expected));
}

#[test]
fn entries_and_packets_behind_a_broken_rule_are_listed() {
    let mut scene = Scene::with(&[(1, 0, 0, 8)], &[destroy(9), packet(7, 16), target(3)]);
    let entries = [(0, 0, 0, 0), (1, 0, 0, 8), (1, 0, 0, 8)];
    scene.place(SLOT + 32, TABLE, &table_with_stride(&entries, 36));
    let mut expected = HEADERS.to_vec();
    expected.extend((0..3).map(|i| (Layout::Entry, TABLE + 24 + 36 * i)));
    for (at, opcode) in [(24, 258), (40, 7), (56, 1024)] {
        expected.push((Layout::PacketHeader, STREAM + at));
        expected.push((Layout::Packet(opcode), STREAM + at));
    }
    assert_eq!(listed(&scene), all(&expected));
}

#[test]
fn of_a_misframed_packet_its_header() {
    for bad in [
        packet(258, 12),
        packet(7, 4),
        packet(7, 10),
        sized(destroy(1), 4096),
    ] {
        let scene = Scene::with(&[], &[destroy(1), bad, destroy(2)]);
        let expected = [
            OPENED[0],
            OPENED[1],
            HEADERS[3],
            (Layout::PacketHeader, STREAM + 24),
            (Layout::Packet(258), STREAM + 24),
            (Layout::PacketHeader, STREAM + 40),
        ];
        assert_eq!(listed(&scene), all(&expected));
    }
    for left in 1..8 {
        let scene = Scene::with(&[], &[vec![0; left]]);
        assert_eq!(listed(&scene), all(&[OPENED[0], OPENED[1], HEADERS[3]]));
    }
}

#[test]
fn other_fields_list_other_bytes() {
    let scene = small();
    let fewer = |layout| match layout {
        Layout::Descriptor => &fields(layout)[1..],
        _ => fields(layout),
    };
    let mut expected = listed(&scene);
    expected.retain(|range| *range != (SLOT..SLOT + 4));
    let ranges = listed_by(fewer, &scene.mem, RING as u64, RING_SIZE);
    assert_eq!(ranges, expected);
}

/// Ranges that begin at these numbers and end at those.
fn ranges(ends: &[(usize, usize)]) -> Vec<Range<usize>> {
    ends.iter().map(|(start, end)| *start..*end).collect()
}

#[test]
fn gaps() {
    let gaps = |length, listed: &[(usize, usize)]| not_listed(length, &ranges(listed));
    assert_eq!(gaps(0, &[]), []);
    assert_eq!(gaps(9, &[]), ranges(&[(0, 9)]));
    assert_eq!(gaps(9, &[(0, 9)]), []);
    assert_eq!(
        gaps(9, &[(4, 6), (1, 2)]),
        ranges(&[(0, 1), (2, 4), (6, 9)])
    );
    assert_eq!(gaps(9, &[(2, 8), (3, 4), (4, 9)]), ranges(&[(0, 2)]));
    assert_eq!(gaps(9, &[(0, 2), (2, 4), (12, 14)]), ranges(&[(4, 9)]));
    let scene = small();
    let listed = listed(&scene);
    let gaps = not_listed(MEMORY, &listed);
    for at in 0..MEMORY {
        let is_listed = listed.iter().any(|range| range.contains(&at));
        let is_in_gap = gaps.iter().any(|range| range.contains(&at));
        assert!(is_listed != is_in_gap, "{}", at);
    }
}
