//! The dump: every name and field, errors, unknown packets and bad input.

use crate::scene::*;
use plain::dump::{dump, listing};

/// A strict or other input of this stream.
fn input(setting: u8, stream: &[u8]) -> Vec<u8> {
    [&[setting], stream].concat()
}

/// A packet of this opcode and size, whose words from 8 on are these.
fn words(opcode: u32, words: &[u32]) -> Vec<u8> {
    let mut bytes = packet(opcode, 8 + 4 * words.len() as u32);
    for (i, word) in words.iter().enumerate() {
        put32(&mut bytes, 8 + 4 * i, *word);
    }
    bytes
}

/// The text for one packet of each opcode.
const FULL_LISTING: &str = "\
0x00000018 CreateBuffer size_bytes=40 handle=1 size=18446744073709551615 backing_id=5 backing_offset=64
0x00000040 CreateTexture size_bytes=56 handle=2 format=64 width=5 height=6 mips=3 layers=4 pitch=16 backing_id=7 backing_offset=4294967295
0x00000078 DirtyRange size_bytes=32 handle=1 offset=4294967296 size=32
0x00000098 CopyBuffer size_bytes=48 dst=1 src=3 dst_offset=2 src_offset=4 size=5 flags=6
0x000000c8 Target size_bytes=16 handle=2
0x000000d8 Viewport size_bytes=32 x=0 y=2147483648 width=1065353216 height=2139095040 near=2141192193 far=4294967295
0x000000f8 Scissor size_bytes=24 x=-1 y=-2147483648 width=2147483647 height=0
0x00000110 Clear size_bytes=36 flags=9 red=1 green=2 blue=3 alpha=4290772992 depth=5 stencil=6
0x00000134 Export size_bytes=24 handle=2 token=10000000000
0x0000014c Import size_bytes=24 handle=3 token=0
0x00000164 Release size_bytes=16 token=18446744073709551615
0x00000174 Destroy size_bytes=16 handle=1
";

#[test]
fn a_full_listing() {
    let packets = [
        create_buffer(1, u64::MAX, 5, 64),
        create_texture(2, (64, 5, 6, 3, 4, 16), 7, u32::MAX),
        dirty(1, 1 << 32, 32),
        copy((1, 2), (3, 4), 5, 6),
        target(2),
        viewport([
            0,
            0x8000_0000,
            0x3F80_0000,
            0x7F80_0000,
            0x7FA0_0001,
            u32::MAX,
        ]),
        scissor((-1, i32::MIN), (i32::MAX, 0)),
        clear(9, [1, 2, 3, 0xFFC0_0000], 5, 6),
        export(2, 10_000_000_000),
        import(3, 0),
        release(u64::MAX),
        destroy(1),
    ];
    let stream = stream(&packets);
    assert_eq!(dump(&stream, false), FULL_LISTING);
    assert_eq!(dump(&stream, true), FULL_LISTING);
    assert_eq!(listing(&input(0, &stream)), FULL_LISTING);
    assert_eq!(listing(&input(1, &stream)), FULL_LISTING);
}

#[test]
fn bad_inputs() {
    let good = stream(&[]);
    assert_eq!(listing(&[]), "bad input\n");
    for setting in 2..=u8::MAX {
        assert_eq!(listing(&[setting]), "bad input\n");
        assert_eq!(listing(&input(setting, &good)), "bad input\n");
    }
    for setting in [0, 1] {
        let mut longest = good.clone();
        longest.resize(65_536, 0);
        assert_eq!(listing(&input(setting, &longest)), "");
        longest.push(0);
        assert_eq!(listing(&input(setting, &longest)), "bad input\n");
        assert_eq!(dump(&longest, setting == 1), "");
        assert_eq!(listing(&input(setting, &vec![0; 65_537])), "bad input\n");
    }
}

#[test]
fn bad_headers() {
    let good = stream(&[destroy(1)]);
    for setting in [0, 1] {
        for length in 0..good.len() {
            assert_eq!(listing(&input(setting, &good[..length])), "error=16\n");
        }
        for (at, value) in [(0, 0), (4, 0), (4, 0x2_0000), (8, 23), (8, 41)] {
            let mut bad = good.clone();
            put32(&mut bad, at, value);
            assert_eq!(listing(&input(setting, &bad)), "error=16\n");
        }
    }
    let mut minor = good;
    put32(&mut minor, 4, 0x1_FFFF);
    assert_eq!(
        dump(&minor, false),
        "0x00000018 Destroy size_bytes=16 handle=1\n"
    );
}

#[test]
fn a_stream_of_no_packets_prints_nothing() {
    assert_eq!(dump(&stream(&[]), false), "");
    let mut trailing = stream(&[destroy(1), vec![0; 5]]);
    put32(&mut trailing, 8, 24);
    assert_eq!(dump(&trailing, true), "");
    put32(&mut trailing, 8, 40);
    assert_eq!(
        dump(&trailing, true),
        "0x00000018 Destroy size_bytes=16 handle=1\n"
    );
}

#[test]
fn a_bad_packet_ends_the_listing() {
    let first = "0x00000018 Target size_bytes=16 handle=3\n";
    for bad in [
        packet(7, 0),
        packet(7, 4),
        packet(7, 10),
        sized(packet(7, 8), 28),
        sized(destroy(1), u32::MAX - 3),
        sized(destroy(1), 12),
        vec![0; 1],
        vec![0; 7],
    ] {
        let stream = stream(&[target(3), bad]);
        for strict in [false, true] {
            assert_eq!(dump(&stream, strict), format!("{}error=17\n", first));
        }
    }
    assert_eq!(
        dump(&stream(&[packet(7, 9), destroy(1)]), false),
        "error=17\n"
    );
}

#[test]
fn unknown_packets() {
    for opcode in [
        0,
        255,
        260,
        262,
        1023,
        1027,
        1535,
        1537,
        1807,
        1811,
        u32::MAX,
    ] {
        let stream = stream(&[destroy(1), packet(opcode, 12), packet(8, 8), packet(8, 4)]);
        let expected = format!(
            "0x00000018 Destroy size_bytes=16 handle=1\n\
             0x00000028 UNKNOWN size_bytes=12 opcode={}\n\
             0x00000034 UNKNOWN size_bytes=8 opcode=8\n\
             error=17\n",
            opcode
        );
        assert_eq!(listing(&input(0, &stream)), expected);
        let expected = format!(
            "0x00000018 Destroy size_bytes=16 handle=1\n\
             0x00000028 STOPPED size_bytes=12 opcode={}\n",
            opcode
        );
        assert_eq!(listing(&input(1, &stream)), expected);
    }
}

#[test]
fn appended_and_unnamed_bytes_are_not_printed() {
    let long = grown(import(3, 4), &[0xFF; 12]);
    let expected = "0x00000018 Import size_bytes=36 handle=3 token=4\n";
    assert_eq!(dump(&stream(&[long]), true), expected);
    for unnamed in [0, u32::MAX] {
        let export = words(1808, &[3, unnamed, 4, 0]);
        let expected = "0x00000018 Export size_bytes=24 handle=3 token=4\n";
        assert_eq!(dump(&stream(&[export]), true), expected);
    }
}

#[test]
fn packet_rules_are_not_judged() {
    let stream = stream(&[destroy(0), words(1025, &[u32::MAX; 6])]);
    let lines = dump(&stream, true);
    assert!(lines.starts_with("0x00000018 Destroy size_bytes=16 handle=0\n"));
    assert!(lines.ends_with(" near=4294967295 far=4294967295\n"));
}

#[test]
fn dumps_of_any_length() {
    let count = 20_000;
    let stream = stream(&vec![packet(u32::MAX, 8); count]);
    let lines = dump(&stream, false);
    assert_eq!(lines.lines().count(), count);
    let last = "0x00027110 UNKNOWN size_bytes=8 opcode=4294967295";
    assert_eq!(lines.lines().last(), Some(last));
    let longest = dump(&stream[..65_536], false);
    assert_eq!(longest, "error=16\n");
}
