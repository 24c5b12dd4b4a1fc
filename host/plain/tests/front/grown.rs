//! Packets longer than their table size, as newer drivers send them.

use crate::scene::*;
use plain::{Desk, Record};

const ENTRIES: [Entry; 2] = [(5, 0, 8192, 4096), (6, 1, 12_288, 4096)];
/// The units before the first packet: the opening and the entries.
const BEFORE: u16 = 1 + ENTRIES.len() as u16;

/// The bits of 1.0.
const ONE: u32 = 0x3F80_0000;

/// Good packets, in this order, of every known opcode and of table size.
fn night() -> Vec<Vec<u8>> {
    vec![
        create_buffer(1, 256, 5, 64),
        create_buffer(2, 256, 0, 0),
        create_texture(3, (1, 5, 3, 3, 2, 20), 6, 512),
        dirty(3, 16, 32),
        copy((1, 8), (2, 0), 64, 1),
        target(3),
        viewport([0, 0, ONE, ONE, 0, ONE]),
        scissor((-1, 1), (4, 9)),
        clear(7, [0, ONE, ONE, 0], ONE, 9),
        destroy(2),
        create_texture(2, (1, 5, 3, 1, 1, 20), 0, 0),
        export(2, 77),
        import(4, 77),
        release(77),
    ]
}

/// The night up to this packet, which is changed and comes last.
fn night_to(index: usize, change: impl Fn(Vec<u8>) -> Vec<u8>) -> Vec<Vec<u8>> {
    let mut packets = night();
    packets.truncate(index + 1);
    let last = packets.remove(index);
    packets.push(change(last));
    packets
}

fn size(packet: &[u8]) -> u32 {
    get32(packet, 4)
}

/// The error and the units when the packet of this index is the last one.
fn ends_with(error: u32, index: usize) -> (u32, u16) {
    (error, BEFORE + index as u16 + 1)
}

fn judged(packets: &[Vec<u8>]) -> (u32, u16) {
    Scene::with(&ENTRIES, packets).verdict()
}

/// Where the packets lead: error and units, records, and the device after its
/// refusal or the host's good answer.
fn outcome(packets: &[Vec<u8>]) -> ((u32, u16), Vec<Record>, Desk) {
    let mut scene = Scene::with(&ENTRIES, packets);
    let verdict = scene.verdict();
    let records = scene.records();
    if verdict.0 == 0 {
        assert_eq!(scene.answer(true), 0);
    }
    (verdict, records, scene.desk)
}

#[test]
fn the_night_has_every_known_opcode_and_passes() {
    let mut opcodes: Vec<u32> = night().iter().map(|packet| get32(packet, 0)).collect();
    opcodes.sort_unstable();
    opcodes.dedup();
    let known = [
        256, 257, 258, 259, 261, 1024, 1025, 1026, 1536, 1808, 1809, 1810,
    ];
    assert_eq!(opcodes, known);
    let (verdict, records, desk) = outcome(&night());
    assert_eq!(verdict, ends_with(0, 13));
    assert_eq!(desk.names(), [(1, 1), (2, 2), (3, 3), (4, 2)]);
    assert_eq!(desk.tokens(), [(77, 0)]);
    let expected = [
        record(1, 1, 5, 8256, 256),
        record(1, 3, 6, 12_800, 144),
        record(2, 3, 6, 12_816, 32),
        record(3, 1, 5, 8264, 64),
        record(4, 0, 1, 3, 2),
    ];
    assert_eq!(records, expected);
}

#[test]
fn every_kind_may_grow() {
    let expected = outcome(&night());
    for by in [4, 8, 60, 64, 400] {
        for index in 0..night().len() {
            let mut packets = night();
            packets[index] = grown(packets[index].clone(), &vec![0xDD; by]);
            assert_eq!(outcome(&packets), expected, "{} by {}", index, by);
        }
        let all: Vec<_> = night()
            .into_iter()
            .map(|packet| grown(packet, &vec![0xDD; by]))
            .collect();
        assert_eq!(outcome(&all), expected, "all by {}", by);
    }
}

#[test]
fn a_packet_may_grow_to_the_streams_end_but_not_past_it() {
    for index in 0..night().len() {
        for by in [0, 4, 64] {
            let grow = |packet| grown(packet, &vec![0xDD; by]);
            let to_the_end = night_to(index, grow);
            assert_eq!(judged(&to_the_end), ends_with(0, index));
            // One word, or any more, past the end of as many bytes.
            for past in [4, 8, 64, 0x8000_0000, u32::MAX - 3 - 1000] {
                let too_long = night_to(index, |packet| {
                    let packet = grow(packet);
                    let size = size(&packet) + past;
                    sized(packet, size)
                });
                assert_eq!(judged(&too_long), ends_with(17, index));
            }
        }
    }
}

#[test]
fn the_stream_size_is_the_end_not_the_command_size() {
    for index in 0..night().len() {
        for by in [4, 64] {
            let packets = night_to(index, |packet| grown(packet, &vec![0xDD; by]));
            let whole = stream(&packets).len() as u32;
            for (cut, error) in [(0, 0), (4, 17), (by as u32, 17)] {
                let mut scene = Scene::with(&ENTRIES, &packets);
                scene.put32(STREAM + 8, whole - cut);
                assert_eq!(scene.verdict(), ends_with(error, index));
            }
        }
    }
}

#[test]
fn a_grown_packet_may_end_with_memory() {
    for index in 0..night().len() {
        for (past, error) in [(0, 0), (4, 17)] {
            let packets = night_to(index, |packet| {
                let packet = grown(packet, &[0xDD; 64]);
                let size = size(&packet) + past;
                sized(packet, size)
            });
            let mut scene = Scene::with(&ENTRIES, &packets);
            let cmd = stream(&packets);
            scene.place(RING + 64 + 16, MEMORY - cmd.len(), &cmd);
            assert_eq!(scene.verdict(), ends_with(error, index));
        }
    }
}

#[test]
fn one_packet_may_fill_a_large_stream() {
    let extra = vec![0xDD; MEMORY - STREAM - 24 - 56];
    let packet = create_texture(3, (1, 5, 3, 3, 2, 20), 6, 512);
    let packets = [grown(packet, &extra)];
    assert_eq!(records(&ENTRIES, &packets), [record(1, 3, 6, 12_800, 144)]);
}

#[test]
fn shorter_packets_keep_17() {
    for index in 0..night().len() {
        let least = size(&night()[index]);
        for size in (0..least).step_by(4) {
            // The bytes are there and the size says less of them.
            let said = night_to(index, |packet| sized(packet, size));
            assert_eq!(judged(&said), ends_with(17, index));
            // The bytes end with the size.
            let cut = night_to(index, |mut packet| {
                packet.truncate(size.max(8) as usize);
                sized(packet, size)
            });
            assert_eq!(judged(&cut), ends_with(17, index));
        }
    }
}

#[test]
fn sizes_are_multiples_of_4() {
    for index in 0..night().len() {
        for by in (0..=72).filter(|by| by % 4 != 0) {
            let packets = night_to(index, |packet| grown(packet, &vec![0xDD; by]));
            assert_eq!(judged(&packets), ends_with(17, index));
            // With a good packet after it, and with the bytes to round it up.
            let mut more = packets;
            more.push(vec![0; 4 - by % 4]);
            more.push(packet(7, 8));
            assert_eq!(judged(&more), ends_with(17, index));
        }
    }
}

#[test]
fn sizes_come_before_the_packets_own_rules() {
    for (bad, own) in [
        (create_buffer(0, 0, 9, 0), 18),
        (create_texture(0, (4, 0, 0, 0, 0, 0), 9, 0), 18),
        (destroy(0), 18),
        (dirty(0, 9, 9), 18),
        (copy((0, 9), (0, 9), 9, 2), 18),
        (target(0), 18),
        (viewport([0; 6]), 30),
        (scissor((0, 0), (-1, -1)), 30),
        (clear(8, [0; 4], 0, 0), 30),
        (export(0, 0), 18),
        (import(0, 0), 18),
        (release(0), 29),
    ] {
        let least = size(&bad);
        let long = grown(bad, &[0xDD; 64]);
        for (size, error) in [
            (least - 4, 17),
            (least, own),
            (least + 1, 17),
            (least + 4, own),
            (least + 63, 17),
            (least + 64, own),
            (least + 68, 17),
        ] {
            assert_eq!(judged(&[sized(long.clone(), size)]), ends_with(error, 0));
        }
    }
}

/// Packets that break rules of their own after the buffers 1, 2 and 4.
fn refusals() -> Vec<(Vec<u8>, u32)> {
    vec![
        (create_buffer(1, 16, 0, 0), 18),
        (create_texture(1, (1, 1, 1, 1, 1, 4), 0, 0), 18),
        (create_buffer(9, 0, 0, 0), 20),
        (create_texture(9, (1, 5, 3, 3, 1, 19), 5, 0), 20),
        (create_buffer(9, 16, 9, 0), 21),
        (create_texture(9, (1, 5, 3, 3, 1, 20), 9, 0), 21),
        (create_buffer(9, 16, 5, 4081), 22),
        (create_texture(9, (1, 5, 3, 3, 1, 20), 5, 4025), 22),
        (destroy(9), 18),
        (dirty(9, 0, 1), 18),
        (dirty(2, 0, 1), 25),
        (dirty(1, 1, 256), 24),
        (copy((9, 0), (2, 0), 1, 0), 18),
        (copy((1, 0), (1, 0), 1, 0), 26),
        (copy((1, 0), (2, 0), 1, 2), 26),
        (copy((1, 1), (2, 0), 256, 0), 24),
        (copy((2, 0), (1, 0), 1, 1), 25),
        (copy((4, 0), (1, 0), 1, 1), 23),
        (target(1), 18),
        (viewport([0; 6]), 30),
        (scissor((0, 0), (1, 1)), 30),
        (clear(8, [0; 4], 0, 0), 30),
        (export(9, 1), 18),
        (export(1, 0), 20),
        (import(1, 1), 18),
        (import(9, 1), 29),
        (release(1), 29),
    ]
}

#[test]
fn grown_packets_keep_their_own_refusals() {
    for (packet, error) in refusals() {
        let after = |packet| {
            vec![
                create_buffer(1, 256, 5, 64),
                create_buffer(2, 256, 0, 0),
                create_buffer(4, 256, 6, 0),
                packet,
            ]
        };
        let expected = outcome(&after(packet.clone()));
        assert_eq!(expected.0, ends_with(error, 3));
        for by in [4, 64] {
            let long = grown(packet.clone(), &vec![0xDD; by]);
            assert_eq!(outcome(&after(long)), expected);
        }
    }
}

#[test]
fn the_next_packet_begins_at_the_packets_own_size() {
    // Appended bytes that would be a packet, good or bad, are none.
    for extra in [destroy(1), destroy(9), packet(7, 8), sized(destroy(1), 3)] {
        for index in 0..night().len() {
            let mut packets = night();
            packets[index] = grown(packets[index].clone(), &extra);
            assert_eq!(outcome(&packets), outcome(&night()));
        }
    }
    // At table size, the same bytes are the next packet.
    let made = create_buffer(1, 256, 5, 64);
    for (extra, error, units) in [
        (destroy(1), 0, 2),
        (destroy(9), 18, 2),
        (sized(destroy(1), 3), 17, 2),
    ] {
        let long = grown(made.clone(), &extra);
        assert_eq!(judged(&[long]), (0, BEFORE + 1));
        assert_eq!(judged(&[made.clone(), extra]), (error, BEFORE + units));
    }
    // A bad packet after a grown one is found, also in the rest of a stream.
    for by in [4, 64] {
        let long = grown(made.clone(), &vec![0xDD; by]);
        for bad in [destroy(9), sized(destroy(1), 12), vec![0; 4], vec![0; 7]] {
            let error = if bad == destroy(9) { 18 } else { 17 };
            assert_eq!(judged(&[long.clone(), bad]), (error, BEFORE + 2));
        }
    }
}

#[test]
fn appended_bytes_do_not_matter() {
    let expected = outcome(&night());
    for by in [4, 64] {
        for fill in [0x00, 0x01, 0x7F, 0x80, 0xFF] {
            let packets: Vec<_> = night()
                .into_iter()
                .map(|packet| grown(packet, &vec![fill; by]))
                .collect();
            assert_eq!(outcome(&packets), expected);
        }
    }
}

#[test]
fn appended_bytes_may_change_at_any_unit() {
    let packets: Vec<_> = night()
        .into_iter()
        .map(|packet| grown(packet, &[0; 64]))
        .collect();
    let (verdict, records, desk) = outcome(&night());
    for unit in 0..verdict.1 {
        let mut scene = Scene::with(&ENTRIES, &packets);
        scene.run(unit);
        let mut end = STREAM + 24;
        for packet in &packets {
            end += packet.len();
            scene.mem[end - 64..end].fill(0xFF);
        }
        assert_eq!(scene.verdict(), (0, verdict.1 - unit));
        assert_eq!(scene.records(), records);
        assert_eq!(scene.answer(true), 0);
        assert_eq!(scene.desk, desk);
    }
}

#[test]
fn growing_asks_no_version() {
    let packets: Vec<_> = night()
        .into_iter()
        .map(|packet| grown(packet, &[0xDD; 64]))
        .collect();
    for minor in [0, 2, 3, 4, 0xFFFF] {
        for place in [RING, TABLE, STREAM] {
            let mut scene = Scene::with(&ENTRIES, &packets);
            scene.put32(place + 4, 1 << 16 | minor);
            assert_eq!(scene.verdict(), ends_with(0, 13));
            assert_eq!((scene.read(0x004), scene.read(0x008)), (65_539, 7));
        }
    }
}

#[test]
fn unknown_packets_stay_as_they_were() {
    for size in [8, 12, 72] {
        assert_eq!(judged(&[packet(260, size)]), ends_with(0, 0));
        let long = grown(packet(260, size), &destroy(9));
        assert_eq!(judged(&[long]), ends_with(0, 0));
    }
}
