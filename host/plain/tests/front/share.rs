//! The share packets, each rule at its boundary and in its order.

use crate::scene::*;

const ENTRIES: [Entry; 1] = [(5, 0, 8192, 4096)];
/// 5 by 3 pixels, one mip, one layer.
const SURFACE: Texture = (1, 5, 3, 1, 1, 20);
/// Tokens at the edges of their halves.
const TOKENS: [u64; 6] = [1, 5, 0xFFFF_FFFF, 1 << 32, 1 << 63, u64::MAX];

fn surface(handle: u32) -> Vec<u8> {
    create_texture(handle, SURFACE, 0, 0)
}

fn buffer(handle: u32) -> Vec<u8> {
    create_buffer(handle, 64, 0, 0)
}

fn judged(packets: &[Vec<u8>]) -> u32 {
    verdict(&ENTRIES, packets)
}

/// Surface 1 under the names 1, 2 and 3 and with token 5, surface 8 with token
/// 6, surface 9 without.
fn shared() -> Vec<Vec<u8>> {
    vec![
        surface(1),
        export(1, 5),
        import(2, 5),
        import(3, 5),
        surface(8),
        export(8, 6),
        surface(9),
    ]
}

/// The verdict on these packets after the shared ones.
fn then(packets: &[Vec<u8>]) -> u32 {
    judged(&[&shared()[..], packets].concat())
}

/// A device's names and tokens, with their lowest names.
type Lists = (Vec<(u32, u32)>, Vec<(u64, u32)>);

/// The device's names and tokens after the shared packets and these.
fn left(packets: &[Vec<u8>]) -> Lists {
    let mut scene = Scene::new();
    assert_eq!(scene.settle(&[], &shared()), 0);
    assert_eq!(scene.settle(&[], packets), 0);
    (scene.desk.names(), scene.desk.tokens())
}

#[test]
fn each_is_one_unit_and_makes_no_record() {
    let packets = [surface(1), export(1, 5), import(2, 5), release(5)];
    let mut scene = Scene::with(&[], &packets);
    assert_eq!(scene.verdict(), (0, 5));
    assert_eq!(scene.records(), []);
}

#[test]
fn export_handles() {
    for handle in [0, 4, 7, u32::MAX] {
        assert_eq!(then(&[export(handle, 7)]), 18);
    }
    for handle in [1, 2, 3, 8, 9] {
        assert_eq!(then(&[export(handle, 7)]), 0);
        assert_eq!(then(&[destroy(handle), export(handle, 7)]), 18);
    }
    // Live as the packets before it left it.
    assert_eq!(judged(&[export(1, 7), surface(1)]), 18);
    assert_eq!(judged(&[surface(u32::MAX), export(u32::MAX, 7)]), 0);
}

#[test]
fn export_shapes() {
    let with = |shape, id| judged(&[create_texture(1, shape, id, 0), export(1, 7)]);
    for id in [0, 5] {
        for format in [1, 2, 3, 64, 65, 66] {
            assert_eq!(with((format, 8, 8, 1, 1, 32), id), 0);
            assert_eq!(with((format, 8, 8, 2, 1, 32), id), 20);
            assert_eq!(with((format, 8, 8, 1, 2, 32), id), 20);
            assert_eq!(with((format, 8, 8, 4, 2, 32), id), 20);
        }
        assert_eq!(with((1, 1, 1, 1, 1, 4), id), 0);
        assert_eq!(with((1, 1, 1, 1, 256, 4), id), 20);
        assert_eq!(judged(&[create_buffer(1, 64, id, 0), export(1, 7)]), 20);
    }
    assert_eq!(with((1, 16_384, 16_384, 1, 1, 0), 0), 0);
    assert_eq!(with((1, 16_384, 16_384, 15, 1, 0), 0), 20);
}

#[test]
fn any_token_but_0_may_be_exported() {
    assert_eq!(judged(&[surface(1), export(1, 0)]), 28);
    for token in TOKENS {
        assert_eq!(judged(&[surface(1), export(1, token), import(2, token)]), 0);
    }
}

#[test]
fn tokens_have_64_bits() {
    // Each on a surface of its own: none is another.
    let mut packets = Vec::new();
    for (handle, token) in (1..).zip(TOKENS) {
        packets.push(surface(handle));
        packets.push(export(handle, token));
    }
    let mut scene = Scene::new();
    assert_eq!(scene.settle(&[], &packets), 0);
    let expected: Vec<_> = TOKENS.into_iter().zip(1..).collect();
    assert_eq!(scene.desk.tokens(), expected);
    for other in [5 | 1 << 32, 6 << 32, 5 << 32] {
        assert_eq!(then(&[import(4, other)]), 29);
        assert_eq!(then(&[release(other)]), 29);
        assert_eq!(then(&[export(9, other)]), 0);
    }
}

#[test]
fn the_same_token_on_the_same_resource_changes_nothing() {
    let expected = left(&[]);
    for handle in [1, 2, 3] {
        assert_eq!(left(&[export(handle, 5), export(handle, 5)]), expected);
        let packets = [export(handle, 5), import(4, 5), destroy(4)];
        assert_eq!(left(&packets), expected);
    }
    // Also when the name it was exported under is gone.
    assert_eq!(then(&[destroy(1), export(2, 5)]), 0);
    assert_eq!(then(&[destroy(1), destroy(2), export(3, 5)]), 0);
}

#[test]
fn a_token_is_bound_to_one_resource_ever() {
    assert_eq!(then(&[export(8, 5)]), 28);
    assert_eq!(then(&[export(9, 5)]), 28);
    for handle in [1, 2, 3] {
        assert_eq!(then(&[export(handle, 6)]), 28);
    }
    // Also when that resource has other names now.
    assert_eq!(then(&[destroy(1), export(9, 5)]), 28);
    assert_eq!(then(&[destroy(1), surface(1), export(1, 5)]), 28);
    // And when it is gone, whatever has its handle.
    let gone = [destroy(8), surface(8)];
    assert_eq!(then(&[&gone[..], &[export(8, 6)]].concat()), 28);
    assert_eq!(then(&[&gone[..], &[export(9, 6)]].concat()), 28);
    assert_eq!(then(&[&gone[..], &[export(8, 7)]].concat()), 0);
    assert_eq!(then(&[&gone[..], &[export(8, 5)]].concat()), 28);
}

#[test]
fn a_released_token_is_never_exported_again() {
    for handle in [1, 2, 3, 8, 9] {
        assert_eq!(then(&[release(5), export(handle, 5)]), 28);
        assert_eq!(then(&[release(5), export(handle, 7)]), 0);
    }
}

#[test]
fn a_resource_may_have_several_tokens() {
    let more = [export(1, 7), export(3, 4)];
    let names = [(1, 1), (2, 1), (3, 1), (8, 8), (9, 9)];
    let tokens = [(4, 1), (5, 1), (6, 8), (7, 1)];
    assert_eq!(left(&more), (names.to_vec(), tokens.to_vec()));
    for token in [4, 5, 7] {
        let first = [&more[..], &[import(4, token)]].concat();
        let (names, _) = left(&first);
        assert_eq!(names[3], (4, 1));
        for again in [4, 5, 7] {
            let packets = [&first[..], &[export(4, again)]].concat();
            assert_eq!(then(&packets), 0);
        }
        let packets = [&first[..], &[export(9, token)]].concat();
        assert_eq!(then(&packets), 28);
    }
}

#[test]
fn import_handles() {
    for handle in [0, 1, 2, 3, 8, 9] {
        assert_eq!(then(&[import(handle, 5)]), 18);
    }
    assert_eq!(then(&[buffer(4), import(4, 5)]), 18);
    for handle in [4, 7, u32::MAX] {
        assert_eq!(then(&[import(handle, 5)]), 0);
        assert_eq!(then(&[import(handle, 5), import(handle, 5)]), 18);
    }
    // A name that was destroyed is free, of this resource and another.
    assert_eq!(then(&[destroy(1), import(1, 5)]), 0);
    assert_eq!(then(&[destroy(9), import(9, 5)]), 0);
    assert_eq!(then(&[destroy(1), import(1, 6)]), 0);
}

#[test]
fn create_sees_every_name_as_live() {
    for handle in [1, 2, 3] {
        for made in [surface(handle), buffer(handle)] {
            assert_eq!(then(std::slice::from_ref(&made)), 18);
            assert_eq!(then(&[destroy(handle), made]), 0);
        }
    }
}

#[test]
fn import_and_release_need_a_bound_token() {
    for packet in [import(4, 0), release(0), import(4, 7), release(7)] {
        assert_eq!(then(&[packet]), 29);
    }
    for packet in [import(4, 6), release(6)] {
        let last = [packet];
        let with = |first: &[Vec<u8>]| then(&[first, &last[..]].concat());
        assert_eq!(with(&[]), 0);
        assert_eq!(with(&[release(6)]), 29);
        assert_eq!(with(&[release(5)]), 0);
        // Gone, and its handle used again.
        assert_eq!(with(&[destroy(8)]), 29);
        assert_eq!(with(&[destroy(8), surface(8)]), 29);
        assert_eq!(with(&[destroy(8), surface(8), export(8, 7)]), 29);
        assert_eq!(with(&[destroy(9), destroy(1)]), 0);
        // Its name is another's now.
        assert_eq!(with(&[destroy(8), import(8, 5)]), 29);
    }
    // Before its export.
    assert_eq!(judged(&[surface(1), import(2, 5), export(1, 5)]), 29);
    assert_eq!(judged(&[surface(1), release(5), export(1, 5)]), 29);
}

#[test]
fn destroying_one_name_leaves_the_others() {
    let orders = [
        [1, 2, 3],
        [1, 3, 2],
        [2, 1, 3],
        [2, 3, 1],
        [3, 1, 2],
        [3, 2, 1],
    ];
    for [first, second, last] in orders {
        let one = [destroy(first)];
        let two = [destroy(first), destroy(second)];
        for before in [&one[..], &two[..]] {
            let with = |packet| then(&[before, &[packet]].concat());
            assert_eq!(with(import(4, 5)), 0);
            assert_eq!(with(release(5)), 0);
            assert_eq!(with(target(last)), 0);
            assert_eq!(with(export(last, 7)), 0);
            assert_eq!(with(destroy(first)), 18);
        }
        let (names, tokens) = left(&two);
        assert_eq!(names, [(last, last), (8, 8), (9, 9)]);
        assert_eq!(tokens, [(5, last), (6, 8)]);
        // The last one ends the resource and spends its token.
        let all = [destroy(first), destroy(second), destroy(last)];
        let (names, tokens) = left(&all);
        assert_eq!(
            (names, tokens),
            (vec![(8, 8), (9, 9)], vec![(5, 0), (6, 8)])
        );
        for (packet, error) in [
            (destroy(last), 18),
            (import(4, 5), 29),
            (import(last, 5), 29),
            (release(5), 29),
            (export(9, 5), 28),
        ] {
            assert_eq!(then(&[&all[..], &[packet]].concat()), error);
        }
    }
}

#[test]
fn the_last_name_spends_all_tokens_of_its_resource() {
    let more = [export(2, 7), export(3, 4), release(4)];
    let all = [destroy(2), destroy(1), destroy(3)];
    let packets = [&more[..], &all[..]].concat();
    assert_eq!(left(&packets).1, [(4, 0), (5, 0), (6, 8), (7, 0)]);
    for token in [4, 5, 7] {
        let with = |packet| then(&[&packets[..], &[packet]].concat());
        assert_eq!(with(import(4, token)), 29);
        assert_eq!(with(release(token)), 29);
        assert_eq!(with(export(9, token)), 28);
    }
}

#[test]
fn release_spends_that_token_alone_and_names_stay() {
    let packets = [export(1, 7), release(5)];
    let names = vec![(1, 1), (2, 1), (3, 1), (8, 8), (9, 9)];
    assert_eq!(left(&packets), (names, vec![(5, 0), (6, 8), (7, 1)]));
    let with = |packet| then(&[&packets[..], &[packet]].concat());
    assert_eq!(with(import(4, 7)), 0);
    assert_eq!(with(import(4, 5)), 29);
    assert_eq!(with(release(5)), 29);
    assert_eq!(with(release(7)), 0);
    for handle in [1, 2, 3] {
        assert_eq!(with(target(handle)), 0);
        assert_eq!(with(destroy(handle)), 0);
        assert_eq!(with(surface(handle)), 18);
        // Still one resource: the other token is its own.
        assert_eq!(with(export(handle, 7)), 0);
    }
    // With all tokens released, a new one reaches all names.
    let packets = [release(5), export(2, 7), destroy(2)];
    let (names, tokens) = left(&packets);
    assert_eq!(names[..2], [(1, 1), (3, 1)]);
    assert_eq!(tokens, [(5, 0), (6, 8), (7, 1)]);
}

#[test]
fn names_may_come_and_go_for_ever() {
    // No name of the first lot is left, the resource is.
    let mut packets = vec![surface(1), export(1, 5)];
    for handle in 2..100 {
        packets.push(import(handle, 5));
        packets.push(destroy(handle - 1));
    }
    let mut scene = Scene::new();
    assert_eq!(scene.settle(&[], &packets), 0);
    assert_eq!(scene.desk.names(), [(99, 99)]);
    assert_eq!(scene.desk.tokens(), [(5, 99)]);
}

#[test]
fn a_handle_that_comes_again_is_another_resource() {
    let packets = [
        surface(1),
        export(1, 5),
        destroy(1),
        surface(1),
        export(1, 6),
        import(2, 6),
    ];
    let mut scene = Scene::new();
    assert_eq!(scene.settle(&[], &packets), 0);
    assert_eq!(scene.desk.names(), [(1, 1), (2, 1)]);
    assert_eq!(scene.desk.tokens(), [(5, 0), (6, 1)]);
    // While the first one lives under another name, they stay apart.
    let packets = [
        surface(1),
        export(1, 5),
        import(2, 5),
        destroy(1),
        surface(1),
        export(1, 6),
        import(3, 6),
        import(4, 5),
    ];
    let mut scene = Scene::new();
    assert_eq!(scene.settle(&[], &packets), 0);
    assert_eq!(scene.desk.names(), [(1, 1), (2, 2), (3, 1), (4, 2)]);
    assert_eq!(scene.desk.tokens(), [(5, 2), (6, 1)]);
}

#[test]
fn the_order_of_export() {
    // Handle, shape, token, room: each packet breaks its rule and all after.
    let mut full = vec![surface(1), surface(2), buffer(3)];
    full.extend((1..=256).map(|token| export(1, token)));
    let with = |packet| judged(&[&full[..], &[packet]].concat());
    for token in [0, 1, 999] {
        assert_eq!(with(export(0, token)), 18);
        assert_eq!(with(export(9, token)), 18);
        assert_eq!(with(export(3, token)), 20);
    }
    assert_eq!(with(export(2, 0)), 28);
    assert_eq!(with(export(2, 1)), 28);
    assert_eq!(with(export(1, 0)), 28);
    assert_eq!(with(export(2, 999)), 19);
    assert_eq!(with(export(1, 999)), 19);
    assert_eq!(with(export(1, 1)), 0);
    // A texture of two mips at no token and no room.
    let deep = create_texture(4, (1, 5, 3, 2, 1, 20), 0, 0);
    let packets = [&full[..], &[deep, export(4, 0)]].concat();
    assert_eq!(judged(&packets), 20);
}

#[test]
fn the_order_of_import() {
    // Handle, token, room.
    let mut full = vec![surface(1), export(1, 5)];
    full.extend((2..=64).map(|handle| import(handle, 5)));
    let with = |packet| judged(&[&full[..], &[packet]].concat());
    assert_eq!(with(import(0, 7)), 18);
    assert_eq!(with(import(64, 7)), 18);
    assert_eq!(with(import(64, 5)), 18);
    assert_eq!(with(import(65, 7)), 29);
    assert_eq!(with(import(65, 0)), 29);
    assert_eq!(with(import(65, 5)), 19);
}

#[test]
fn at_most_256_tokens() {
    let mut packets = vec![surface(1), surface(2)];
    packets.extend((1..=255).map(|token| export(1 + token as u32 % 2, token)));
    let with = |more: &[Vec<u8>]| judged(&[&packets[..], more].concat());
    assert_eq!(with(&[export(1, 256)]), 0);
    assert_eq!(with(&[export(1, 256), export(1, 257)]), 19);
    assert_eq!(with(&[export(1, 256), export(1, 0)]), 28);
    // The same again is no new one.
    assert_eq!(with(&[export(2, 1), export(1, 256), export(2, 1)]), 0);
    assert_eq!(with(&[export(1, 256), export(1, 256)]), 0);
    // Spent ones count.
    for spend in [release(1), release(2), destroy(1), destroy(2)] {
        let keep = if spend == destroy(1) { 2 } else { 1 };
        let more = [spend, export(keep, 256), export(keep, 257)];
        assert_eq!(with(&more[..2]), 0);
        assert_eq!(with(&more), 19);
    }
    // Imports, releases and exports already made need no room.
    let more = [export(1, 256), import(3, 1), release(1), export(3, 3)];
    assert_eq!(with(&more), 0);
}

#[test]
fn the_same_token_again_through_another_name_when_256_are_used() {
    let mut packets = vec![surface(1)];
    packets.extend((1..=256).map(|token| export(1, token)));
    packets.extend([import(2, 9), destroy(1)]);
    for token in [1, 9, 128, 256] {
        let again = [&packets[..], &[export(2, token)]].concat();
        assert_eq!(judged(&again), 0);
    }
    assert_eq!(judged(&[&packets[..], &[export(2, 257)]].concat()), 19);
}

/// 63 names: surface 1 under all of them but 2, which is a buffer.
fn sixty_three() -> Vec<Vec<u8>> {
    let mut packets = vec![surface(1), export(1, 5), buffer(2)];
    packets.extend((3..=63).map(|handle| import(handle, 5)));
    packets
}

#[test]
fn at_most_64_names() {
    for last in [import(64, 5), buffer(64), surface(64)] {
        let full = [&sixty_three()[..], &[last]].concat();
        let with = |packet| judged(&[&full[..], &[packet]].concat());
        assert_eq!(with(import(65, 5)), 19);
        assert_eq!(with(buffer(65)), 19);
        assert_eq!(with(surface(65)), 19);
        assert_eq!(with(create_texture(65, SURFACE, 5, 0)), 19);
        assert_eq!(with(export(30, 6)), 0);
        assert_eq!(with(release(5)), 0);
    }
}

#[test]
fn any_name_destroyed_gives_back_one_of_the_64() {
    let full = [&sixty_three()[..], &[import(64, 5)]].concat();
    for gone in [1, 2, 30, 64] {
        for new in [import(65, 5), buffer(65)] {
            let again = [&full[..], &[destroy(gone), new]].concat();
            assert_eq!(judged(&again), 0);
            let with = |packet| judged(&[&again[..], &[packet]].concat());
            assert_eq!(with(import(66, 5)), 19);
            assert_eq!(with(buffer(66)), 19);
        }
    }
}

#[test]
fn import_asks_for_no_table_and_no_room_of_records() {
    let made = [create_texture(1, SURFACE, 5, 0), export(1, 5)];
    let mut scene = Scene::new();
    assert_eq!(scene.settle(&ENTRIES, &made), 0);
    assert_eq!(scene.settle(&[], &[import(2, 5)]), 0);
    // Nor do the others, with 64 records made.
    let mut packets = vec![create_texture(1, SURFACE, 5, 0)];
    packets.extend((0..63).map(|_| dirty(1, 0, 1)));
    packets.extend([export(1, 5), import(2, 5), release(5)]);
    assert_eq!(records(&ENTRIES, &packets).len(), 64);
}

#[test]
fn a_record_carries_the_handle_of_its_packet() {
    let packets = [
        create_texture(1, SURFACE, 5, 100),
        export(1, 5),
        import(2, 5),
        dirty(2, 8, 16),
        dirty(1, 8, 16),
        destroy(1),
        dirty(2, 0, 60),
    ];
    let expected = [
        record(1, 1, 5, 8292, 60),
        record(2, 2, 5, 8300, 16),
        record(2, 1, 5, 8300, 16),
        record(2, 2, 5, 8292, 60),
    ];
    assert_eq!(records(&ENTRIES, &packets), expected);
}

#[test]
fn a_second_name_is_judged_as_the_first() {
    let mut scene = Scene::new();
    let made = [
        create_texture(1, SURFACE, 5, 100),
        surface(3),
        export(1, 5),
        export(3, 6),
        import(2, 5),
        import(4, 6),
        buffer(7),
    ];
    assert_eq!(scene.settle(&ENTRIES, &made), 0);
    let judged = |entries: &[Entry], packet: Vec<u8>| {
        let mut scene = scene.clone();
        scene.submit(entries, &[packet], 2);
        scene.verdict().0
    };
    for name in [1, 2] {
        assert_eq!(judged(&ENTRIES, dirty(name, 0, 60)), 0);
        assert_eq!(judged(&ENTRIES, dirty(name, 1, 60)), 24);
        assert_eq!(judged(&[], dirty(name, 0, 60)), 21);
        assert_eq!(judged(&[(5, 0, 0, 159)], dirty(name, 0, 60)), 22);
        assert_eq!(judged(&[(5, 0, 0, 160)], dirty(name, 0, 60)), 0);
    }
    for name in [3, 4] {
        assert_eq!(judged(&ENTRIES, dirty(name, 0, 0)), 25);
    }
    // Names of textures are no buffers.
    for name in [1, 2, 3, 4] {
        assert_eq!(judged(&[], copy((name, 0), (7, 0), 1, 0)), 18);
        assert_eq!(judged(&[], copy((7, 0), (name, 0), 1, 0)), 18);
        assert_eq!(judged(&[], target(name)), 0);
    }
}

/// A scissor that covers every texture.
fn whole() -> Vec<u8> {
    scissor((0, 0), (i32::MAX, i32::MAX))
}

#[test]
fn the_target_is_the_name_that_was_given() {
    for (name, others) in [(1, [2, 3]), (2, [1, 3]), (3, [1, 2])] {
        let mut packets = vec![target(name)];
        assert_eq!(then(&[target(name), whole()]), 0);
        // Other names of its resource may go,
        packets.extend(others.map(destroy));
        packets.push(whole());
        let all = [shared(), packets].concat();
        assert_eq!(records(&[], &all), [record(4, 0, 0, 5, 3)]);
        // its own ends it, though the resource lives.
        let ended = [target(name), destroy(name)];
        let with = |packets: &[Vec<u8>]| then(&[&ended[..], packets].concat());
        assert_eq!(with(&[whole()]), 30);
        assert_eq!(with(&[target(others[0]), whole()]), 0);
        assert_eq!(with(&[import(name, 5), whole()]), 30);
        assert_eq!(with(&[import(name, 5), target(name), whole()]), 0);
        assert_eq!(with(&[surface(name), whole()]), 30);
    }
}

#[test]
fn a_target_moves_between_names() {
    let turns = [
        target(1),
        target(2),
        destroy(1),
        whole(),
        target(3),
        destroy(2),
        whole(),
    ];
    let all = [&shared()[..], &turns[..]].concat();
    assert_eq!(records(&[], &all), [record(4, 0, 0, 5, 3); 2]);
    assert_eq!(then(&[target(1), target(2), destroy(2), whole()]), 30);
    // Release and export do not touch it.
    let packets = [target(2), release(5), export(1, 7), import(4, 7), whole()];
    assert_eq!(then(&packets), 0);
    // Nor does a resource that gets the name of another of its names.
    let other = create_texture(1, (1, 2, 7, 1, 1, 8), 0, 0);
    let packets = [target(2), destroy(1), other, whole()];
    let all = [&shared()[..], &packets[..]].concat();
    assert_eq!(records(&[], &all), [record(4, 0, 0, 5, 3)]);
}

#[test]
fn bytes_between_handle_and_token_are_ignored() {
    for fill in [0, 1, 0x7F, 0x80, 0xFF] {
        let filled = |mut packet: Vec<u8>| {
            packet[12..16].fill(fill);
            packet
        };
        let packets = [
            surface(1),
            filled(export(1, 5)),
            filled(import(2, 5)),
            filled(export(2, 5)),
        ];
        let mut scene = Scene::new();
        assert_eq!(scene.settle(&[], &packets), 0);
        assert_eq!(scene.desk.names(), [(1, 1), (2, 1)]);
        assert_eq!(scene.desk.tokens(), [(5, 1)]);
    }
}

#[test]
fn longer_ones_pass_and_shorter_ones_do_not() {
    let before = shared();
    for (packet, error) in [
        (export(9, 7), 0),
        (export(1, 5), 0),
        (import(4, 5), 0),
        (release(6), 0),
        (export(4, 7), 18),
        (export(9, 5), 28),
        (import(1, 5), 18),
        (import(4, 7), 29),
        (release(7), 29),
    ] {
        let least = packet.len() as u32;
        let with = |packet| {
            let mut scene = Scene::with(&[], &[&before[..], &[packet]].concat());
            let error = scene.verdict().0;
            (error, scene.detail())
        };
        let place = stream(&before).len() as u32;
        let expected = (error, if error == 0 { 0 } else { place });
        for by in [0, 4, 64] {
            for fill in [0x00, 0xDD, 0xFF] {
                let long = grown(packet.clone(), &vec![fill; by]);
                assert_eq!(with(long), expected);
            }
        }
        for size in (0..least).chain([least + 1, least + 2, least + 3, least + 4]) {
            assert_eq!(with(sized(packet.clone(), size)), (17, place));
        }
    }
}

#[test]
fn every_error_gives_the_packets_offset() {
    let before = shared();
    let mut place = stream(&before).len() as u32;
    let more = [packet(7, 12), grown(export(1, 5), &[0xDD; 8])];
    place += 12 + 32;
    for (bad, error) in [
        (export(4, 7), 18),
        (export(9, 0), 28),
        (export(9, 5), 28),
        (import(9, 5), 18),
        (import(4, 0), 29),
        (release(7), 29),
    ] {
        let packets = [&before[..], &more[..], &[bad]].concat();
        let mut scene = Scene::with(&[], &packets);
        assert_eq!(scene.verdict().0, error);
        assert_eq!(scene.detail(), place);
    }
}
