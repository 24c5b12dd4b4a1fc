//! Tokens over submissions: what stays of them, and what a reset forgets.

use crate::scene::*;
use plain::Ended;

/// 5 by 3 pixels, one mip, one layer.
const SURFACE: Texture = (1, 5, 3, 1, 1, 20);

fn surface(handle: u32) -> Vec<u8> {
    create_texture(handle, SURFACE, 0, 0)
}

/// A device with surface 1, also named 2, with token 5, surface 3 with token
/// 6, and surface 4. Token 7 is released, token 8 has lost its resource.
fn shared() -> Scene {
    let mut scene = Scene::new();
    let packets = [
        surface(1),
        export(1, 5),
        export(1, 7),
        import(2, 7),
        release(7),
        surface(3),
        export(3, 6),
        surface(4),
        export(4, 8),
        destroy(4),
        surface(4),
    ];
    assert_eq!(scene.settle(&[], &packets), 0);
    assert_is_shared(&scene);
    scene
}

fn assert_is_shared(scene: &Scene) {
    assert_eq!(scene.desk.names(), [(1, 1), (2, 1), (3, 3), (4, 4)]);
    assert_eq!(scene.desk.tokens(), [(5, 1), (6, 3), (7, 0), (8, 0)]);
}

/// Packets that change names and tokens in every way.
fn changes() -> Vec<Vec<u8>> {
    vec![
        destroy(1),
        destroy(2),
        surface(1),
        export(1, 9),
        import(2, 9),
        release(6),
        import(5, 9),
        export(4, 10),
        export(4, 11),
        release(11),
    ]
}

/// What a good answer leaves after them.
fn assert_is_changed(scene: &Scene) {
    let names = [(1, 1), (2, 1), (3, 3), (4, 4), (5, 1)];
    let tokens = [(5, 0), (6, 0), (7, 0), (8, 0), (9, 1), (10, 4), (11, 0)];
    assert_eq!(scene.desk.names(), names);
    assert_eq!(scene.desk.tokens(), tokens);
}

/// The error of a submission of this packet, on a copy of the device.
fn judged(scene: &Scene, packet: Vec<u8>) -> u32 {
    let mut scene = scene.clone();
    scene.submit(&[], &[packet], 9);
    scene.verdict().0
}

/// Asks a device whether its tokens are those of `shared`.
fn assert_judges_as_shared(scene: &Scene) {
    for (packet, error) in [
        (import(9, 5), 0),
        (export(1, 5), 0),
        (export(2, 5), 0),
        (export(4, 5), 28),
        (release(5), 0),
        (import(9, 6), 0),
        (release(6), 0),
        (import(9, 7), 29),
        (export(1, 7), 28),
        (import(9, 8), 29),
        (export(4, 8), 28),
        (import(9, 9), 29),
        (release(9), 29),
        (export(4, 9), 0),
        (export(3, 10), 0),
        (import(1, 5), 18),
        (import(5, 5), 0),
    ] {
        assert_eq!(judged(scene, packet), error);
    }
}

#[test]
fn a_new_device_has_no_names_and_no_tokens() {
    let scene = Scene::new();
    assert_eq!(scene.desk.names(), []);
    assert_eq!(scene.desk.tokens(), []);
    assert_eq!(judged(&scene, import(1, 5)), 29);
    assert_eq!(judged(&scene, release(5)), 29);
}

#[test]
fn a_good_answer_takes_names_and_tokens() {
    let mut scene = shared();
    assert_judges_as_shared(&scene);
    assert_eq!(scene.settle(&[], &changes()), 0);
    assert_is_changed(&scene);
    for (packet, error) in [
        (import(9, 5), 29),
        (release(6), 29),
        (export(3, 6), 28),
        (import(9, 9), 0),
        (export(5, 9), 0),
        (export(4, 9), 28),
        (export(4, 11), 28),
        (import(9, 10), 0),
    ] {
        assert_eq!(judged(&scene, packet), error);
    }
}

#[test]
fn a_refused_submission_leaves_names_and_tokens() {
    // After each of the changes, a packet of each kind of refusal.
    for count in 0..=changes().len() {
        for bad in [
            destroy(77),
            export(4, 0),
            import(77, 78),
            release(78),
            packet(7, 9),
        ] {
            let mut scene = shared();
            let mut packets = changes();
            packets.truncate(count);
            packets.push(bad);
            assert_ne!(scene.settle(&[], &packets), 0);
            assert_eq!(scene.errors(), 1);
            assert_is_shared(&scene);
            assert_judges_as_shared(&scene);
        }
    }
}

#[test]
fn a_failed_submission_leaves_names_and_tokens() {
    for count in 0..=changes().len() {
        let mut scene = shared();
        scene.submit(&[], &changes()[..count], 2);
        assert_eq!(scene.verdict().0, 0);
        assert_eq!(scene.answer(false), 0);
        assert_eq!(scene.error(), 27);
        assert_is_shared(&scene);
        assert_judges_as_shared(&scene);
    }
}

#[test]
fn an_opening_that_fails_leaves_names_and_tokens() {
    let mut scene = shared();
    scene.submit(&[], &changes(), 2);
    scene.put32(STREAM, 0);
    assert_eq!(scene.verdict(), (16, 1));
    assert_is_shared(&scene);
    scene.submit(&[(0, 0, 0, 1)], &changes(), 2);
    assert_eq!(scene.verdict(), (14, 2));
    assert_is_shared(&scene);
    assert_judges_as_shared(&scene);
}

#[test]
fn refused_and_failed_ones_between_good_ones_do_not_matter() {
    let mut scene = Scene::new();
    for turn in 0..20 {
        let handle = 1 + 2 * turn as u32;
        let token = 100 - turn;
        let good = [
            surface(handle),
            export(handle, token),
            import(handle + 1, token),
        ];
        // The same, refused at its end and failed: nothing of it is used.
        let refused = [&good[..], &[export(handle, 500), destroy(99)]].concat();
        assert_eq!(scene.settle(&[], &refused), 18);
        scene.submit(&[], &[&good[..], &[export(handle, 600)]].concat(), 1);
        assert_eq!(scene.verdict().0, 0);
        assert_eq!(scene.answer(false), 0);
        assert_eq!(scene.settle(&[], &good), 0);
        if turn % 4 == 3 {
            assert_eq!(scene.settle(&[], &[release(token)]), 0);
        }
    }
    let tokens: Vec<_> = (0..20)
        .rev()
        .map(|turn| {
            (
                100 - turn,
                if turn % 4 == 3 {
                    0
                } else {
                    1 + 2 * turn as u32
                },
            )
        })
        .collect();
    assert_eq!(scene.desk.tokens(), tokens);
    assert_eq!(scene.desk.names().len(), 40);
    for name in 1..=20 {
        let lowest = name * 2 - 1;
        let at = lowest as usize - 1;
        let pair = [(lowest, lowest), (lowest + 1, lowest)];
        assert_eq!(scene.desk.names()[at..at + 2], pair);
    }
}

#[test]
fn a_token_named_only_in_a_refused_submission_was_not_used() {
    let mut scene = shared();
    assert_eq!(scene.settle(&[], &[export(4, 9), destroy(77)]), 18);
    scene.submit(&[], &[export(4, 9)], 2);
    assert_eq!(scene.verdict().0, 0);
    assert_eq!(scene.answer(false), 0);
    assert_eq!(scene.settle(&[], &[export(3, 9)]), 0);
    assert_eq!(scene.settle(&[], &[export(4, 9)]), 28);
    assert_eq!(scene.desk.tokens()[4], (9, 3));
}

#[test]
fn a_destroy_that_is_undone_gives_the_tokens_back() {
    for good in [true, false] {
        let mut scene = shared();
        scene.submit(&[], &[destroy(3), surface(3)], 2);
        assert_eq!(scene.verdict().0, 0);
        assert_eq!(scene.answer(good), 0);
        let (bound, error) = if good { (0, 29) } else { (3, 0) };
        assert_eq!(scene.desk.tokens()[1], (6, bound));
        assert_eq!(judged(&scene, import(9, 6)), error);
        assert_eq!(judged(&scene, release(6)), error);
        let error = if good { 28 } else { 0 };
        assert_eq!(judged(&scene, export(3, 6)), error);
    }
}

#[test]
fn the_devices_own_show_until_the_answer() {
    let mut scene = shared();
    scene.submit(&[], &changes(), 2);
    for _ in 0..=changes().len() {
        assert_is_shared(&scene);
        assert_eq!(scene.run(1).units, 1);
    }
    assert_eq!(scene.run(0).ended, Ended::Waiting);
    assert_is_shared(&scene);
    assert_eq!(scene.answer(true), 0);
    assert_is_changed(&scene);
}

#[test]
fn packets_see_what_earlier_packets_left() {
    let mut scene = shared();
    let packets = [
        import(9, 6),
        destroy(3),
        export(9, 20),
        release(6),
        import(3, 20),
        destroy(9),
        export(3, 20),
    ];
    assert_eq!(scene.settle(&[], &packets), 0);
    assert_eq!(scene.desk.names()[2..], [(3, 3), (4, 4)]);
    let tokens = [(5, 1), (6, 0), (7, 0), (8, 0), (20, 3)];
    assert_eq!(scene.desk.tokens(), tokens);
}

#[test]
fn a_reset_forgets_all_tokens() {
    for control in [2, 3] {
        // At rest, and with a submission in work that has changed some.
        for units in [0, 4, 7, 11] {
            let mut scene = shared();
            scene.submit(&[], &changes(), 2);
            assert_eq!(scene.run(units).units, units);
            scene.write(0x10C, control);
            assert_eq!(scene.desk.names(), []);
            assert_eq!(scene.desk.tokens(), []);
            scene.write(0x10C, 1);
            let head = scene.head();
            scene.put_ring(RING, head);
            for token in [5, 6, 7, 8, 9] {
                assert_eq!(judged(&scene, import(9, token)), 29);
                assert_eq!(judged(&scene, release(token)), 29);
            }
            // All of them are new again.
            let packets = [
                surface(4),
                export(4, 8),
                export(4, 7),
                export(4, 6),
                export(4, 5),
                import(1, 7),
            ];
            assert_eq!(scene.settle(&[], &packets), 0);
            assert_eq!(scene.desk.names(), [(1, 1), (4, 1)]);
            assert_eq!(scene.desk.tokens(), [(5, 1), (6, 1), (7, 1), (8, 1)]);
        }
    }
}

#[test]
fn disabling_forgets_nothing() {
    let mut scene = shared();
    scene.submit(&[], &changes(), 2);
    scene.run(6);
    scene.write(0x10C, 0);
    assert_is_shared(&scene);
    scene.write(0x10C, 1);
    assert_eq!(scene.run(99).ended, Ended::Waiting);
    scene.write(0x10C, 0);
    assert_eq!(scene.answer(true), 0);
    assert_is_changed(&scene);
}

#[test]
fn a_refused_call_changes_no_token() {
    let mut scene = shared();
    scene.submit(&[], &changes(), 2);
    scene.run(99);
    let before = scene.clone();
    let mut other = vec![0; MEMORY - 1];
    assert_eq!(scene.desk.answer(&mut other, true, 9).answer, 1);
    assert_eq!(scene.desk.run(&mut other, 9).answer, 1);
    assert_eq!(scene, before);
    assert_eq!(scene.answer(true), 0);
    assert_is_changed(&scene);
    assert_eq!(scene.answer(false), 3);
    assert_is_changed(&scene);
}

#[test]
fn the_run_of_an_answer_sees_the_tokens_it_left() {
    for (good, error) in [(true, 0), (false, 29)] {
        let mut scene = shared();
        scene.submit(&[], &[export(4, 9)], 2);
        assert_eq!(scene.verdict().0, 0);
        scene.submit(&[], &[import(9, 9)], 3);
        let ran = scene.answer_and_run(good, 2);
        assert_eq!((ran.answer, ran.units), (0, 2));
        let last = if error == 0 { 0 } else { 29 };
        assert_eq!(scene.error(), last);
    }
}

/// A device with surface 1 and this many tokens on it, from 1 up.
fn with_tokens(count: u64) -> Scene {
    let mut scene = Scene::new();
    let mut packets = vec![surface(1), surface(2)];
    packets.extend((1..=count).map(|token| export(1, token)));
    assert_eq!(scene.settle(&[], &packets), 0);
    assert_eq!(scene.desk.tokens().len() as u64, count);
    scene
}

#[test]
fn the_256_count_since_the_last_reset() {
    let mut scene = with_tokens(255);
    assert_eq!(judged(&scene, export(2, 256)), 0);
    // What a refused or failed submission named does not count.
    assert_eq!(scene.settle(&[], &[export(2, 300), destroy(9)]), 18);
    assert_eq!(scene.settle(&[], &[export(2, 301), export(2, 302)]), 19);
    scene.submit(&[], &[export(2, 303)], 2);
    assert_eq!(scene.verdict().0, 0);
    assert_eq!(scene.answer(false), 0);
    // Spent ones do.
    let spending = [release(1), release(2), destroy(1)];
    assert_eq!(scene.settle(&[], &spending), 0);
    assert_eq!(scene.settle(&[], &[export(2, 256)]), 0);
    for (packet, error) in [
        (export(2, 257), 19),
        (export(2, 256), 0),
        (export(2, 255), 28),
        (export(2, 0), 28),
        (import(9, 256), 0),
        (release(256), 0),
    ] {
        assert_eq!(judged(&scene, packet), error);
    }
    let lost = scene.desk.tokens();
    assert_eq!(lost.iter().filter(|(_, name)| *name == 0).count(), 255);
    scene.write(0x10C, 3);
    let mut packets = vec![surface(1)];
    packets.extend((1000..1256).map(|token| export(1, token)));
    assert_eq!(scene.settle(&[], &packets), 0);
    assert_eq!(judged(&scene, export(1, 1256)), 19);
}

#[test]
fn an_undone_destroy_brings_all_256_back() {
    let mut scene = with_tokens(256);
    let before = scene.desk.tokens();
    assert_eq!(scene.settle(&[], &[release(9), destroy(1), destroy(1)]), 18);
    assert_eq!(scene.desk.tokens(), before);
    assert_eq!(scene.settle(&[], &[release(9), destroy(1)]), 0);
    assert!(scene.desk.tokens().iter().all(|(_, name)| *name == 0));
}

#[test]
fn lists_rise_and_tell_the_lowest_name() {
    let mut scene = Scene::new();
    let packets = [
        surface(u32::MAX),
        export(u32::MAX, u64::MAX),
        export(u32::MAX, 1),
        export(u32::MAX, 1 << 32),
        create_buffer(7, 1, 0, 0),
    ];
    assert_eq!(scene.settle(&[], &packets), 0);
    let expect = |scene: &Scene, names: &[(u32, u32)], lowest: u32| {
        assert_eq!(scene.desk.names(), names);
        let tokens = [(1, lowest), (1 << 32, lowest), (u64::MAX, lowest)];
        assert_eq!(scene.desk.tokens(), tokens);
    };
    let max = u32::MAX;
    expect(&scene, &[(7, 7), (max, max)], max);
    assert_eq!(scene.settle(&[], &[import(9, 1)]), 0);
    expect(&scene, &[(7, 7), (9, 9), (max, 9)], 9);
    assert_eq!(scene.settle(&[], &[import(2, 1 << 32)]), 0);
    expect(&scene, &[(2, 2), (7, 7), (9, 2), (max, 2)], 2);
    assert_eq!(scene.settle(&[], &[destroy(max)]), 0);
    expect(&scene, &[(2, 2), (7, 7), (9, 2)], 2);
    assert_eq!(scene.settle(&[], &[destroy(2)]), 0);
    expect(&scene, &[(7, 7), (9, 9)], 9);
    assert_eq!(scene.settle(&[], &[destroy(9)]), 0);
    expect(&scene, &[(7, 7)], 0);
}

/// A device after these packets, whose fence and error registers are those of
/// one good submission.
fn after(packets: &[Vec<u8>]) -> Scene {
    let mut scene = Scene::new();
    assert_eq!(scene.settle(&[], packets), 0);
    scene
}

#[test]
fn devices_compare_by_the_names_their_tokens_lead_to() {
    let surfaces = [surface(1), surface(2), surface(3)];
    let with = |packets: &[Vec<u8>]| after(&[&surfaces[..], packets].concat()).desk;
    // The order of exports does not count, nor does a name that has gone.
    let one = with(&[export(1, 5), export(2, 6), import(4, 5)]);
    assert_eq!(one, with(&[export(2, 6), export(1, 5), import(4, 5)]));
    let other = [export(2, 6), export(1, 5), import(9, 5), import(4, 5)];
    assert_eq!(one, with(&[&other[..], &[destroy(9)]].concat()));
    for packets in [
        vec![export(1, 5), export(2, 6)],
        vec![export(1, 5), export(2, 6), surface(4)],
        vec![export(1, 5), export(2, 6), import(4, 6)],
        vec![export(1, 6), export(2, 5), import(4, 6)],
        vec![export(1, 5), export(3, 6), import(4, 5)],
        vec![export(1, 5), export(2, 6), import(4, 5), release(5)],
        vec![export(1, 5), export(2, 6), import(4, 5), export(3, 7)],
    ] {
        assert_ne!(one, with(&packets));
    }
    // Once their tokens are spent, it does not count whose they were.
    let spent = with(&[export(1, 5), release(5)]);
    assert_eq!(spent, with(&[export(2, 5), release(5)]));
    assert_ne!(spent, with(&[]));
}

#[test]
fn devices_in_work_compare_by_the_submissions_tokens_too() {
    let in_work = |packets: [Vec<u8>; 2]| {
        let mut scene = shared();
        scene.submit(&[], &packets, 2);
        assert_eq!(scene.run(2).units, 2);
        scene.desk
    };
    let one = in_work([export(4, 9), packet(7, 8)]);
    assert_eq!(one, in_work([export(4, 9), packet(8, 8)]));
    assert_ne!(one, in_work([export(4, 10), packet(7, 8)]));
    assert_ne!(one, in_work([export(3, 9), packet(7, 8)]));
    assert_ne!(one, in_work([import(4 + 5, 6), packet(7, 8)]));
    assert_ne!(one, in_work([packet(7, 24), packet(7, 8)]));
}
