//! Viewport and clear packets, their floats told by their bits, and what all
//! four state packets have in common.

use crate::scene::*;
use plain::Ended;

const ONE: u32 = 0x3F80_0000;
const NAN: u32 = 0x7FC0_0000;
const GREATEST: u32 = 0x7F7F_FFFF;
const LEAST: u32 = 0xFF7F_FFFF;
const VIEWPORT: [u32; 6] = [0, 0, ONE, ONE, 0, ONE];
const SMALL: Texture = (1, 5, 3, 1, 1, 20);

/// The infinities, and quiet and signalling NaNs of both signs.
const NOT_FINITE: [u32; 16] = [
    0x7F80_0000,
    0x7F80_0001,
    0x7F80_0002,
    0x7FA0_0000,
    0x7FBF_FFFF,
    NAN,
    0x7FC0_0001,
    0x7FFF_FFFF,
    0xFF80_0000,
    0xFF80_0001,
    0xFF80_0002,
    0xFFA0_0000,
    0xFFBF_FFFF,
    0xFFC0_0000,
    0xFFC0_0001,
    0xFFFF_FFFF,
];

/// From 0 to 1, rising; denormals end with 007F_FFFF.
const RISING: [u32; 12] = [
    0,
    1,
    2,
    0x007F_FFFF,
    0x0080_0000,
    0x0080_0001,
    0x3EFF_FFFF,
    0x3F00_0000,
    0x3F00_0001,
    0x3F7F_FFFE,
    0x3F7F_FFFF,
    ONE,
];
const MINUS_ZERO: u32 = 0x8000_0000;

/// Finite and above 1.
const ABOVE_ONE: [u32; 5] = [0x3F80_0001, 0x3F80_0002, 0x4000_0000, 0x7F7F_FFFE, GREATEST];

/// Finite and below 0.
const BELOW_ZERO: [u32; 8] = [
    0x8000_0001,
    0x8000_0002,
    0x807F_FFFF,
    0x8080_0000,
    0xBF7F_FFFF,
    0xBF80_0000,
    0xBF80_0001,
    LEAST,
];

fn finite() -> Vec<u32> {
    [&RISING[..], &[MINUS_ZERO], &ABOVE_ONE, &BELOW_ZERO].concat()
}

fn judged(packet: Vec<u8>) -> u32 {
    verdict(&[], &[packet])
}

/// The error of the good viewport with one float changed.
fn viewport_with(index: usize, bits: u32) -> u32 {
    let mut floats = VIEWPORT;
    floats[index] = bits;
    judged(viewport(floats))
}

fn depths(near: u32, far: u32) -> u32 {
    judged(viewport([0, 0, ONE, ONE, near, far]))
}

fn assert_each(error: u32, bits: &[u32], judge: impl Fn(u32) -> u32) {
    for bits in bits {
        assert_eq!(judge(*bits), error, "{:#010x}", bits);
    }
}

#[test]
fn viewport_and_clear_need_no_target_and_make_no_record() {
    let packets = [viewport(VIEWPORT), clear(7, [ONE; 4], ONE, 1)];
    let mut scene = Scene::with(&[], &packets);
    assert_eq!(scene.verdict(), (0, 3));
    assert!(scene.records().is_empty());
}

#[test]
fn no_float_of_a_viewport_is_an_infinity_or_a_nan() {
    for index in 0..6 {
        assert_each(30, &NOT_FINITE, |bits| viewport_with(index, bits));
    }
}

#[test]
fn a_viewports_corner_is_any_finite_number() {
    for index in [0, 1] {
        assert_each(0, &finite(), |bits| viewport_with(index, bits));
    }
}

#[test]
fn a_viewports_sides_are_above_0() {
    for index in [2, 3] {
        let judge = |bits| viewport_with(index, bits);
        assert_each(0, &RISING[1..], judge);
        assert_each(0, &ABOVE_ONE, judge);
        assert_each(30, &[0, MINUS_ZERO], judge);
        assert_each(30, &BELOW_ZERO, judge);
    }
}

#[test]
fn near_and_far_are_from_0_to_1() {
    let as_near = |bits| depths(bits, ONE);
    let as_far = |bits| depths(0, bits);
    let judges: [&dyn Fn(u32) -> u32; 2] = [&as_near, &as_far];
    for judge in judges {
        assert_each(0, &RISING, judge);
        assert_each(0, &[MINUS_ZERO], judge);
        assert_each(30, &ABOVE_ONE, judge);
        assert_each(30, &BELOW_ZERO, judge);
    }
    // Both outside, though in order.
    assert_each(30, &ABOVE_ONE, |bits| depths(bits, bits));
    assert_each(30, &BELOW_ZERO, |bits| depths(bits, bits));
    assert_eq!(depths(0x8000_0001, 0x3F80_0001), 30);
}

#[test]
fn near_is_not_above_far() {
    for (i, near) in RISING.iter().enumerate() {
        for (j, far) in RISING.iter().enumerate() {
            let expected = if i > j { 30 } else { 0 };
            assert_eq!(depths(*near, *far), expected, "{:#x} {:#x}", near, far);
        }
    }
    // -0 stands where 0 does.
    assert_each(0, &RISING, |far| depths(MINUS_ZERO, far));
    assert_each(30, &RISING[1..], |near| depths(near, MINUS_ZERO));
    assert_eq!(depths(0, MINUS_ZERO), 0);
    assert_eq!(depths(MINUS_ZERO, MINUS_ZERO), 0);
}

#[test]
fn clear_flags_are_at_most_7() {
    let judge = |flags| judged(clear(flags, [0; 4], 0, 0));
    assert_each(0, &[0, 1, 2, 3, 4, 5, 6, 7], judge);
    assert_each(30, &[8, 9, 15, 16, 0x8000_0000, u32::MAX], judge);
}

#[test]
fn a_clears_colour_is_any_finite_number() {
    for index in 0..4 {
        for flags in [0, 7] {
            let judge = |bits| {
                let mut colour = [0; 4];
                colour[index] = bits;
                judged(clear(flags, colour, 0, 0))
            };
            assert_each(0, &finite(), judge);
            assert_each(30, &NOT_FINITE, judge);
        }
    }
}

#[test]
fn a_clears_depth_is_from_0_to_1_whatever_the_flags() {
    for flags in 0..8 {
        let judge = |depth| judged(clear(flags, [0; 4], depth, 0));
        assert_each(0, &RISING, judge);
        assert_each(0, &[MINUS_ZERO], judge);
        assert_each(30, &ABOVE_ONE, judge);
        assert_each(30, &BELOW_ZERO, judge);
        assert_each(30, &NOT_FINITE, judge);
    }
}

#[test]
fn a_clears_stencil_is_any_number() {
    let judge = |stencil| judged(clear(7, [0; 4], 0, stencil));
    assert_each(0, &[1, 255, 256, 0x8000_0000], judge);
    assert_each(0, &NOT_FINITE, judge);
}

#[test]
fn only_the_named_words_are_judged() {
    let floats = |packet: &[u8], from: usize, to: usize| {
        for at in (8..packet.len()).step_by(4) {
            let mut packet = packet.to_vec();
            put32(&mut packet, at, NAN);
            let expected = if at < from || at >= to { 0 } else { 30 };
            assert_eq!(judged(packet), expected, "at {}", at);
        }
    };
    let appended = [0xFF; 12];
    floats(&grown(viewport(VIEWPORT), &appended), 8, 32);
    // The bits of a NaN are no flags.
    floats(&grown(clear(7, [0; 4], 0, 0), &appended), 8, 32);
    let set = |packet| verdict(&[], &[create_texture(1, SMALL, 0, 0), packet]);
    for at in [8, 12, 16] {
        let mut packet = grown(target(1), &appended);
        put32(&mut packet, at, 0);
        assert_eq!(set(packet), if at == 8 { 18 } else { 0 });
    }
}

/// One good packet of each state opcode, with the texture it needs.
fn good() -> Vec<Vec<u8>> {
    vec![
        create_texture(1, SMALL, 0, 0),
        target(1),
        viewport(VIEWPORT),
        scissor((1, 1), (2, 2)),
        clear(7, [ONE; 4], ONE, u32::MAX),
    ]
}

#[test]
fn each_is_one_step() {
    for count in 1..=good().len() {
        let packets = &good()[..count];
        assert_eq!(Scene::with(&[], packets).verdict(), (0, 1 + count as u16));
    }
    // Unit by unit, and with the registers as they were.
    let mut scene = Scene::with(&[], &good());
    for _ in 0..5 {
        assert_eq!(scene.run(1).ended, Ended::Paused);
        assert!(scene.records().is_empty());
    }
    assert_eq!(scene.run(9).units, 1);
    assert_eq!((scene.errors(), scene.status()), (0, 0));
    assert_eq!(scene.records(), [record(4, 1, 1, 2, 2)]);
}

#[test]
fn each_is_read_at_its_own_unit() {
    // A float is spoiled before its packet's unit, or after it.
    for (units, verdict) in [(2, (30, 2)), (3, (30, 1)), (4, (0, 2))] {
        let mut scene = Scene::with(&[], &good());
        scene.run(units);
        scene.put32(STREAM + 24 + 56 + 16 + 8, NAN);
        assert_eq!(scene.verdict(), verdict);
    }
}

/// Every way to break a state packet, with its error.
fn bad() -> Vec<(Vec<u8>, u32)> {
    vec![
        (target(0), 18),
        (target(7), 18),
        (viewport([NAN, 0, ONE, ONE, 0, ONE]), 30),
        (viewport([0; 6]), 30),
        (viewport([0, 0, ONE, ONE, ONE, 0]), 30),
        (clear(8, [0; 4], 0, 0), 30),
        (clear(0, [0; 4], ABOVE_ONE[0], 0), 30),
        (scissor((0, 0), (-1, 0)), 30),
        (scissor((0, 0), (0, -1)), 30),
    ]
}

#[test]
fn a_refusal_settles_within_its_step() {
    for (packet, error) in bad() {
        let mut scene = Scene::new();
        scene.settle_good(&[], &[create_buffer(7, 1, 0, 0)], 3);
        let packets = [good(), vec![packet, create_buffer(8, 1, 0, 0)]].concat();
        scene.submit(&[], &packets, 9);
        assert_eq!(scene.verdict(), (error, 7));
        assert_eq!((scene.error_fence(), scene.errors()), (9, 1));
        assert_eq!(scene.detail() as usize, stream(&good()).len());
        assert_eq!((scene.completed(), scene.head()), (9, 2));
        assert_eq!(scene.status(), 3);
        assert_eq!(get64(&scene.mem, FENCE + 8), 9);
        assert!(scene.records().is_empty());
    }
}

#[test]
fn a_refusal_leaves_the_resources_as_they_were() {
    let mut before = Scene::new();
    before.settle_good(&[], &[create_texture(1, SMALL, 0, 0)], 1);
    for (packet, error) in bad() {
        let mut scene = before.clone();
        let packets = [
            target(1),
            create_texture(2, SMALL, 0, 0),
            create_buffer(7, 1, 0, 0),
            scissor((0, 0), (9, 9)),
            destroy(1),
            create_texture(1, (1, 2, 2, 1, 1, 8), 0, 0),
            target(1),
            packet,
        ];
        scene.submit(&[], &packets, 2);
        assert_eq!(scene.verdict().0, error);
        // No target, no texture 2, and texture 1 with its first sides.
        for (packets, error) in [
            (vec![scissor((0, 0), (9, 9))], 30),
            (vec![target(2)], 18),
            (vec![destroy(7)], 18),
            (vec![target(1), scissor((0, 0), (9, 9))], 0),
        ] {
            scene.submit(&[], &packets, 3);
            assert_eq!(scene.verdict().0, error);
        }
        assert_eq!(scene.records(), [record(4, 0, 0, 5, 3)]);
    }
}
