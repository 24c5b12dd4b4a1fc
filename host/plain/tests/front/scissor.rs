//! The target and the scissor, which is clipped to it.

use crate::scene::*;
use plain::Record;

const ENTRIES: [Entry; 1] = [(5, 0, 8192, 4096)];
/// 5 by 3 pixels.
const SMALL: Texture = (1, 5, 3, 1, 1, 20);
const MIN: i32 = i32::MIN;
const MAX: i32 = i32::MAX;

fn judged(packets: &[Vec<u8>]) -> u32 {
    verdict(&ENTRIES, packets)
}

fn texture(handle: u32) -> Vec<u8> {
    create_texture(handle, SMALL, 0, 0)
}

/// A scissor that covers every texture.
fn whole() -> Vec<u8> {
    scissor((0, 0), (MAX, MAX))
}

/// The record of a scissor: left, top, width, height.
fn clipped(left: u32, top: u32, width: u64, height: u64) -> Record {
    record(4, left, top, width, height)
}

/// What a scissor leaves of a texture of this shape.
fn on(shape: Texture, corner: (i32, i32), sides: (i32, i32)) -> Record {
    let packets = [
        create_texture(1, shape, 0, 0),
        target(1),
        scissor(corner, sides),
    ];
    records(&[], &packets)[0]
}

#[test]
fn a_target_is_a_live_texture() {
    let with = |packet| judged(&[texture(1), create_buffer(2, 64, 0, 0), packet]);
    assert_eq!(with(target(1)), 0);
    for handle in [0, 2, 3, u32::MAX] {
        assert_eq!(with(target(handle)), 18);
    }
    // Live as the packets before it left it.
    assert_eq!(judged(&[target(1), texture(1)]), 18);
    assert_eq!(judged(&[texture(1), destroy(1), target(1)]), 18);
    let buffer = create_buffer(1, 64, 0, 0);
    let as_buffer = [texture(1), destroy(1), buffer.clone(), target(1)];
    assert_eq!(judged(&as_buffer), 18);
    assert_eq!(judged(&[buffer, destroy(1), texture(1), target(1)]), 0);
}

#[test]
fn a_target_may_be_backed_or_not_and_needs_no_table() {
    let mut scene = Scene::new();
    let backed = create_texture(1, SMALL, 5, 0);
    let made = [backed, texture(u32::MAX), create_buffer(3, 64, 5, 0)];
    scene.settle_good(&ENTRIES, &made, 1);
    for (handle, error) in [(1, 0), (u32::MAX, 0), (3, 18)] {
        let mut scene = scene.clone();
        scene.submit(&[], &[target(handle), whole()], 2);
        assert_eq!(scene.verdict(), (error, if error == 0 { 3 } else { 2 }));
    }
}

#[test]
fn a_scissor_needs_a_target() {
    assert_eq!(judged(&[whole()]), 30);
    assert_eq!(judged(&[texture(1), whole()]), 30);
    assert_eq!(judged(&[texture(1), target(1), whole()]), 0);
    assert_eq!(judged(&[texture(1), whole(), target(1)]), 30);
    assert_eq!(judged(&[scissor((0, 0), (0, 0))]), 30);
    assert_eq!(judged(&[scissor((0, 0), (-1, -1))]), 30);
}

#[test]
fn a_target_ends_with_its_submission() {
    let next = |scene: &mut Scene, packets: &[Vec<u8>]| {
        scene.submit(&[], packets, 9);
        scene.verdict().0
    };
    let mut scene = Scene::new();
    scene.settle_good(&[], &[texture(1), target(1), whole()], 1);
    let mut failed = scene.clone();
    assert_eq!(next(&mut scene, &[whole()]), 30);
    assert_eq!(next(&mut scene, &[target(1), target(2)]), 18);
    assert_eq!(next(&mut scene, &[whole()]), 30);
    assert_eq!(next(&mut scene, &[target(1), whole()]), 0);
    assert_eq!(next(&mut failed, &[target(1), whole()]), 0);
    assert_eq!(failed.answer(false), 0);
    assert_eq!(next(&mut failed, &[whole()]), 30);
    // A reset drops it with the submission in work.
    let mut reset = failed.clone();
    reset.submit(&[], &[target(1), whole()], 9);
    reset.run(2);
    reset.write(0x10C, 3);
    let head = reset.head();
    reset.put_ring(RING, head);
    assert_eq!(next(&mut reset, &[texture(1), whole()]), 30);
}

#[test]
fn an_answer_with_a_run_starts_with_no_target() {
    let mut scene = Scene::with(&[], &[texture(1), target(1)]);
    assert_eq!(scene.verdict().0, 0);
    scene.submit(&[], &[whole()], 2);
    // The next submission's stream lies where the first one's did.
    assert_eq!(scene.answer_and_run(true, 2).units, 2);
    assert_eq!((scene.error(), scene.detail()), (30, 24));
}

#[test]
fn a_target_ends_with_its_handle() {
    let ended = [texture(1), target(1), destroy(1)];
    let then = |packets: &[Vec<u8>]| judged(&[&ended[..], packets].concat());
    assert_eq!(then(&[whole()]), 30);
    assert_eq!(then(&[target(1)]), 18);
    // Made again, it is no target until a packet says so.
    assert_eq!(then(&[texture(1), whole()]), 30);
    assert_eq!(then(&[create_buffer(1, 64, 0, 0), whole()]), 30);
    let again = create_texture(1, (1, 2, 7, 1, 1, 8), 0, 0);
    let packets = [&ended[..], &[again, target(1), whole()]].concat();
    assert_eq!(records(&[], &packets), [clipped(0, 0, 2, 7)]);
    // So it is with a texture of an earlier submission.
    let mut scene = Scene::new();
    scene.settle_good(&[], &[texture(1)], 1);
    scene.submit(&[], &[target(1), destroy(1), texture(1), whole()], 2);
    assert_eq!(scene.verdict(), (30, 5));
}

#[test]
fn other_handles_may_be_destroyed() {
    let packets = [
        texture(1),
        texture(2),
        create_buffer(3, 64, 0, 0),
        target(1),
        destroy(2),
        destroy(3),
        texture(2),
        whole(),
    ];
    assert_eq!(records(&[], &packets), [clipped(0, 0, 5, 3)]);
}

#[test]
fn the_later_of_two_targets_counts() {
    let other = create_texture(2, (1, 2, 7, 1, 1, 8), 0, 0);
    let two = [texture(1), other, target(1), target(2)];
    let then = |packets: &[Vec<u8>]| {
        let mut scene = Scene::with(&[], &[&two[..], packets].concat());
        (scene.verdict().0, scene.records())
    };
    let (first, second) = (clipped(0, 0, 5, 3), clipped(0, 0, 2, 7));
    assert_eq!(then(&[whole()]), (0, vec![second]));
    assert_eq!(then(&[destroy(1), whole()]), (0, vec![second]));
    // The earlier one does not come back.
    assert_eq!(then(&[destroy(2), whole()]), (30, vec![]));
    assert_eq!(then(&[destroy(2), target(1), whole()]), (0, vec![first]));
    // Each scissor is clipped to the target of its time.
    let turns = [whole(), target(1), whole(), target(1), target(2), whole()];
    assert_eq!(then(&turns), (0, vec![second, first, second]));
}

#[test]
fn sides_are_not_negative() {
    let with = |sides| judged(&[texture(1), target(1), scissor((0, 0), sides)]);
    for good in [0, 1, MAX] {
        assert_eq!(with((good, good)), 0);
        for bad in [-1, -2, MIN + 1, MIN] {
            assert_eq!(with((good, bad)), 30);
            assert_eq!(with((bad, good)), 30);
            assert_eq!(with((bad, bad)), 30);
        }
    }
    // Also where nothing of it is on the target.
    for corner in [(5, 3), (MIN, MIN), (MAX, MAX)] {
        let packets = [texture(1), target(1), scissor(corner, (-1, 1))];
        assert_eq!(judged(&packets), 30);
    }
}

/// Start, side and what is left of them on 4 pixels.
type Line = (i32, i32, (u32, u64));

const LINES: [Line; 21] = [
    (0, 4, (0, 4)),
    (0, 3, (0, 3)),
    (0, 5, (0, 4)),
    (0, MAX, (0, 4)),
    (1, 3, (1, 3)),
    (1, 4, (1, 3)),
    (1, 2, (1, 2)),
    (3, 1, (3, 1)),
    (3, MAX, (3, 1)),
    (-1, 2, (0, 1)),
    (-1, 5, (0, 4)),
    (-1, 4, (0, 3)),
    (-1, 6, (0, 4)),
    (-1, MAX, (0, 4)),
    (MIN + 2, MAX, (0, 1)),
    (MIN + 3, MAX, (0, 2)),
    (MIN + 4, MAX, (0, 3)),
    (MIN + 5, MAX, (0, 4)),
    (MIN + 6, MAX, (0, 4)),
    (2, MAX - 1, (2, 2)),
    (2, MAX - 2, (2, 2)),
];

/// Starts and sides with nothing on 4 pixels.
const MISSED: [(i32, i32); 16] = [
    (0, 0),
    (3, 0),
    (4, 0),
    (4, 1),
    (4, MAX),
    (5, MAX),
    (-1, 0),
    (-1, 1),
    (-4, 4),
    (MAX, 0),
    (MAX, 1),
    (MAX, MAX),
    (MIN, 0),
    (MIN, 1),
    (MIN, MAX),
    (MIN + 1, MAX),
];

#[test]
fn scissors_are_clipped_in_both_directions() {
    let square = (1, 4, 4, 1, 1, 16);
    for (x, width, (left, wide)) in LINES {
        for (y, height, (top, high)) in LINES {
            let expected = clipped(left, top, wide, high);
            assert_eq!(on(square, (x, y), (width, height)), expected);
        }
    }
}

#[test]
fn an_empty_clip_is_a_record_of_zeros() {
    let square = (1, 4, 4, 1, 1, 16);
    let empty = clipped(0, 0, 0, 0);
    for (start, side) in MISSED {
        for (other, length, _) in LINES {
            assert_eq!(on(square, (start, other), (side, length)), empty);
            assert_eq!(on(square, (other, start), (length, side)), empty);
        }
        for (other, length) in MISSED {
            assert_eq!(on(square, (start, other), (side, length)), empty);
        }
    }
}

/// The pixels of a 3 by 2 texture within the scissor, one by one.
fn by_pixels(corner: (i32, i32), sides: (i32, i32)) -> Record {
    let within = |at: i32, start, side| at >= start && at < start + side;
    let columns: Vec<_> = (0..3).filter(|x| within(*x, corner.0, sides.0)).collect();
    let rows: Vec<_> = (0..2).filter(|y| within(*y, corner.1, sides.1)).collect();
    match (columns.first(), rows.first()) {
        (Some(left), Some(top)) => clipped(
            *left as u32,
            *top as u32,
            columns.len() as u64,
            rows.len() as u64,
        ),
        _ => clipped(0, 0, 0, 0),
    }
}

#[test]
fn small_scissors_pixel_by_pixel() {
    for x in -4..=4 {
        for y in -4..=4 {
            let mut packets = vec![create_texture(1, (1, 3, 2, 1, 1, 12), 0, 0), target(1)];
            let mut expected = Vec::new();
            for sides in (0..56).map(|i| (i % 8, i / 8)) {
                packets.push(scissor((x, y), sides));
                expected.push(by_pixels((x, y), sides));
            }
            assert_eq!(records(&[], &packets), expected);
        }
    }
}

#[test]
fn the_sides_are_those_of_mip_0_in_pixels() {
    let all = |shape| on(shape, (MIN + 5, MIN + 5), (MAX, MAX));
    assert_eq!(all((1, 16_384, 16_384, 1, 1, 0)), clipped(0, 0, 4, 4));
    let whole = |shape| on(shape, (0, 0), (MAX, MAX));
    for (width, height) in [(1, 1), (5, 3), (16_384, 1), (1, 16_384)] {
        for format in [1, 3, 64, 66] {
            let expected = clipped(0, 0, u64::from(width), u64::from(height));
            assert_eq!(whole((format, width, height, 1, 1, 0)), expected);
            assert_eq!(whole((format, width, height, 1, 256, 9)), expected);
        }
    }
    assert_eq!(whole((1, 5, 3, 3, 2, 0)), clipped(0, 0, 5, 3));
    let corner = on((66, 16_384, 16_384, 15, 1, 0), (16_383, 16_383), (MAX, MAX));
    assert_eq!(corner, clipped(16_383, 16_383, 1, 1));
}

#[test]
fn every_scissor_is_a_record_in_its_turn() {
    let packets = [
        create_texture(1, SMALL, 5, 0),
        target(1),
        scissor((1, 1), (2, 2)),
        dirty(1, 4, 8),
        scissor((1, 1), (2, 2)),
        scissor((9, 9), (2, 2)),
    ];
    let expected = [
        record(1, 1, 5, 8192, 60),
        clipped(1, 1, 2, 2),
        record(2, 1, 5, 8196, 8),
        clipped(1, 1, 2, 2),
        clipped(0, 0, 0, 0),
    ];
    assert_eq!(records(&ENTRIES, &packets), expected);
}

/// A target and 64 records: some dirty ranges, the others scissors, every
/// second one empty.
fn full(dirties: usize) -> Vec<Vec<u8>> {
    let mut packets = vec![create_texture(1, SMALL, 5, 0), target(1)];
    packets.extend((0..dirties).map(|_| dirty(1, 0, 1)));
    packets.extend((dirties..63).map(|i| scissor((0, 0), (i as i32 % 2, 1))));
    packets
}

#[test]
fn scissors_count_toward_the_64_records() {
    for dirties in [0, 1, 62, 63] {
        assert_eq!(records(&ENTRIES, &full(dirties)).len(), 64);
        let with = |packet| judged(&[full(dirties), vec![packet]].concat());
        assert_eq!(with(whole()), 19);
        assert_eq!(with(scissor((9, 9), (1, 1))), 19);
        assert_eq!(with(scissor((0, 0), (0, 0))), 19);
        assert_eq!(with(dirty(1, 0, 1)), 19);
        assert_eq!(with(create_buffer(2, 1, 5, 0)), 19);
        // These make no record.
        assert_eq!(with(dirty(1, 0, 0)), 0);
        assert_eq!(with(target(1)), 0);
        assert_eq!(with(viewport([0, 0, 1, 1, 0, 0])), 0);
        assert_eq!(with(clear(0, [0; 4], 0, 0)), 0);
        assert_eq!(with(create_buffer(2, 1, 0, 0)), 0);
        // The other rules come first.
        assert_eq!(with(scissor((0, 0), (-1, 1))), 30);
        assert_eq!(with(target(2)), 18);
        let untargeted = [full(dirties), vec![destroy(1), whole()]].concat();
        assert_eq!(judged(&untargeted), 30);
    }
}

#[test]
fn the_target_is_kept_between_units() {
    // The guest writes over the target's packet after its unit.
    let mut scene = Scene::with(&[], &[texture(1), target(1), whole()]);
    scene.run(3);
    scene.put32(STREAM + 24 + 56 + 8, 9);
    scene.put32(STREAM + 24 + 20, 1);
    assert_eq!(scene.verdict(), (0, 1));
    assert_eq!(scene.records(), [clipped(0, 0, 5, 3)]);
}
