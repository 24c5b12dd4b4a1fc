//! What is not listed sways no result; every listed field but the stencil can.

use crate::hostile::{disturb, spoil, Random};
use crate::scene::*;
use plain::listed::{fields, listed_by, not_listed, submission_listed, Field, Layout, LAYOUTS};
use plain::{Desk, Ended, Ran, Record};

/// The ring that the registers name.
fn ring(scene: &Scene) -> (u64, u32) {
    (scene.read64(0x100), scene.read(0x108))
}

/// The scene with other bytes wherever the next submission lists none.
fn with_leftovers(random: &mut Random, scene: &Scene) -> Scene {
    let (gpa, size) = ring(scene);
    let listed = submission_listed(&scene.mem, gpa, size);
    let mut other = scene.clone();
    for gap in not_listed(MEMORY, &listed) {
        for byte in &mut other.mem[gap] {
            *byte = random.below(256) as u8;
        }
    }
    other
}

/// Runs both unit by unit up to the settling; gives how many units that took.
fn run_alike(random: &mut Random, scenes: &mut [Scene; 2]) -> u32 {
    let errors = scenes[0].errors();
    let mut units = 0;
    loop {
        let ran = scenes[0].run(1);
        assert_eq!(scenes[1].run(1), ran);
        assert_eq!(scenes[0].desk, scenes[1].desk);
        assert_eq!(scenes[0].records(), scenes[1].records());
        units += u32::from(ran.units);
        if ran.ended == Ended::Waiting {
            let good = random.below(4) != 0;
            assert_eq!((scenes[0].answer(good), scenes[1].answer(good)), (0, 0));
            assert_eq!(scenes[0].desk, scenes[1].desk);
            return units;
        }
        if ran.ended == Ended::Idle || scenes[0].errors() != errors {
            return units;
        }
    }
}

#[test]
fn leftovers_sway_nothing() {
    let mut units = 0;
    let mut errors = [0; 31];
    for seed in 900..1000 {
        let mut random = Random(seed);
        let mut scene = Scene::new();
        for _ in 0..60 {
            disturb(&mut random, &mut scene);
            if random.below(2) == 0 {
                spoil(&mut random, &mut scene);
            }
            scene.write(0x10C, 1);
            scene.write(0x200, 0);
            let other = with_leftovers(&mut random, &scene);
            let mut scenes = [scene, other];
            let errors_before = scenes[0].errors();
            units += run_alike(&mut random, &mut scenes);
            let [first, second] = scenes;
            // The next submission is opened over either of the two.
            scene = if random.below(2) == 0 { first } else { second };
            if scene.errors() != errors_before {
                errors[scene.error() as usize] += 1;
            }
            let head = scene.head();
            scene.put_ring(RING, head);
        }
    }
    assert!(units > 10_000, "units {}", units);
    let seen = errors.iter().filter(|count| **count > 0).count();
    assert!(seen > 15, "errors {:?}", errors);
}

/// The bits of 2^127: one more bit makes an infinity.
const NEAR_INFINITY: u32 = 0x7F00_0000;
const ONE: u32 = 0x3F80_0000;
const HALF: u32 = 0x3F00_0000;

/// A submission with every layout, in which each field has a bit that counts.
/// Handle 3 and its second name 5 come from the submission before it.
fn everything() -> Scene {
    let mut scene = Scene::new();
    let surface = create_texture(3, (1, 4, 4, 1, 1, 0), 0, 0);
    scene.settle_good(&[], &[surface, export(3, 1), import(5, 1)], 1);
    scene.write(0x308, 1);
    let big = NEAR_INFINITY;
    let packets = [
        create_buffer(1, 256, 6, 64),
        create_buffer(2, 256, 0, 0),
        create_texture(4, (1, 4, 4, 3, 2, 16), 6, 512),
        dirty(1, 16, 32),
        copy((1, 8), (2, 128), 128, 1),
        target(4),
        viewport([big, big, ONE, ONE, HALF, HALF]),
        scissor((1, 1), (2, 2)),
        clear(7, [big; 4], HALF, 9),
        export(3, 2),
        import(6, 2),
        release(1),
        destroy(5),
    ];
    scene.submit(&[(6, 0, 8192, 4096)], &packets, 6);
    scene
}

/// What a run up to the host's answer reports, the records, and the device
/// after a good answer and one unit more.
type Told = (Ran, Vec<Record>, Ran, Desk);

fn told(mut scene: Scene) -> Told {
    let ran = scene.run(40);
    let records = scene.records();
    let answered = scene.answer_and_run(true, 1);
    (ran, records, answered, scene.desk)
}

/// Whether the result can differ between two memories that agree on all that
/// is listed, if this field is not.
fn sways(layout: Layout, field: Field) -> bool {
    let scene = everything();
    let usual = told(scene.clone());
    let fewer: Vec<Field> = fields(layout)
        .iter()
        .copied()
        .filter(|other| *other != field)
        .collect();
    let (gpa, size) = ring(&scene);
    let fields = |other| {
        if other == layout {
            &fewer[..]
        } else {
            fields(other)
        }
    };
    let still_listed = listed_by(fields, &scene.mem, gpa, size);
    submission_listed(&scene.mem, gpa, size)
        .into_iter()
        .filter(|range| !still_listed.contains(range))
        .flat_map(|range| range.flat_map(|at| (0..8).map(move |bit| (at, bit))))
        .any(|(at, bit)| {
            let mut other = scene.clone();
            other.mem[at] ^= 1 << bit;
            told(other) != usual
        })
}

#[test]
fn every_field_but_the_stencil_can_sway_a_result() {
    const STENCIL: (Layout, Field) = (Layout::Packet(1536), (32, 4));
    for layout in LAYOUTS {
        for field in fields(layout) {
            let expected = (layout, *field) != STENCIL;
            assert_eq!(sways(layout, *field), expected, "{:?} {:?}", layout, field);
        }
    }
}
