//! The small exports, a texture's packed size, a table's first error and its place, give the same on both sides.

use compare::exports::{some_shape, some_table};
use compare::front::Front;
use compare::random::Random;
use compare::shape::Shape;
use std::collections::BTreeMap;
use std::ops::RangeInclusive;

fn check_shape(shape: Shape) -> u64 {
    let (proved, plain) = (
        zelezmut::Desk::packed_size(shape),
        plain::Desk::packed_size(shape),
    );
    assert_eq!(proved, plain, "{:?}", shape);
    plain
}

#[test]
fn packed_sizes_of_random_shapes_are_equal() {
    let mut random = Random::new(20);
    let shapes = 200_000;
    let good = (0..shapes)
        .filter(|_| check_shape(some_shape(&mut random)) != 0)
        .count();
    assert!(
        (shapes / 4..shapes * 3 / 4).contains(&good),
        "{} good shapes",
        good
    );
}

/// One either side of every rule, each rule with each other.
#[test]
fn packed_sizes_of_edge_shapes_are_equal() {
    let sides = [
        0,
        1,
        2,
        3,
        4,
        5,
        8191,
        8192,
        8193,
        16_383,
        16_384,
        16_385,
        u32::MAX,
    ];
    for format in [0, 1, 2, 3, 4, 63, 64, 65, 66, 67, u32::MAX] {
        for (width, height) in sides
            .iter()
            .flat_map(|&width| sides.map(|height| (width, height)))
        {
            let shape = Shape {
                format,
                width,
                height,
                mips: 1,
                layers: 1,
                pitch: 0,
            };
            let (chain, least) = (shape.full_chain(), shape.least_pitch());
            for mips in [0, 1, chain.saturating_sub(1), chain, chain + 1, u32::MAX] {
                for layers in [0, 1, 255, 256, 257, u32::MAX] {
                    for pitch in [
                        0,
                        least.saturating_sub(1),
                        least,
                        least.saturating_add(1),
                        u32::MAX,
                    ] {
                        check_shape(Shape {
                            mips,
                            layers,
                            pitch,
                            ..shape
                        });
                    }
                }
            }
        }
    }
}

/// A table's first error and its place.
fn error_and_place<F: Front>(table: &[u8], memory: u64) -> (u32, u32) {
    (F::table_error(table, memory), F::table_place(table, memory))
}

#[test]
fn first_errors_of_random_tables_are_equal() {
    let mut random = Random::new(30);
    let mut met = BTreeMap::new();
    for _ in 0..100_000 {
        let (table, memory) = some_table(&mut random);
        let proved = error_and_place::<zelezmut::Desk>(&table, memory);
        let plain = error_and_place::<plain::Desk>(&table, memory);
        assert_eq!(proved, plain, "memory {}, table {:?}", memory, table);
        *met.entry(plain).or_insert(0) += 1;
    }
    let times = |error: u32, places: RangeInclusive<u32>| -> u32 {
        met.range((error, *places.start())..=(error, *places.end()))
            .map(|(_, times)| times)
            .sum()
    };
    for (error, places) in [
        (0, 0..=0),
        (13, 0..=0),
        (14, 0..=0),
        (14, 1..=62),
        (14, 63..=63),
        (15, 1..=62),
        (15, 63..=63),
        (19, 0..=0),
    ] {
        let times = times(error, places.clone());
        assert!(
            times >= 500,
            "error {} at {:?} only {} times: {:?}",
            error,
            places,
            times,
            met
        );
    }
    // Only an entry has a place, the first one can be no other's double, and 64 are all there are.
    for (error, places) in [
        (0, 1..=u32::MAX),
        (13, 1..=u32::MAX),
        (14, 64..=u32::MAX),
        (15, 0..=0),
        (15, 64..=u32::MAX),
        (19, 1..=u32::MAX),
    ] {
        assert_eq!(times(error, places), 0, "error {}: {:?}", error, met);
    }
}
