//! Bytes that are not listed sway nothing (wish 12): each desk is played on the memory as drawn and with those bytes scrambled, through the
//! proved front and the plain program. The desks are those of `tests/desks.rs`, so what is met there is met here.
//! With one listed field less the two come apart.

use compare::desks;
use compare::front::Front;
use compare::generator::draw;
use compare::scrambled::{play, LEFTOVERS};
use plain::listed::{fields, Field, Layout, LAYOUTS};
use std::ops::Range;
use zelezmut::DeviceError;

const DESKS: u64 = 20_000;

/// A field that is missing shows in one of so many desks.
const DESKS_OF_A_FIELD: u64 = 100;

/// No result depends on it, but it is a field of clear.
const STENCIL: (Layout, Field) = (Layout::Packet(1536), (32, 4));

fn leftovers_sway_nothing<F: Front>() {
    let reached = desks::compare_scrambled::<F>(0..DESKS, |_| {})
        .unwrap_or_else(|failure| panic!("{}", failure));
    println!("{}: {}", F::NAME, reached);
    assert_eq!(reached.desks, DESKS);
    for leftover in LEFTOVERS {
        let desks = reached.leftovers.get(&leftover).copied().unwrap_or(0);
        assert!(desks > 5_000, "{:?} differs in {} desks", leftover, desks);
    }
    for error in DeviceError::ALL {
        let desks = reached.errors.get(&error.number()).copied().unwrap_or(0);
        assert!(desks > 100, "{:?} in {} desks", error, desks);
    }
    assert!(reached.openings > 100_000);
    assert!(reached.beyond > 20_000);
    assert!(reached.overwritten > 5_000);
}

#[test]
fn leftovers_sway_nothing_in_the_proved_front() {
    leftovers_sway_nothing::<zelezmut::Desk>();
}

#[test]
fn leftovers_sway_nothing_in_the_plain_program() {
    leftovers_sway_nothing::<plain::Desk>();
}

/// The first of these desks on which the memories come apart if only this many bytes of the field are listed.
fn first_swayed<F: Front>(
    mut seeds: Range<u64>,
    (layout, field): (Layout, Field),
    kept: usize,
) -> Option<u64> {
    let fewer: Vec<Field> = fields(layout)
        .iter()
        .map(|&other| {
            if other == field {
                (field.0, kept)
            } else {
                other
            }
        })
        .collect();
    let listed = |other| {
        if other == layout {
            &fewer[..]
        } else {
            fields(other)
        }
    };
    seeds.find(|&seed| {
        let drawn = draw(seed);
        play::<F>(&drawn, &drawn.operations, &listed).is_err()
    })
}

/// Every field of every layout, but the stencil.
fn fields_that_matter() -> impl Iterator<Item = (Layout, Field)> {
    LAYOUTS
        .iter()
        .flat_map(|&layout| fields(layout).iter().map(move |&field| (layout, field)))
        .filter(|field| *field != STENCIL)
}

fn every_missing_field_is_told<F: Front>() {
    for field in fields_that_matter() {
        let swayed = first_swayed::<F>(0..DESKS_OF_A_FIELD, field, 0);
        assert!(swayed.is_some(), "{:?}", field);
    }
}

#[test]
fn every_field_that_is_not_listed_sways_the_proved_front() {
    every_missing_field_is_told::<zelezmut::Desk>();
}

#[test]
fn every_field_that_is_not_listed_sways_the_plain_program() {
    every_missing_field_is_told::<plain::Desk>();
}

/// Half a field is not enough: the upper half of every u64, a token's among them.
#[test]
fn every_upper_half_that_is_not_listed_sways_the_proved_front() {
    let mut halves = 0;
    for field in fields_that_matter().filter(|(_, (_, width))| *width == 8) {
        let swayed = first_swayed::<zelezmut::Desk>(0..DESKS_OF_A_FIELD, field, 4);
        assert!(swayed.is_some(), "{:?}", field);
        halves += 1;
    }
    assert_eq!(halves, 14);
}

#[test]
fn the_stencil_sways_nothing() {
    let desks = 0..10 * DESKS_OF_A_FIELD;
    assert_eq!(first_swayed::<zelezmut::Desk>(desks, STENCIL, 0), None);
}
