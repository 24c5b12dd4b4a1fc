//! Many desks, one after the other: seeds in a row, each played through both fronts or sliced.

use crate::coverage::{Coverage, Watch};
use crate::files::night;
use crate::front::Front;
use crate::generator::{draw, Drawn};
use crate::player::play;
use crate::random::Random;
use crate::report::{examine, Failure, Pairing};
use crate::scrambled::{self, Reached};
use crate::slicing::play_sliced;
use plain::listed::fields;
use std::ops::Range;

/// Plays the desks of these seeds through both fronts. `progress` is told after each how many are done.
pub fn compare<L: Front, R: Front>(
    seeds: Range<u64>,
    progress: impl FnMut(u64),
) -> Result<Coverage, Box<Failure>> {
    compare_drawn::<L, R>((draw, ""), seeds, progress)
}

/// Loads the files of these seeds into both fronts.
pub fn compare_files<L: Front, R: Front>(
    seeds: Range<u64>,
    progress: impl FnMut(u64),
) -> Result<Coverage, Box<Failure>> {
    compare_drawn::<L, R>((night::draw, " --files"), seeds, progress)
}

/// Plays what is drawn so, and what makes the program draw so.
fn compare_drawn<L: Front, R: Front>(
    (draw, flag): (fn(u64) -> Drawn, &'static str),
    seeds: Range<u64>,
    mut progress: impl FnMut(u64),
) -> Result<Coverage, Box<Failure>> {
    let mut coverage = Coverage::default();
    for seed in seeds.clone() {
        let drawn = draw(seed);
        let mut watch = Watch::new(&drawn);
        let pairing = Pairing {
            left: L::NAME,
            right: R::NAME,
            flag,
        };
        examine(&drawn, pairing, |operations| {
            play::<L, R>(drawn.memory, operations, |operation, said, seat| {
                coverage.operation(&mut watch, operation, said, seat)
            })
        })?;
        coverage.desk(&drawn, &watch);
        progress(seed - seeds.start + 1);
    }
    Ok(coverage)
}

/// Plays the desks of these seeds whole on one front and sliced on the other, and gives the number of runs made.
pub fn compare_sliced<W: Front, S: Front>(
    seeds: Range<u64>,
    mut progress: impl FnMut(u64),
) -> Result<u64, Box<Failure>> {
    let mut runs = 0;
    for seed in seeds.clone() {
        let drawn = draw(seed);
        let pairing = Pairing {
            left: W::NAME,
            right: S::NAME,
            flag: " --sliced",
        };
        examine(&drawn, pairing, |operations| {
            let mut random = Random::new(!seed);
            runs += play_sliced::<W, S>(&mut random, drawn.memory, operations)?;
            Ok(())
        })?;
        progress(seed - seeds.start + 1);
    }
    Ok(runs)
}

/// Plays the desks of these seeds twice on one front: on the memory as drawn, and with the bytes that cannot matter scrambled.
pub fn compare_scrambled<F: Front>(
    seeds: Range<u64>,
    mut progress: impl FnMut(u64),
) -> Result<Reached, Box<Failure>> {
    let mut reached = Reached::default();
    for seed in seeds.clone() {
        let drawn = draw(seed);
        let pairing = Pairing {
            left: "as drawn",
            right: "scrambled",
            flag: " --scrambled",
        };
        examine(&drawn, pairing, |operations| {
            reached.desk(scrambled::play::<F>(&drawn, operations, &fields)?);
            Ok(())
        })?;
        progress(seed - seeds.start + 1);
    }
    Ok(reached)
}
