//! The proved front and the plain program give the same, on every desk that is drawn.
//! Best run optimised: `cargo test --release -p compare`. The seeds are fixed, so a run says the same every time;
//! `cargo run --release -p compare --bin compare -- --seed S --desks N` plays others.

use compare::desks;
use compare::front::Front;
use compare::player::{play, step, Seat};
use zelezmut::script::{self, Operation};

const DESKS: u64 = 20_000;

#[test]
fn random_desks_play_alike() {
    let coverage = desks::compare::<zelezmut::Desk, plain::Desk>(0..DESKS, |_| {})
        .unwrap_or_else(|failure| panic!("{}", failure));
    println!("{}", coverage);
    assert_eq!(coverage.rarely_met(100), Vec::<String>::new());
    assert_eq!(coverage.rarely_hit(15), Vec::<String>::new());
    assert!(
        coverage.aims.len() >= 440,
        "only {} sides of rules",
        coverage.aims.len()
    );
    // Both sides, of each of the twelve known packets.
    for rule in [": table size", ": grown to the end of the stream"] {
        let aims = coverage.aims.keys();
        assert_eq!(aims.filter(|aim| aim.rule.ends_with(rule)).count(), 24);
    }
    assert_eq!(coverage.most_records, 64);
}

/// The script that the gate holds crates/program_replay to.
#[test]
fn the_stored_script_plays_alike() {
    let stored = include_bytes!("../../../crates/program_replay/stdin");
    let script = script::decode(stored);
    play::<zelezmut::Desk, plain::Desk>(script.memory, &script.operations, |_, _, _| {})
        .unwrap_or_else(|difference| panic!("{:?}", difference));
}

fn slicings_come_to_the_same<W: Front, S: Front>(first: u64) {
    let runs = desks::compare_sliced::<W, S>(first..first + DESKS / 4, |_| {})
        .unwrap_or_else(|failure| panic!("{}", failure));
    assert!(runs > DESKS, "only {} runs", runs);
}

#[test]
fn slicings_of_the_proved_front_come_to_the_same() {
    slicings_come_to_the_same::<zelezmut::Desk, zelezmut::Desk>(1_000_000);
}

#[test]
fn slicings_of_the_plain_program_come_to_the_same() {
    slicings_come_to_the_same::<plain::Desk, plain::Desk>(2_000_000);
}

#[test]
fn a_slicing_of_one_is_a_run_of_the_other() {
    slicings_come_to_the_same::<zelezmut::Desk, plain::Desk>(3_000_000);
    slicings_come_to_the_same::<plain::Desk, zelezmut::Desk>(4_000_000);
}

/// Every offset in and around the register map, written with numbers of many bits and read back.
#[test]
fn every_register_offset_answers_alike() {
    let (mut left, mut right) = (
        Seat::<zelezmut::Desk>::new(64),
        Seat::<plain::Desk>::new(64),
    );
    for value in [0, 1, 2, 3, 0xffff_fffc, 0x5555_5555, u32::MAX] {
        for offset in (0..0x400).chain([0x1_0000, 0x1_0100, u32::MAX - 3, u32::MAX]) {
            for operation in [
                Operation::Write { offset, value },
                Operation::Read { offset },
            ] {
                if let Err(difference) = step(&mut left, &mut right, &operation) {
                    panic!("{:?}: {:?}", operation, difference);
                }
            }
        }
    }
}
