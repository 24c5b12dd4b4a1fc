//! Section 1: its count, registers, the memory's length and the doorbell's flag.

use super::{told, FileTwist, Told};
use crate::files::good::{any_word, FEATURES, MAGIC};
use crate::files::{number, File, Kind};
use crate::numbers::error::{RING, STATE};
use crate::numbers::VERSION;
use crate::random::Random;

pub const TWISTS: &[FileTwist] = &[
    count,
    magic,
    version,
    features,
    more_features,
    control,
    status,
    doorbell,
    code,
    code,
    no_error,
    no_error,
    an_error,
    an_error,
    detail,
    detail,
    any_number,
    memory,
];

fn count(random: &mut Random, file: &mut File) -> Option<Told> {
    let own = file.kind.numbers();
    // In an old file 1 and 2 would be numbers of a form.
    let small = if file.kind == Kind::Old { 3 } else { 1 };
    let near = [own - 1, own + 1];
    let other = random.pick(&[
        0,
        small,
        small + 1,
        near[0],
        near[0],
        near[1],
        near[1],
        u32::MAX,
    ]);
    file.numbers_said = random.pick(&[own, other]);
    told(
        "section 1: 21 or 22 numbers",
        file.numbers_said == own,
        file.sections_at(),
    )
}

/// A register that has one value only gets that, one beside it, one that a bit tells apart, or any.
fn fixed(
    random: &mut Random,
    file: &mut File,
    (rule, number, value): (&'static str, usize, u32),
) -> Option<Told> {
    let bit = value ^ 1 << random.within(0..=31);
    let any = any_word(random);
    let near = [value.wrapping_sub(1), value.wrapping_add(1)];
    file.numbers[number] = random.pick(&[value, value, near[0], near[1], bit, any]);
    let at = file.number_at(number);
    told(rule, file.numbers[number] == value, at)
}

fn magic(random: &mut Random, file: &mut File) -> Option<Told> {
    fixed(random, file, ("magic", number::MAGIC, MAGIC))
}

fn version(random: &mut Random, file: &mut File) -> Option<Told> {
    fixed(random, file, ("version", number::VERSION, VERSION))
}

fn features(random: &mut Random, file: &mut File) -> Option<Told> {
    let rule = "features LO";
    fixed(random, file, (rule, number::FEATURES_LO, FEATURES))
}

fn more_features(random: &mut Random, file: &mut File) -> Option<Told> {
    let rule = "features HI";
    fixed(random, file, (rule, number::FEATURES_HI, 0))
}

fn at_most(
    random: &mut Random,
    file: &mut File,
    (rule, number, most): (&'static str, usize, u32),
) -> Option<Told> {
    let any = any_word(random);
    file.numbers[number] = random.pick(&[0, most, most, most + 1, most + 1, any]);
    let at = file.number_at(number);
    told(rule, file.numbers[number] <= most, at)
}

fn control(random: &mut Random, file: &mut File) -> Option<Told> {
    at_most(random, file, ("control at most 1", number::CONTROL, 1))
}

fn status(random: &mut Random, file: &mut File) -> Option<Told> {
    at_most(random, file, ("status at most 3", number::IRQ_STATUS, 3))
}

fn doorbell(random: &mut Random, file: &mut File) -> Option<Told> {
    let rule = "doorbell flag at most 1";
    at_most(random, file, (rule, number::DOORBELL, 1))
}

/// The code alone: what else there is of the error goes with it, as far as it can.
fn code(random: &mut Random, file: &mut File) -> Option<Told> {
    let any = any_word(random);
    let edges = [0, 1, RING - 1, RING, STATE, STATE + 1, any];
    let code = random.pick(&edges);
    put_error(file, [code, 0, 0, u32::from(code != 0)]);
    let good = code == 0 || (RING..=STATE).contains(&code);
    let at = file.number_at(number::ERROR_CODE);
    told("error code 0 or 10 to 30", good, at)
}

/// Without a code there is no detail either.
fn put_error(file: &mut File, error: [u32; 4]) {
    file.numbers[number::ERROR_CODE..=number::ERROR_COUNT].copy_from_slice(&error);
    if error[0] == 0 {
        file.detail = 0;
    }
}

/// The detail of form 2: any number beside a code, 0 without one.
fn detail(random: &mut Random, file: &mut File) -> Option<Told> {
    if file.kind != Kind::Two {
        return None;
    }
    let code = random.pick(&[0, 0, RING, 14, STATE]);
    put_error(file, [code, 0, 0, u32::from(code != 0)]);
    let some = any_word(random);
    file.detail = random.pick(&[0, 0, 1, some, u32::MAX]);
    let rule = match code {
        0 => "no error and its detail",
        _ => "an error and its detail",
    };
    told(rule, code != 0 || file.detail == 0, file.detail_at())
}

/// Code 0, beside which fence and count are 0. Whichever is not, it is told at the count.
fn no_error(random: &mut Random, file: &mut File) -> Option<Told> {
    let some = any_word(random).max(1);
    let (rule, error) = random.pick(&[
        ("no error, all of it 0", [0, 0, 0, 0]),
        ("no error and a count", [0, 0, 0, some]),
        ("no error and a fence LO", [0, some, 0, 0]),
        ("no error and a fence HI", [0, 0, some, 0]),
    ]);
    put_error(file, error);
    told(rule, error == [0; 4], file.number_at(number::ERROR_COUNT))
}

/// A code, beside which the count is not 0 and the fence is any.
fn an_error(random: &mut Random, file: &mut File) -> Option<Told> {
    let code = random.edgy(RING.into()..=STATE.into()) as u32;
    let fence = [any_word(random), any_word(random)];
    let count = random.pick(&[0, 0, 1, u32::MAX]);
    put_error(file, [code, fence[0], fence[1], count]);
    let at = file.number_at(number::ERROR_COUNT);
    told("an error and its count", count != 0, at)
}

/// What may be any number is the least or the largest.
fn any_number(random: &mut Random, file: &mut File) -> Option<Told> {
    let any = [
        number::RING_GPA_LO,
        number::RING_GPA_HI,
        number::RING_SIZE,
        number::FENCE_GPA_LO,
        number::FENCE_GPA_HI,
        number::COMPLETED_LO,
        number::COMPLETED_HI,
        number::IRQ_ENABLE,
    ];
    let number = random.pick(&any);
    file.numbers[number] = random.pick(&[0, u32::MAX]);
    told("a register that may be any number", true, 0)
}

fn memory(random: &mut Random, file: &mut File) -> Option<Told> {
    let memory = random.pick(&[0, 1, u32::MAX.into(), 1 << 32, u64::MAX - 1, u64::MAX]);
    file.set_memory(memory);
    told("any memory length", true, 0)
}
