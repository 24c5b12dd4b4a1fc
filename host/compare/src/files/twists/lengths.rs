//! How much there is of a file: counts that say too much or too little, cuts, bytes that follow, and the number in front.

use super::rows::set_rows;
use super::{told, BytesTwist, FileTwist, Told};
use crate::files::shares::some_tokens;
use crate::files::{File, Kind};
use crate::numbers::{MOST_NAMES, MOST_TOKENS};
use crate::random::Random;

pub const TWISTS: &[FileTwist] = &[most, most, too_many_said, fewer_said, more_said];

/// Those that need the file's bytes. Behind another twist the first two leave it where it is, or cut it away.
pub const OF_BYTES: &[BytesTwist] = &[cut, append, cut, number];
pub const BEHIND_OTHERS: &[BytesTwist] = &[cut, append];

/// As many resources as there may be, or one or two beside that, and all of them good.
fn most(random: &mut Random, file: &mut File) -> Option<Told> {
    let count = random.within(MOST_NAMES as u64 - 1..=MOST_NAMES as u64 + 2) as usize;
    set_rows(random, file, count);
    let rule = match count - MOST_NAMES.min(count) {
        0 => "at most 64 resources",
        1 => "65 resources",
        _ => "66 resources",
    };
    told(rule, count <= MOST_NAMES, file.rows_at())
}

/// The count alone is too large: nothing after it is looked at.
fn too_many_said(random: &mut Random, file: &mut File) -> Option<Told> {
    let most = MOST_NAMES as u32;
    let count = random.pick(&[0, 1, 3]);
    set_rows(random, file, count);
    file.rows_said = random.pick(&[most + 1, most + 2, 1 << 31, u32::MAX]);
    told("too many resources said", false, file.rows_at())
}

/// So many good tokens.
fn set_tokens(random: &mut Random, file: &mut File, count: usize) {
    let tokens = some_tokens(random, file, count);
    file.set_tokens(tokens);
}

/// The last section's count says fewer than there are: the next one is too many.
fn fewer_said(random: &mut Random, file: &mut File) -> Option<Told> {
    if file.kind == Kind::Two {
        let count = random.pick(&[1, 2, 5, MOST_TOKENS]);
        set_tokens(random, file, count);
        file.tokens_said = random.pick(&[0, count as u32 - 1]);
        let at = file.token_at(file.tokens_said as usize, 0);
        return told("fewer tokens said", false, at);
    }
    let count = random.pick(&[1, 2, 5, MOST_NAMES]);
    set_rows(random, file, count);
    file.rows_said = random.pick(&[0, count as u32 - 1]);
    let at = file.field_at(file.rows_said as usize, 0);
    told("fewer resources said", false, at)
}

/// It says more than there are, and no more than there may be: the first field of the next one is missing.
fn more_said(random: &mut Random, file: &mut File) -> Option<Told> {
    if file.kind == Kind::Two {
        let count = random.pick(&[0, 1, 5, MOST_TOKENS - 1]);
        set_tokens(random, file, count);
        file.tokens_said = random.pick(&[count as u32 + 1, MOST_TOKENS as u32]);
        return told("more tokens said", false, file.token_at(count, 0));
    }
    let count = random.pick(&[0, 1, 5, MOST_NAMES - 1]);
    set_rows(random, file, count);
    file.rows_said = random.pick(&[count as u32 + 1, MOST_NAMES as u32]);
    told("more resources said", false, file.field_at(count, 0))
}

/// Any length below a good file's, fields cut in the middle among them.
fn cut(random: &mut Random, bytes: &mut Vec<u8>) -> Option<Told> {
    // The first fields stand in every file, the others only in some.
    let last = bytes.len() as u64 - 1;
    let file = File::read(bytes);
    let below = |at: usize| last.min(at as u64);
    let length = match random.within(0..=4) {
        0 => last,
        1 => random.within(0..=below(file.rows_at() + 3)),
        2 => random.within(0..=below(file.field_at(1, 0))),
        3 => random.within(below(file.names_at())..=below(file.token_at(1, 0))),
        _ => random.within(0..=last),
    } as usize;
    bytes.truncate(length);
    told("every field is there", false, length / 4 * 4)
}

/// A byte, a field, a resource or anything behind a good file.
fn append(random: &mut Random, bytes: &mut Vec<u8>) -> Option<Told> {
    let length = bytes.len();
    let some = random.within(1..=200) as usize;
    let count = random.pick(&[1, 2, 3, 4, 8, 12, 48, some]);
    let mut behind = vec![0; count];
    if random.coin() {
        random.noise(&mut behind);
    }
    bytes.extend(behind);
    told("nothing follows", false, length)
}

/// A number from 0 to 3 stands before a good file's first word or in its place; or its own number is gone.
fn number(random: &mut Random, bytes: &mut Vec<u8>) -> Option<Told> {
    let (kind, number) = (Kind::of(bytes), random.within(0..=3) as u32);
    let way = random.within(0..=4);
    match way {
        0..=1 => drop(bytes.splice(..0, number.to_le_bytes())),
        2..=3 => bytes[..4].copy_from_slice(&number.to_le_bytes()),
        _ if kind == Kind::Old => return told("its own number or none", true, 0),
        _ => drop(bytes.drain(..4)),
    }
    let is_number = number == 1 || number == 2;
    match (way, kind) {
        (0..=1, Kind::Old) if number == 1 => told("form 1 with its number or without", true, 0),
        (2..=3, _) if kind.number() == Some(number) => told("its own number or none", true, 0),
        (0..=3, _) if is_number => told("a number that is not its own", false, 4),
        (0..=3, _) => told("no number of a form", false, 0),
        (_, Kind::Two) => told("form 2 without its number", false, 0),
        _ => told("form 1 with its number or without", true, 0),
    }
}
