//! Random files: good ones, and good ones with a twist, with two faults at once, cut, continued, or no files at all.

use super::good::{any_word, some_file};
use super::twists::{lengths, numbers, rows, shares, told, FileTwist, Told};
use super::{File, Kind};
use crate::event::Event;
use crate::random::Random;

/// What is to be loaded.
pub struct Loading {
    pub bytes: Vec<u8>,
    /// What it is about, where that is known.
    pub told: Option<Told>,
    pub event: Option<Event>,
}

impl Loading {
    pub fn good(file: &File) -> Loading {
        Loading::of(file.bytes(), told("a good file", true, 0))
    }

    fn of(bytes: Vec<u8>, told: Option<Told>) -> Loading {
        let event = None;
        Loading { bytes, told, event }
    }
}

/// A good file as it is, or what becomes of it.
pub fn some_loading(random: &mut Random, mut file: File) -> Loading {
    match random.within(0..=24) {
        0..=1 => Loading::good(&file),
        20..=24 => {
            file.set_kind(Kind::Two);
            let told = random.pick(shares::TWISTS)(random, &mut file);
            Loading::of(file.bytes(), told)
        }
        2..=5 => {
            let told = random.pick(numbers::TWISTS)(random, &mut file);
            Loading::of(file.bytes(), told)
        }
        6..=10 => {
            let told = random.pick(rows::TWISTS)(random, &mut file);
            Loading::of(file.bytes(), told)
        }
        11 => {
            let told = random.pick(lengths::TWISTS)(random, &mut file);
            Loading::of(file.bytes(), told)
        }
        12..=15 => with_other_length(random, file.bytes()),
        16..=17 => two_faults(random, file),
        _ => noise(random, &file),
    }
}

fn with_other_length(random: &mut Random, mut bytes: Vec<u8>) -> Loading {
    let told = random.pick(lengths::OF_BYTES)(random, &mut bytes);
    Loading::of(bytes, told)
}

/// Two twists of different parts of a file. If both break a rule, the one that comes first in the file is told.
fn two_faults(random: &mut Random, mut file: File) -> Loading {
    let (first, second): (&[FileTwist], Option<&[FileTwist]>) = random.pick(&[
        (numbers::TWISTS, Some(rows::TWISTS)),
        (numbers::TWISTS, Some(lengths::TWISTS)),
        (numbers::TWISTS, None),
        (rows::TWISTS, None),
        (shares::TWISTS, None),
    ]);
    let one = random.pick(first)(random, &mut file);
    let of_file = second.map(|second| random.pick(second)(random, &mut file));
    let mut bytes = file.bytes();
    let other = of_file.unwrap_or_else(|| random.pick(lengths::BEHIND_OTHERS)(random, &mut bytes));
    let places = one.and_then(|told| told.place);
    let places = places.zip(other.and_then(|told| told.place));
    Loading {
        told: places
            .and_then(|(one, other)| told("of two faults the first", false, one.min(other))),
        event: places.map(|_| Event::TwoFaultsInAFile),
        bytes,
    }
}

/// Noise all over, behind a good beginning, or here and there in a good file.
fn noise(random: &mut Random, file: &File) -> Loading {
    let mut bytes = file.bytes();
    let length = random.within(0..=500) as usize;
    match random.within(0..=4) {
        0 => bytes = noise_of(random, length),
        1 => {
            let places = [4, 8, file.rows_at(), file.names_at(), file.tokens_at()];
            bytes.truncate(random.pick(&places) + random.pick(&[0, 4]));
            bytes.extend(noise_of(random, length));
        }
        2 => {
            for _ in 0..random.within(1..=4) {
                let at = random.index(bytes.len());
                bytes[at] ^= 1 << random.within(0..=7);
            }
        }
        3 => {
            for _ in 0..random.within(1..=3) {
                let at = 4 * random.index(bytes.len() / 4);
                bytes[at..at + 4].copy_from_slice(&any_word(random).to_le_bytes());
            }
        }
        _ => {
            let at = random.index(bytes.len());
            let behind = some_file(random).bytes();
            bytes.truncate(at);
            bytes.extend(behind.get(at..).unwrap_or(&[]));
        }
    }
    let (told, event) = (None, Some(Event::NoiseAsAFile));
    Loading { bytes, told, event }
}

fn noise_of(random: &mut Random, length: usize) -> Vec<u8> {
    let mut bytes = vec![0; length];
    random.noise(&mut bytes);
    bytes
}

#[cfg(test)]
mod tests {
    use super::*;
    use crate::files::good::some_file;

    /// What a twist says of its file is so, on the plain program alone.
    #[test]
    fn files_are_bad_where_they_are_told_to_be() {
        let mut random = Random::new(8);
        for _ in 0..20_000 {
            let file = some_file(&mut random);
            let loading = some_loading(&mut random, file);
            if let Some(told) = loading.told {
                let said = plain::Desk::new(0).load(&loading.bytes);
                let expected = told.place.map_or((0, 0), |place| (7, place));
                assert_eq!(said, expected, "{}: {:?}", told.aim, loading.bytes);
            }
        }
    }
}
