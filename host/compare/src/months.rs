//! Months for both sides: finished submissions on either side of every rule, totals close to 2^64, and the program's input.

use crate::random::Random;
use plain::month::Totals;
use zelezmut::{Month, NotCounted};

/// The words of a month's totals, in the published order.
pub type Words = [u64; 26];

/// Those of them that are sums: all but the largest write.
pub const SUMS: usize = 25;

/// A finished submission: its error, its units, and kind and length of its records.
#[derive(Clone, Debug)]
pub struct Finished {
    pub error: u32,
    pub units: u32,
    pub records: Vec<(u32, u64)>,
}

/// A side: totals that are fed and merged. Answers are numbers, 0 for done.
pub trait Side: Clone {
    fn from_words(words: Words) -> Self;
    fn words(&self) -> Words;
    fn feed(&mut self, finished: &Finished) -> u32;
    fn merge(&mut self, other: &Self) -> u32;
}

fn number(answer: Result<(), NotCounted>) -> u32 {
    answer.map_or_else(NotCounted::number, |()| 0)
}

impl Side for Month {
    fn from_words(words: Words) -> Month {
        Month::from_words(words)
    }

    fn words(&self) -> Words {
        Month::words(self)
    }

    fn feed(&mut self, finished: &Finished) -> u32 {
        number(self.feed_numbers(finished.error, finished.units, &finished.records))
    }

    fn merge(&mut self, other: &Month) -> u32 {
        number(Month::merge(self, other))
    }
}

impl Side for Totals {
    fn from_words(words: Words) -> Totals {
        let mut refused = [0; 21];
        refused.copy_from_slice(&words[1..22]);
        Totals {
            accepted: words[0],
            refused,
            units: words[22],
            bytes_read: words[23],
            bytes_written: words[24],
            largest_write: words[25],
        }
    }

    fn words(&self) -> Words {
        let mut words = [0; 26];
        words[0] = self.accepted;
        words[1..22].copy_from_slice(&self.refused);
        words[22] = self.units;
        words[23] = self.bytes_read;
        words[24] = self.bytes_written;
        words[25] = self.largest_write;
        words
    }

    fn feed(&mut self, finished: &Finished) -> u32 {
        Totals::feed(self, finished.error, finished.units, &finished.records)
    }

    fn merge(&mut self, other: &Totals) -> u32 {
        Totals::merge(self, other)
    }
}

/// What months have met: the more there is of each, the more they can tell.
#[derive(Clone, Debug, Default)]
pub struct Met {
    pub counted: u64,
    /// Refused with 9 for this sum alone.
    pub full: [u64; SUMS],
    /// Refused with 10.
    pub unlisted_error: u64,
    pub unlisted_kind: u64,
    pub beside_an_error: u64,
    pub over_64: u64,
    /// Refused with 10, though a total would reach 2^64 too.
    pub before_9: u64,
    pub with_64: u64,
    pub with_27: u64,
    pub merged: u64,
    pub merged_full: u64,
}

impl Met {
    fn meet(&mut self, before: &Words, finished: &Finished, answer: u32) {
        let count = finished.records.len();
        match answer {
            0 => {
                self.counted += 1;
                self.with_64 += u64::from(count == 64);
                self.with_27 += u64::from(finished.error == 27);
            }
            9 => {
                if let [place] = reached(before, finished)[..] {
                    self.full[place] += 1;
                }
            }
            _ => {
                let unlisted = |error: u32| error != 0 && !(10..=30).contains(&error);
                let kinds = &finished.records;
                self.unlisted_error += u64::from(unlisted(finished.error));
                self.unlisted_kind +=
                    u64::from(kinds.iter().any(|(kind, _)| !(1..=4).contains(kind)));
                self.beside_an_error += u64::from(finished.error != 0 && count > 0);
                self.over_64 += u64::from(count > 64);
                self.before_9 += u64::from(!reached(before, finished).is_empty());
            }
        }
    }
}

/// Which sums would reach 2^64, if all of the submission counted.
fn reached(before: &Words, finished: &Finished) -> Vec<usize> {
    let bytes = |kind: u32| -> u128 {
        let of_kind = finished.records.iter().filter(|record| record.0 == kind);
        of_kind.map(|&(_, length)| u128::from(length)).sum()
    };
    let place = match finished.error {
        0 => 0,
        error => (error as usize).wrapping_sub(9),
    };
    let adds = |at: usize| match at {
        22 => finished.units.into(),
        23 => bytes(2),
        24 => bytes(3),
        _ => u128::from(at == place),
    };
    let over = |&at: &usize| u128::from(before[at]) + adds(at) > u64::MAX.into();
    (0..SUMS).filter(over).collect()
}

/// An error that is listed, most often, or one beside those.
fn some_error(random: &mut Random) -> u32 {
    match random.within(0..=9) {
        0..=5 => 0,
        6..=8 => random.within(10..=30) as u32,
        _ => random.pick(&[1, 8, 9, 31, 32, 255, 1 << 31, u32::MAX]),
    }
}

/// A listed kind, or in a wild submission now and then another one.
fn some_kind(random: &mut Random, wild: bool) -> u32 {
    match random.within(0..=30) {
        0 if wild => random.pick(&[0, 5, 6, 256, 1 << 31, u32::MAX]),
        _ => random.within(1..=4) as u32,
    }
}

/// Short; or in a wild submission now and then long, or such that two of them are around 2^64.
fn some_length(random: &mut Random, wild: bool) -> u64 {
    match random.within(0..=9) {
        0 if wild => random.any_size(),
        1 if wild => random.pick(&[0, 1, 1 << 63, (1 << 63) - 1, u64::MAX - 1, u64::MAX]),
        _ => random.within(0..=1000),
    }
}

/// A finished submission, good or not.
pub fn some_finished(random: &mut Random) -> Finished {
    let error = some_error(random);
    let most = match random.within(0..=9) {
        0..=6 => random.within(0..=4),
        7 => random.within(0..=70),
        _ => random.pick(&[63, 64, 65]),
    };
    let count = match error {
        0 => most,
        _ if random.percent(15) => most,
        _ => 0,
    };
    let wild = random.coin();
    let records = (0..count).map(|_| (some_kind(random, wild), some_length(random, wild)));
    Finished {
        error,
        records: records.collect(),
        units: random.pick(&[0, 1, 7, 65_535, u32::MAX - 1, u32::MAX]),
    }
}

/// Totals to begin with: zeros, or some of them just below 2^64.
pub fn some_words(random: &mut Random) -> Words {
    let mut words = [0; 26];
    for _ in 0..random.pick(&[0, 1, 1, 1, 2, 5]) {
        let far = random.any_size();
        let near = random.pick(&[0, 1, 2, 3, 1000, u32::MAX.into()]);
        let place = match random.percent(50) {
            true => random.index(26),
            false => random.pick(&[0, 22, 23, 24, 25]),
        };
        words[place] = if random.percent(85) {
            u64::MAX - near
        } else {
            far
        };
    }
    words
}

/// Feeds a month to both sides in two parts, merges the parts, and holds every answer and every total against the other side's.
pub fn compare<A: Side, B: Side>(random: &mut Random, met: &mut Met) -> Result<(), String> {
    let mut parts = Vec::new();
    for _ in 0..2 {
        let words = some_words(random);
        let (mut one, mut other) = (A::from_words(words), B::from_words(words));
        for _ in 0..random.within(0..=8) {
            let (before, finished) = (other.words(), some_finished(random));
            let answers = (one.feed(&finished), other.feed(&finished));
            if answers.0 != answers.1 || one.words() != other.words() {
                return Err(format!(
                    "{:?}\nfed {:?}\ngives {:?}",
                    before, finished, answers
                ));
            }
            met.meet(&before, &finished, answers.1);
        }
        parts.push((one, other));
    }
    let [(mut one, mut other), (more, others)] = [parts[0].clone(), parts[1].clone()];
    let answers = (one.merge(&more), other.merge(&others));
    if answers.0 != answers.1 || one.words() != other.words() {
        let (first, second) = (parts[0].1.words(), others.words());
        return Err(format!(
            "{:?}\nmerged with {:?}\ngives {:?}",
            first, second, answers
        ));
    }
    met.merged += u64::from(answers.1 == 0);
    met.merged_full += u64::from(answers.1 == 9);
    Ok(())
}

/// The program's input: submissions one after the other, sometimes cut, sometimes with a count that promises more than there is.
pub fn some_input(random: &mut Random) -> Vec<u8> {
    let mut bytes = Vec::new();
    for _ in 0..random.within(0..=12) {
        let finished = some_finished(random);
        let count = finished.records.len() as u32;
        for word in [finished.error, finished.units, count] {
            bytes.extend(word.to_le_bytes());
        }
        for (kind, length) in finished.records {
            bytes.extend(kind.to_le_bytes());
            bytes.extend(length.to_le_bytes());
        }
    }
    if random.percent(5) {
        let many = random.pick(&[65, 341, 342, 1000, 1 << 20, u32::MAX]);
        bytes.extend(
            [0, 1, many]
                .iter()
                .flat_map(|word: &u32| word.to_le_bytes()),
        );
        let skipped = random.edgy(0..=u64::from(many.min(1000)) * 12);
        bytes.resize(bytes.len() + skipped as usize, 1);
    }
    if random.percent(30) {
        let end = bytes.len().saturating_sub(random.within(0..=24) as usize);
        bytes.truncate(random.pick(&[end, random.clone().index(bytes.len() + 1)]));
    }
    bytes
}
