//! The month in numbers: exact totals over finished submissions.

use crate::answers::{BAD_INPUT, DONE, NOT_FEEDABLE, TOTAL_FULL};
use crate::bytes::{u32_at, u64_at};
use crate::errors::Error;
use crate::packets::{KIND_CREATE, KIND_READ, KIND_WRITE, MAX_RECORDS};
use crate::state::KIND_SCISSOR;
use std::fmt::{self, Write};

/// The error of a submission that was accepted.
const NO_ERROR: u32 = 0;
/// The first error that can be fed; the last is [`Error::State`].
const FIRST_ERROR: u32 = Error::Ring as u32;
/// How many errors there are, 10 to 30.
const ERRORS: usize = 21;

/// Error, units and count of records of a submission in the program's input.
const SUBMISSION_HEADER: usize = 12;
/// Kind and length of a record there.
const RECORD: usize = 12;

/// The totals of all submissions that were counted. The default is none.
#[derive(Clone, Copy, Debug, Default, PartialEq, Eq)]
pub struct Totals {
    /// The submissions without an error.
    pub accepted: u64,
    /// The submissions with an error, for each of 10 to 30.
    pub refused: [u64; ERRORS],
    /// The units of all of them.
    pub units: u64,
    /// The lengths of all records of kind 2.
    pub bytes_read: u64,
    /// The lengths of all records of kind 3.
    pub bytes_written: u64,
    /// The largest length of a record of kind 3, 0 if there is none.
    pub largest_write: u64,
}

impl Totals {
    /// Counts a finished submission: its error or 0, its units, and kind and
    /// length of its records. Gives 0; or 10 for an error or kind that is not
    /// listed, more than 64 records, or records beside an error; or else 9 if a
    /// total would reach 2^64. Beside 9 and 10 nothing is counted.
    pub fn feed(&mut self, error: u32, units: u32, records: &[(u32, u64)]) -> u32 {
        if !is_feedable(error, records) {
            return NOT_FEEDABLE;
        }
        match Totals::of_one(error, units, records) {
            Some(one) => self.merge(&one),
            None => TOTAL_FULL,
        }
    }

    /// Adds the totals of other submissions. Gives 0; or 9 if a sum would reach
    /// 2^64, and then nothing changes.
    pub fn merge(&mut self, other: &Totals) -> u32 {
        match self.plus(other) {
            Some(sum) => {
                *self = sum;
                DONE
            }
            None => TOTAL_FULL,
        }
    }

    /// The totals of one submission that can be fed, if they are below 2^64.
    fn of_one(error: u32, units: u32, records: &[(u32, u64)]) -> Option<Totals> {
        let mut one = Totals {
            units: u64::from(units),
            ..Totals::default()
        };
        if error == NO_ERROR {
            one.accepted = 1;
        } else {
            one.refused[(error - FIRST_ERROR) as usize] = 1;
        }
        for &(kind, length) in records {
            if kind == KIND_READ {
                one.bytes_read = one.bytes_read.checked_add(length)?;
            } else if kind == KIND_WRITE {
                one.bytes_written = one.bytes_written.checked_add(length)?;
                one.largest_write = one.largest_write.max(length);
            }
        }
        Some(one)
    }

    /// The totals of both, if they are below 2^64.
    fn plus(&self, other: &Totals) -> Option<Totals> {
        let mut refused = self.refused;
        for (count, more) in refused.iter_mut().zip(other.refused) {
            *count = count.checked_add(more)?;
        }
        Some(Totals {
            accepted: self.accepted.checked_add(other.accepted)?,
            refused,
            units: self.units.checked_add(other.units)?,
            bytes_read: self.bytes_read.checked_add(other.bytes_read)?,
            bytes_written: self.bytes_written.checked_add(other.bytes_written)?,
            largest_write: self.largest_write.max(other.largest_write),
        })
    }
}

/// Whether error and records are listed and go together.
fn is_feedable(error: u32, records: &[(u32, u64)]) -> bool {
    let is_listed = |kind: u32| (KIND_CREATE..=KIND_SCISSOR).contains(&kind);
    if error == NO_ERROR {
        records.len() <= MAX_RECORDS && records.iter().all(|(kind, _)| is_listed(*kind))
    } else {
        Error::is_code(error) && records.is_empty()
    }
}

/// The totals a line each, in the published order.
impl fmt::Display for Totals {
    fn fmt(&self, f: &mut fmt::Formatter<'_>) -> fmt::Result {
        writeln!(f, "accepted={}", self.accepted)?;
        for (error, count) in (FIRST_ERROR..).zip(self.refused) {
            writeln!(f, "refused_{}={}", error, count)?;
        }
        writeln!(f, "units={}", self.units)?;
        writeln!(f, "bytes_read={}", self.bytes_read)?;
        writeln!(f, "bytes_written={}", self.bytes_written)?;
        writeln!(f, "largest_write={}", self.largest_write)
    }
}

/// The text of the program that counts: a line for each submission that is not
/// counted, then the totals, then `bad input` if the input ends inside a
/// submission.
pub fn program(input: &[u8]) -> String {
    let mut text = String::new();
    write_month(&mut text, input).expect("a String takes every write");
    text
}

fn write_month(text: &mut String, mut input: &[u8]) -> fmt::Result {
    let mut totals = Totals::default();
    let mut index: u64 = 0;
    while let Some((submission, rest)) = Submission::split(input) {
        let answer = submission.feed(&mut totals);
        if answer != DONE {
            writeln!(text, "submission={} answer={}", index, answer)?;
        }
        index += 1;
        input = rest;
    }
    write!(text, "{}", totals)?;
    if !input.is_empty() {
        text.push_str(BAD_INPUT);
    }
    Ok(())
}

/// A submission in the program's input, its records as they are there.
struct Submission<'i> {
    error: u32,
    units: u32,
    records: &'i [u8],
}

impl<'i> Submission<'i> {
    /// The submission that the input begins with and the rest behind it, if the
    /// input has it whole.
    fn split(input: &'i [u8]) -> Option<(Submission<'i>, &'i [u8])> {
        let behind = input.get(SUBMISSION_HEADER..)?;
        let count = u32_at(input, 8) as usize;
        let records = behind.get(..count.checked_mul(RECORD)?)?;
        let submission = Submission {
            error: u32_at(input, 0),
            units: u32_at(input, 4),
            records,
        };
        Some((submission, &behind[records.len()..]))
    }

    fn feed(&self, totals: &mut Totals) -> u32 {
        let records: Vec<(u32, u64)> = self
            .records
            .chunks_exact(RECORD)
            .map(|record| (u32_at(record, 0), u64_at(record, 4)))
            .collect();
        totals.feed(self.error, self.units, &records)
    }
}
