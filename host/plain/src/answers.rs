//! The call answers, and the line of a program for a bad input.

/// Done.
pub(crate) const DONE: u32 = 0;
/// Lent memory has another length than at making.
pub(crate) const OTHER_LENGTH: u32 = 1;
/// No such register, or not readable or writable.
pub(crate) const NO_REGISTER: u32 = 2;
/// Host answer, nothing waiting.
pub(crate) const NOTHING_WAITING: u32 = 3;
/// Record index not below the count, or nothing waiting.
pub(crate) const NO_RECORD: u32 = 4;
/// Saving while a submission is in work.
pub(crate) const IN_WORK: u32 = 5;
/// Buffer too short for the file.
pub(crate) const TOO_SHORT: u32 = 6;
/// A file that breaks a rule.
pub(crate) const BAD_FILE: u32 = 7;
/// More than form 1 can hold.
pub(crate) const BEYOND_FORM: u32 = 8;
/// A total would reach 2^64.
pub(crate) const TOTAL_FULL: u32 = 9;
/// A finished submission that no device could have.
pub(crate) const NOT_FEEDABLE: u32 = 10;

/// What a program prints for an input that it cannot take.
pub(crate) const BAD_INPUT: &str = "bad input\n";
