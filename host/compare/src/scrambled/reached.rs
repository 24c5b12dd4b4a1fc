//! What the scrambled desks reached. A comparison of memories that hardly differ says nothing, so tests hold these counts to a least number.

use super::leftovers::Leftover;
use std::collections::{BTreeMap, BTreeSet};
use std::fmt;

/// What the desks of a run reached.
#[derive(Clone, Debug, Default)]
pub struct Reached {
    /// How many desks there were, and how many times bytes were scrambled for an opening.
    pub desks: u64,
    pub openings: u64,
    /// Settlings that a call went on beyond.
    pub beyond: u64,
    /// Times that a guest wrote to memory while a submission was in work.
    pub overwritten: u64,
    /// Desks in which these bytes differed under a submission that came to wait.
    pub leftovers: BTreeMap<Leftover, u64>,
    /// Desks in which the error registers showed this error.
    pub errors: BTreeMap<u32, u64>,
}

impl Reached {
    /// Counts a desk that came out equal.
    pub fn desk(&mut self, told: Told) {
        self.desks += 1;
        self.openings += told.openings;
        self.beyond += told.beyond;
        self.overwritten += told.overwritten;
        for leftover in told.leftovers {
            *self.leftovers.entry(leftover).or_insert(0) += 1;
        }
        for error in told.errors {
            *self.errors.entry(error).or_insert(0) += 1;
        }
    }
}

impl fmt::Display for Reached {
    fn fmt(&self, f: &mut fmt::Formatter<'_>) -> fmt::Result {
        writeln!(
            f,
            "{} desks, {} openings, {} settlings gone beyond in one call, {} writes by a guest in work",
            self.desks, self.openings, self.beyond, self.overwritten
        )?;
        write!(f, "desks by leftover: {:?}", self.leftovers)?;
        write!(f, "\ndesks by error: {:?}", self.errors)
    }
}

/// What one desk reached.
#[derive(Clone, Debug, Default)]
pub struct Told {
    pub(super) openings: u64,
    pub(super) beyond: u64,
    pub(super) overwritten: u64,
    pub(super) leftovers: BTreeSet<Leftover>,
    pub(super) errors: BTreeSet<u32>,
}
