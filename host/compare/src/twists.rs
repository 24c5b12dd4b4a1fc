//! Twists: each takes a rule of documents 01 and 02 and puts one number on either side of it, in a world that breaks no other rule.
//! What the twist is after is told as an aim, so that it can be counted whether the rule was met.

pub mod copy;
pub mod create;
pub mod dirty;
pub mod entries;
pub mod export;
pub mod floats;
pub mod frame;
pub mod framing;
pub mod grown;
pub mod import;
pub mod limits;
pub mod muddle;
pub mod names;
pub mod ring;
pub mod scissor;
pub mod shapes;
pub mod target;
pub mod tokens;
mod touch;

use crate::draft::Draft;
use std::fmt;

/// What the submission or ring with a twist is expected to come to.
#[derive(Clone, Copy, Debug, PartialEq, Eq, PartialOrd, Ord)]
pub enum Outcome {
    /// The rule is kept, by as little as can be.
    Kept,
    /// The rule is broken, and this is its error.
    Broken(u32),
}

#[derive(Clone, Copy, Debug, PartialEq, Eq, PartialOrd, Ord)]
pub struct Aim {
    pub rule: &'static str,
    pub outcome: Outcome,
    /// The float that is to meet the rule, if it is about one.
    pub float: Option<&'static str>,
}

impl Aim {
    pub fn broken(&self) -> bool {
        self.outcome != Outcome::Kept
    }
}

impl fmt::Display for Aim {
    fn fmt(&self, f: &mut fmt::Formatter<'_>) -> fmt::Result {
        match self.outcome {
            Outcome::Kept => write!(f, "{} (kept)", self.rule),
            Outcome::Broken(error) => write!(f, "{} ({})", self.rule, error),
        }
    }
}

pub fn kept(rule: &'static str) -> Option<Aim> {
    Some(Aim {
        rule,
        outcome: Outcome::Kept,
        float: None,
    })
}

pub fn broken(rule: &'static str, error: u32) -> Option<Aim> {
    Some(Aim {
        rule,
        outcome: Outcome::Broken(error),
        float: None,
    })
}

/// Kept, or broken with this error.
pub fn judged(rule: &'static str, good: bool, error: u32) -> Option<Aim> {
    if good {
        kept(rule)
    } else {
        broken(rule, error)
    }
}

/// Appends packets whose last one meets a rule; none, with nothing spoilt, where the draft has not what the rule speaks of.
pub type PacketTwist = fn(&mut Draft) -> Option<Aim>;
