//! Twists of files: each takes a rule of the forms and puts a good file on either side of it, in fields that break no other rule.
//! It says where the file is bad then, so that the fronts are held to the place as well as to one another.

pub mod lengths;
pub mod numbers;
pub mod rows;
pub mod shares;

use super::File;
use crate::random::Random;
use crate::twists::{judged, Aim};

/// The call answer for a bad file.
pub const BAD_FILE: u32 = 7;

/// What a file is about, and where it is bad; nowhere if the rule is kept.
#[derive(Clone, Copy, Debug)]
pub struct Told {
    pub aim: Aim,
    pub place: Option<usize>,
}

/// The rule is kept, or broken at this place.
pub fn told(rule: &'static str, good: bool, place: usize) -> Option<Told> {
    Some(Told {
        aim: judged(rule, good, BAD_FILE)?,
        place: Some(place).filter(|_| !good),
    })
}

/// Changes a good file so that it meets a rule.
pub type FileTwist = fn(&mut Random, &mut File) -> Option<Told>;

/// Changes the bytes of a file.
pub type BytesTwist = fn(&mut Random, &mut Vec<u8>) -> Option<Told>;
