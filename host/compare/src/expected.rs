//! Which rule a submission or a file of a random desk is about.

use crate::files::twists::Told;
use crate::twists::Aim;

/// An aim, and the ring's head when its submission is the next: by it one can tell which submission waits.
#[derive(Clone, Copy, Debug)]
pub struct Expected {
    pub aim: Aim,
    pub head: u32,
}

/// What the file of this operation is about, and where it is bad.
#[derive(Clone, Copy, Debug)]
pub struct ExpectedLoad {
    pub at: usize,
    pub told: Told,
}
