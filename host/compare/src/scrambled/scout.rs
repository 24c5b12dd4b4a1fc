//! The plain program on the memory as drawn, unit by unit and ahead of the others: it tells where submissions are opened and settled
//! in a call, and what each opening lists.

use super::leftovers::Parts;
use super::Fields;
use crate::front::Ended;
use crate::player::Seat;
use plain::listed::listed_by;
use std::ops::Range;
use zelezmut::registers::{RING_GPA_HI, RING_GPA_LO, RING_SIZE};
use zelezmut::script::Operation;
use zelezmut::HostAnswer;

/// What a save answers while a submission is in work.
const IN_WORK: u32 = 5;

/// What an opening finds in memory.
pub struct Opening {
    pub listed: Vec<Range<usize>>,
    pub parts: Parts,
}

/// Units of a call behind the last of which no submission is in work, or the call ends.
pub struct Stretch {
    pub units: u16,
    /// Of the first unit, if no submission is in work before it.
    pub opening: Option<Opening>,
}

/// The plain program, and what is listed of an opening.
pub struct Scout<'f> {
    seat: Seat<plain::Desk>,
    fields: Fields<'f>,
}

impl<'f> Scout<'f> {
    pub fn new(memory: u32, fields: Fields<'f>) -> Scout<'f> {
        Scout {
            seat: Seat::new(memory),
            fields,
        }
    }

    /// Plays any operation but a run and an answer on its memory.
    pub fn play(&mut self, operation: &Operation) {
        self.seat.play(operation);
    }

    /// Whether no submission is in work.
    pub fn is_at_rest(&self) -> bool {
        self.seat.front.save(&mut []).0 != IN_WORK
    }

    /// Plays a run.
    pub fn run(&mut self, allowance: u16) -> Vec<Stretch> {
        let mut stretches = Vec::new();
        let mut left = allowance;
        while left > 0 && self.spend(0) == Ended::Paused {
            let opening = self.is_at_rest().then(|| self.opening());
            let units = self.up_to_rest(left);
            stretches.push(Stretch { units, opening });
            left -= units;
        }
        stretches
    }

    /// Plays an answer and the run behind it.
    pub fn answer(&mut self, answer: HostAnswer, allowance: u16) -> Vec<Stretch> {
        let Seat { front, memory } = &mut self.seat;
        let refused = front.answer(memory, answer == HostAnswer::Good, 0).answer != 0;
        self.run(if refused { 0 } else { allowance })
    }

    /// How the run of these units ends.
    fn spend(&mut self, units: u16) -> Ended {
        self.seat.front.run(&mut self.seat.memory, units).ended
    }

    /// Runs on until no submission is in work or the run ends; gives the units spent.
    fn up_to_rest(&mut self, allowance: u16) -> u16 {
        let mut units = 0;
        loop {
            let ended = self.spend(1);
            units += 1;
            if units == allowance || ended != Ended::Paused || self.is_at_rest() {
                return units;
            }
        }
    }

    /// What an opening would find now.
    fn opening(&self) -> Opening {
        let Seat { front, memory } = &self.seat;
        let [low, high, size] =
            [RING_GPA_LO, RING_GPA_HI, RING_SIZE].map(|offset| front.read(offset).1);
        let ring = u64::from(high) << 32 | u64::from(low);
        Opening {
            listed: listed_by(self.fields, memory, ring, size),
            parts: Parts::found(memory, ring, size),
        }
    }
}
