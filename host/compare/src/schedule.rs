//! How submissions are worked off: in slices, by a host that looks at records, answers and carries on.

use crate::author::{told, Author, PLENTY};
use crate::event::Event;
use crate::submission::{Belief, Submission};
use std::mem;
use zelezmut::registers::{CONTROL_ENABLE, RING_GPA_LO, RING_SIZE};
use zelezmut::script::Operation;

/// A submission is not cut into more slices than this.
const MOST_SLICES: usize = 40;

impl Author {
    /// Runs until the submission waits or is refused, as believed, and lets the host answer; the next one may be on its way then.
    pub(crate) fn work_off(
        &mut self,
        submission: &Submission,
        good: bool,
        next: Option<&Submission>,
    ) {
        let mut spent = mem::take(&mut self.ahead);
        let slices = self.slices(submission.units() - spent);
        for (i, &allowance) in slices.iter().enumerate() {
            if i + spent > 0 && self.random.percent(self.restless) {
                self.keep_in_work();
                self.between(submission, spent);
            }
            self.run(allowance);
            spent += usize::from(allowance);
        }
        match submission.belief {
            Belief::Waits => self.host(good, next),
            Belief::Refused if self.random.percent(95) => {}
            _ => {
                let allowance = self.any_allowance();
                self.answer(good, allowance);
            }
        }
    }

    /// Allowances that add up to the units or more.
    fn slices(&mut self, units: usize) -> Vec<u16> {
        if units == 0 {
            return Vec::new();
        }
        let all = units.min(PLENTY.into()) as u16;
        match self.random.within(0..=9) {
            0..=2 => vec![PLENTY],
            3 => vec![all],
            4 => vec![all - 1, 1],
            5 if units <= MOST_SLICES => vec![1; units],
            6 if units <= 16 * MOST_SLICES => vec![16; units / 16 + 1],
            7 => vec![self.random.within(0..=all.into()) as u16, PLENTY],
            _ => {
                let longest = (units / 6 + 2) as u64;
                let mut slices = Vec::new();
                let mut sum = 0;
                while sum < units && slices.len() < MOST_SLICES {
                    slices.push(self.random.within(0..=longest) as u16);
                    sum += usize::from(slices[slices.len() - 1]);
                }
                slices.push((units.saturating_sub(sum)) as u16);
                slices
            }
        }
    }

    /// How far the host carries on in the call that answers: not at all, into the next submission, just until it waits, or over it.
    fn carried(&mut self, next: Option<&Submission>) -> u16 {
        // Where there is no other, one unit finds that out.
        let units = next.map_or(1, Submission::units).min(PLENTY.into()) as u16;
        match self.random.within(0..=9) {
            0..=3 => 0,
            4 => 1,
            5 => units,
            6 => units - 1,
            7 => self.random.within(0..=units.into()) as u16,
            _ => PLENTY,
        }
    }

    /// The host looks at the records of a waiting submission, answers and carries on.
    fn host(&mut self, good: bool, next: Option<&Submission>) {
        if self.random.percent(60) {
            let index = self.random.pick(&[0, 0, 1, 2, 63, 64, u32::MAX]);
            self.say(Operation::Record { index });
        }
        self.keep_in_work();
        let mut allowance = None;
        let mut ring_moved = false;
        if self.random.percent(self.restless) {
            match self.random.within(0..=6) {
                0..=1 => self.small_talk(),
                2 => self.disabled_for_a_while(),
                3 => self.move_fence(),
                4 => {
                    // Head goes to the ring that was opened, wherever the registers point by then.
                    let (gpa, size) = (self.random.word(), self.random.word());
                    self.write(RING_GPA_LO, gpa);
                    self.write(RING_SIZE, size);
                    ring_moved = true;
                    self.events.push(Event::RingMoved);
                    // The run behind the answer goes where they point.
                    let run = self.any_allowance();
                    self.sure &= run == 0;
                    allowance = Some(run);
                }
                5 => {
                    let run = self.any_allowance();
                    self.say(Operation::AnswerElsewhere {
                        answer: told(good),
                        allowance: run,
                        length: self.world.memory as u32,
                    });
                    self.unsure(Event::OtherMemoryOfThisLength);
                    allowance = Some(run);
                }
                _ => {
                    self.events.push(Event::AnsweredWhileDisabled);
                    self.write_control(0);
                    let run = self.any_allowance();
                    self.answer(good, run);
                    self.run(PLENTY);
                    self.write_control(CONTROL_ENABLE);
                    allowance = Some(run);
                }
            }
        }
        match allowance {
            Some(allowance) => self.answer(good, allowance),
            None => {
                let allowance = self.carried(next);
                self.answer(good, allowance);
                self.ahead = next.map_or(0, Submission::units).min(allowance.into());
            }
        }
        if ring_moved {
            let (gpa, size) = (self.world.ring.gpa, self.world.ring.size);
            self.write_ring(gpa, size);
        }
        if self.ahead == 0 && self.random.percent(4) {
            let allowance = self.any_allowance();
            self.answer(good, allowance);
        }
    }
}
