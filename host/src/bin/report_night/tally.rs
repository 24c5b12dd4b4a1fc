//! The night in numbers: every submission of the sample night is counted as it finishes.
//!
//! A run may finish several submissions, and its desk tells only the last error. So each call that runs is followed on a copy of the desk and
//! its memory, a unit at a time.
use zelezmut::script::{Operation, Player};
use zelezmut::{Desk, Ended, HostAnswer, Month, NotCounted, Ran, Refused, Ticket, Written};

/// The totals so far, and the units of the submission in work.
#[derive(Default)]
pub struct Tally {
    month: Month,
    units: u32,
}

impl Tally {
    /// The totals of all submissions that have finished.
    pub fn month(&self) -> &Month {
        &self.month
    }

    /// Counts what an operation is about to finish at the player's desk.
    pub fn watch(&mut self, player: &Player, operation: &Operation) -> Result<(), NotCounted> {
        let mut desk = player.desk().clone();
        let mut memory = player.memory().to_vec();
        match *operation {
            Operation::Run { allowance } => self.run(&mut desk, &mut memory, allowance),
            Operation::Answer { answer, allowance } => {
                self.answer(&mut desk, &mut memory, answer)?;
                self.run(&mut desk, &mut memory, allowance)
            }
            Operation::Write { offset, value } => {
                if desk.write(offset, value) == Ok(Written::Reset) {
                    self.units = 0;
                }
                Ok(())
            }
            Operation::Load { ref file } => {
                if desk.load(file).is_ok() {
                    self.units = 0;
                }
                Ok(())
            }
            _ => Ok(()),
        }
    }

    /// The submission that waits finishes by the host's answer.
    fn answer(
        &mut self,
        desk: &mut Desk,
        memory: &mut [u8],
        answer: HostAnswer,
    ) -> Result<(), NotCounted> {
        let waiting = desk.waiting();
        let ticket = waiting.map_or(Ticket::NONE, |waiting| waiting.ticket);
        self.month.feed_waiting(desk, answer, self.units)?;
        if desk.answer(memory, ticket, answer, 0).is_ok() {
            self.units = 0;
        }
        Ok(())
    }

    /// One unit after the other: one that adds an error finishes a submission, and one that leaves the desk idle has found none.
    fn run(
        &mut self,
        desk: &mut Desk,
        memory: &mut [u8],
        allowance: u16,
    ) -> Result<(), NotCounted> {
        for _ in 0..allowance {
            let errors = error_count(desk);
            let ran = desk.run(memory, 1);
            self.units += units_of(ran);
            if error_count(desk) != errors {
                let error = desk.last_error().map(|report| report.error);
                self.month.feed(error, self.units, &[])?;
                self.units = 0;
            }
            match ran.map(|ran| ran.ended) {
                Ok(Ended::Paused) => {}
                Ok(Ended::Waiting) | Err(_) => break,
                Ok(Ended::Idle) => {
                    self.units = 0;
                    break;
                }
            }
        }
        Ok(())
    }
}

fn units_of(ran: Result<Ran, Refused>) -> u32 {
    ran.map_or(0, |ran| ran.units.into())
}

fn error_count(desk: &Desk) -> u32 {
    desk.last_error().map_or(0, |report| report.count)
}
