//! The desk: the device's state and its calls.

use crate::answers::{
    BAD_FILE, DONE, IN_WORK, NOTHING_WAITING, NO_RECORD, NO_REGISTER, OTHER_LENGTH,
};
use crate::bytes::length;
use crate::errors::{Error, Fault};
use crate::fence;
use crate::loaded::Loaded;
use crate::packets::{Kept, Record};
use crate::registers::{Registers, Written};
use crate::resources::Resources;
use crate::ring::{self, Ring};
use crate::saved::{Form, Rest};
use crate::submission::{Submission, Ticket};
use crate::tokens::Tokens;

/// How a run ended.
#[derive(Clone, Copy, Debug, PartialEq, Eq)]
pub enum Ended {
    /// Disabled, or the doorbell flag is clear and nothing is in work.
    Idle,
    /// A submission awaits the host.
    Waiting,
    /// There is more to do.
    Paused,
}

/// What a run reports, and an answer of the host with the run after it.
#[derive(Clone, Copy, Debug, PartialEq, Eq)]
pub struct Ran {
    /// The call answer.
    pub answer: u32,
    /// The units spent.
    pub units: u16,
    /// How it ended.
    pub ended: Ended,
}

impl Ran {
    /// A call that was refused: nothing was run.
    fn refused(answer: u32) -> Ran {
        Ran {
            answer,
            units: 0,
            ended: Ended::Idle,
        }
    }
}

/// A device, made for one memory length, which only loading changes.
#[derive(Clone, Debug)]
pub struct Desk {
    memory: u64,
    registers: Registers,
    resources: Resources,
    tokens: Tokens,
    /// The submission in work.
    work: Option<Submission>,
    /// What the submission in work has kept; empty without one.
    kept: Kept,
}

impl Desk {
    /// A new device for a memory of `memory` bytes.
    pub fn new(memory: usize) -> Desk {
        Desk {
            memory: memory as u64,
            registers: Registers::default(),
            resources: Resources::new(),
            tokens: Tokens::new(),
            work: None,
            kept: Kept::new(),
        }
    }

    /// Writes a register; gives the call answer.
    pub fn write(&mut self, offset: u32, value: u32) -> u32 {
        match self.registers.write(offset, value) {
            Written::Done => DONE,
            Written::Reset => {
                self.resources.clear();
                self.tokens.clear();
                self.drop_work();
                DONE
            }
            Written::Refused => NO_REGISTER,
        }
    }

    /// Reads a register; gives the call answer and the value.
    pub fn read(&self, offset: u32) -> (u32, u32) {
        match self.registers.read(offset) {
            Some(value) => (DONE, value),
            None => (NO_REGISTER, 0),
        }
    }

    /// Runs until the allowance is spent, the device is idle, or a submission
    /// waits for the host.
    pub fn run(&mut self, mem: &mut [u8], allowance: u16) -> Ran {
        if length(mem) != self.memory {
            return Ran::refused(OTHER_LENGTH);
        }
        let mut units = 0;
        while units < allowance && self.ended() == Ended::Paused {
            self.step(mem);
            units += 1;
        }
        Ran {
            answer: DONE,
            units,
            ended: self.ended(),
        }
    }

    /// Record `i` of the waiting submission; gives the call answer and the
    /// record.
    pub fn record(&self, i: u32) -> (u32, Record) {
        if self.is_waiting() {
            if let Some(record) = self.kept.records.get(i as usize) {
                return (DONE, *record);
            }
        }
        (NO_RECORD, Record::default())
    }

    /// Every live name of the device with the lowest name of its resource, by
    /// rising name. What the submission in work has done shows once it has its
    /// good answer.
    pub fn names(&self) -> Vec<(u32, u32)> {
        self.resources.names()
    }

    /// Every token the device has used since the last reset, with the lowest
    /// name of the resource it is bound to, or 0 if it is spent; by rising
    /// token. What the submission in work has done shows once it has its good
    /// answer.
    pub fn tokens(&self) -> Vec<(u64, u32)> {
        self.tokens.own(&self.resources)
    }

    /// The tokens as the submission in work has left them so far.
    fn tokens_in_work(&self) -> Vec<(u64, u32)> {
        self.tokens.of_submission(&self.kept.resources)
    }

    /// Takes the host's answer and settles the waiting submission, then runs
    /// with the allowance as [`Desk::run`] does. Refused as a whole over
    /// another memory length or with nothing waiting.
    pub fn answer(&mut self, mem: &mut [u8], good: bool, allowance: u16) -> Ran {
        if length(mem) != self.memory {
            return Ran::refused(OTHER_LENGTH);
        }
        let ticket = match &self.work {
            Some(submission) if submission.is_waiting(&self.kept) => submission.ticket,
            _ => return Ran::refused(NOTHING_WAITING),
        };
        let outcome = if good {
            Ok(())
        } else {
            Err(Error::Host.nowhere())
        };
        self.settle(mem, ticket, outcome);
        self.run(mem, allowance)
    }

    /// Saves the device at rest into the buffer, in form 1; gives the call
    /// answer and the length of the file. Refused, in this order, with 5 while
    /// a submission is in work, with 8 if the form cannot hold the device (a
    /// token used since the last reset or load or come with that load, another
    /// name, an error detail that is not 0), with 6 if the buffer is too short.
    /// Beside these the length is 0 and the buffer is untouched; its bytes
    /// after the file always are.
    pub fn save(&self, buffer: &mut [u8]) -> (u32, usize) {
        self.save_in(Form::One, buffer)
    }

    /// As [`Desk::save`], in form 2, which can hold every device: refused with
    /// 5, then with 6, never with 8.
    pub fn save_form_2(&self, buffer: &mut [u8]) -> (u32, usize) {
        self.save_in(Form::Two, buffer)
    }

    fn save_in(&self, form: Form, buffer: &mut [u8]) -> (u32, usize) {
        if self.work.is_some() {
            return (IN_WORK, 0);
        }
        let rest = Rest {
            registers: &self.registers,
            memory: self.memory,
            resources: &self.resources,
            tokens: &self.tokens,
        };
        rest.write(form, buffer)
    }

    /// Becomes the device that a file tells of, whatever it was before: with
    /// nothing in work and the file's memory length. The file is of form 2, of
    /// form 1, or an old one of form 1 without its number; one of form 1 gives
    /// detail 0, no tokens and no other names. Gives the call answer and 0; or
    /// 7 and the offset, from the file's first byte, of its first bad field or
    /// of a byte after its last, and then nothing changes.
    pub fn load(&mut self, file: &[u8]) -> (u32, usize) {
        match Loaded::read(file) {
            Ok(loaded) => {
                self.memory = loaded.memory;
                self.registers = loaded.registers;
                self.resources = loaded.resources;
                self.tokens = loaded.tokens;
                self.drop_work();
                (DONE, 0)
            }
            Err(bad) => (BAD_FILE, bad.place),
        }
    }

    fn is_waiting(&self) -> bool {
        match &self.work {
            Some(submission) => submission.is_waiting(&self.kept),
            None => false,
        }
    }

    /// How a run that stopped now would have ended.
    fn ended(&self) -> Ended {
        if self.is_waiting() {
            Ended::Waiting
        } else if !self.registers.enabled || (!self.registers.doorbell && self.work.is_none()) {
            Ended::Idle
        } else {
            Ended::Paused
        }
    }

    /// Does one unit: an opening, an entry or a packet.
    fn step(&mut self, mem: &mut [u8]) {
        match &mut self.work {
            None => self.open(mem),
            Some(submission) => {
                let ticket = submission.ticket;
                if let Err(fault) = submission.step(mem, &mut self.kept, &mut self.tokens) {
                    self.settle(mem, ticket, Err(fault));
                }
            }
        }
    }

    /// Opens the submission at the ring's head, if the ring is good and has
    /// one.
    fn open(&mut self, mem: &mut [u8]) {
        match Ring::read(mem, self.registers.ring_gpa, self.registers.ring_size) {
            Err(error) => {
                self.registers.doorbell = false;
                self.registers.set_error(error.nowhere(), 0);
            }
            Ok(ring) if ring.pending() == 0 => self.registers.doorbell = false,
            Ok(ring) => self.open_head(mem, &ring),
        }
    }

    fn open_head(&mut self, mem: &mut [u8], ring: &Ring) {
        let descriptor = ring.descriptor(mem);
        let ticket = Ticket::new(ring, &descriptor);
        match Submission::open(mem, ring.stride, &descriptor, ticket) {
            Ok(submission) => {
                self.kept.resources.copy_from(&self.resources);
                self.work = Some(submission);
            }
            Err(error) => self.settle(mem, ticket, Err(error.nowhere())),
        }
    }

    /// Settles a submission: resources and tokens or error, completed fence,
    /// then the head of the opened ring, then the fence page.
    fn settle(&mut self, mem: &mut [u8], ticket: Ticket, outcome: Result<(), Fault>) {
        match outcome {
            Ok(()) => {
                std::mem::swap(&mut self.resources, &mut self.kept.resources);
                self.tokens.accept_changes();
            }
            Err(fault) => self.registers.set_error(fault, ticket.signal_fence),
        }
        self.drop_work();
        self.registers.complete(ticket.signal_fence, ticket.no_irq);
        ring::write_head(mem, ticket.ring_gpa, ticket.head.wrapping_add(1));
        fence::write_page(mem, self.registers.fence_gpa, self.registers.completed);
    }

    fn drop_work(&mut self) {
        self.work = None;
        self.kept.clear();
        self.tokens.drop_changes();
    }
}

/// Tokens compare by the names they lead to, as the resources do.
impl PartialEq for Desk {
    fn eq(&self, other: &Desk) -> bool {
        let Desk {
            memory,
            registers,
            resources,
            tokens: _,
            work,
            kept,
        } = self;
        *memory == other.memory
            && *registers == other.registers
            && *resources == other.resources
            && *work == other.work
            && *kept == other.kept
            && self.tokens() == other.tokens()
            && self.tokens_in_work() == other.tokens_in_work()
    }
}

#[cfg(test)]
mod tests {
    use super::*;
    use crate::answers::BEYOND_FORM;
    use crate::resources::Resource;
    use crate::shapes::Shape;

    #[test]
    fn form_1_has_no_other_names_whatever_the_tokens() {
        let mut desk = Desk::new(0);
        let mut buffer = [0; 192];
        for (handle, surface, saved) in [(2, 1, (DONE, 144)), (5, 1, (BEYOND_FORM, 0))] {
            desk.resources.add(Resource {
                handle,
                shape: Shape::Buffer { size: 16 },
                bytes: 16,
                backing_id: 0,
                backing_offset: 0,
                surface,
            });
            assert_eq!(desk.save(&mut buffer), saved);
        }
        assert_eq!(desk.save(&mut []), (BEYOND_FORM, 0));
    }
}
