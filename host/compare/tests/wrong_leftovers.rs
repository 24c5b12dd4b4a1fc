//! Fronts that look at bytes which cannot matter are told apart by desks played on two memories, and so are those that copy such a byte.

mod told_apart;

use compare::front::{Ended, Front, Ran, Record};
use compare::shape::Shape;
use told_apart::told_of_scrambled;
use zelezmut::registers::{IRQ_STATUS, RING_GPA_LO};
use zelezmut::Form;

const LOOKS_INTO_THE_RING_HEADER: u8 = 0;
const LOOKS_ELSEWHERE: u8 = 1;
const COPIES_A_LEFTOVER: u8 = 2;

/// A byte of the ring header that no field has.
const UNNAMED: usize = 20;

/// The plain program with one fault.
struct Wrong<const FAULT: u8> {
    desk: plain::Desk,
    /// What it takes from the byte that it looked at last.
    seen: u32,
}

impl<const FAULT: u8> Wrong<FAULT> {
    /// Looks at memory when a submission comes to wait.
    fn look(&mut self, memory: &mut [u8], ran: Ran) -> Ran {
        let ring = self.desk.read(RING_GPA_LO).1 as usize;
        if ran.units == 0 || ran.ended != Ended::Waiting || ring + UNNAMED >= memory.len() {
            return ran;
        }
        match FAULT {
            LOOKS_INTO_THE_RING_HEADER => self.seen = u32::from(memory[ring + UNNAMED]),
            LOOKS_ELSEWHERE => self.seen = u32::from(memory[memory.len() - 1]),
            _ => memory[ring] = memory[ring + UNNAMED],
        }
        ran
    }
}

impl<const FAULT: u8> Front for Wrong<FAULT> {
    const NAME: &'static str = "wrong";

    fn made_for(memory: usize) -> Self {
        let desk = plain::Desk::new(memory);
        Wrong { desk, seen: 0 }
    }

    fn write(&mut self, offset: u32, value: u32) -> u32 {
        self.desk.write(offset, value)
    }

    fn read(&self, offset: u32) -> (u32, u32) {
        match (offset, self.desk.read(offset)) {
            (IRQ_STATUS, (answer, status)) => (answer, status ^ self.seen),
            (_, told) => told,
        }
    }

    fn run(&mut self, memory: &mut [u8], allowance: u16) -> Ran {
        let ran = self.desk.run(memory, allowance);
        self.look(memory, ran)
    }

    fn record(&self, i: u32) -> (u32, Record) {
        self.desk.record(i)
    }

    fn answer(&mut self, memory: &mut [u8], good: bool, allowance: u16) -> Ran {
        let ran = self.desk.answer(memory, good, allowance);
        self.look(memory, ran)
    }

    fn save(&self, form: Form, buffer: &mut [u8]) -> (u32, usize) {
        Front::save(&self.desk, form, buffer)
    }

    fn load(&mut self, file: &[u8]) -> (u32, usize) {
        self.desk.load(file)
    }

    fn names(&self) -> Vec<(u32, u32)> {
        self.desk.names()
    }

    fn tokens(&self) -> Vec<(u64, u32)> {
        self.desk.tokens()
    }

    fn packed_size(shape: Shape) -> u64 {
        <plain::Desk as Front>::packed_size(shape)
    }

    fn table_error(table: &[u8], memory: u64) -> u32 {
        plain::table_error(table, memory)
    }

    fn table_place(table: &[u8], memory: u64) -> u32 {
        plain::table_place(table, memory)
    }

    fn move_form(file: &[u8], buffer: &mut [u8]) -> (u32, usize) {
        plain::move_form(file, buffer)
    }
}

/// A desk shows the fault, and in this.
fn told_in<const FAULT: u8>(of: &str) {
    let told = told_of_scrambled::<Wrong<FAULT>>(400 + u64::from(FAULT));
    assert!(told.contains(of), "{}", told);
}

#[test]
fn a_front_that_looks_into_the_ring_header_is_told_apart() {
    told_in::<LOOKS_INTO_THE_RING_HEADER>("register 300");
}

#[test]
fn a_front_that_looks_elsewhere_is_told_apart() {
    told_in::<LOOKS_ELSEWHERE>("register 300");
}

#[test]
fn a_front_that_copies_a_leftover_is_told_apart() {
    told_in::<COPIES_A_LEFTOVER>(", which agreed");
}
