//! One face for both fronts: the calls of documents 01 and 02 with their answers as numbers.

use crate::shape::Shape;
pub use plain::{Ended, Ran, Record};
use zelezmut::{saved, Form, HostAnswer, Refused, Ticket};

pub trait Front {
    /// What messages call it.
    const NAME: &'static str;

    fn made_for(memory: usize) -> Self;
    fn write(&mut self, offset: u32, value: u32) -> u32;
    /// The call's answer and the register's value.
    fn read(&self, offset: u32) -> (u32, u32);
    fn run(&mut self, memory: &mut [u8], allowance: u16) -> Ran;
    /// The call's answer and the record.
    fn record(&self, i: u32) -> (u32, Record);
    fn answer(&mut self, memory: &mut [u8], good: bool, allowance: u16) -> Ran;
    /// The call's answer and the file's length.
    fn save(&self, form: Form, buffer: &mut [u8]) -> (u32, usize);
    /// The call's answer and the place in the file that is bad.
    fn load(&mut self, file: &[u8]) -> (u32, usize);
    /// Every name of a resource beside the resource's lowest, in rising order.
    fn names(&self) -> Vec<(u32, u32)>;
    /// Every token used beside the lowest name of its resource, 0 if it is spent, in rising order.
    fn tokens(&self) -> Vec<(u64, u32)>;

    /// 0 is a bad shape.
    fn packed_size(shape: Shape) -> u64;
    /// 0 is no error.
    fn table_error(table: &[u8], memory: u64) -> u32;
    /// The index of the entry that has the error, 0 if none has.
    fn table_place(table: &[u8], memory: u64) -> u32;
    /// A file in the other form: the call's answer and the moved file's length.
    fn move_form(file: &[u8], buffer: &mut [u8]) -> (u32, usize);
}

impl Front for plain::Desk {
    const NAME: &'static str = "plain";

    fn made_for(memory: usize) -> plain::Desk {
        plain::Desk::new(memory)
    }

    fn write(&mut self, offset: u32, value: u32) -> u32 {
        plain::Desk::write(self, offset, value)
    }

    fn read(&self, offset: u32) -> (u32, u32) {
        plain::Desk::read(self, offset)
    }

    fn run(&mut self, memory: &mut [u8], allowance: u16) -> Ran {
        plain::Desk::run(self, memory, allowance)
    }

    fn record(&self, i: u32) -> (u32, Record) {
        plain::Desk::record(self, i)
    }

    fn answer(&mut self, memory: &mut [u8], good: bool, allowance: u16) -> Ran {
        plain::Desk::answer(self, memory, good, allowance)
    }

    fn save(&self, form: Form, buffer: &mut [u8]) -> (u32, usize) {
        match form {
            Form::One => plain::Desk::save(self, buffer),
            Form::Two => self.save_form_2(buffer),
        }
    }

    fn load(&mut self, file: &[u8]) -> (u32, usize) {
        plain::Desk::load(self, file)
    }

    fn names(&self) -> Vec<(u32, u32)> {
        plain::Desk::names(self)
    }

    fn tokens(&self) -> Vec<(u64, u32)> {
        plain::Desk::tokens(self)
    }

    #[inline]
    fn packed_size(shape: Shape) -> u64 {
        plain::packed_size(
            shape.format,
            shape.width,
            shape.height,
            shape.mips,
            shape.layers,
            shape.pitch,
        )
    }

    fn table_error(table: &[u8], memory: u64) -> u32 {
        plain::table_error(table, memory)
    }

    fn table_place(table: &[u8], memory: u64) -> u32 {
        plain::table_place(table, memory)
    }

    fn move_form(file: &[u8], buffer: &mut [u8]) -> (u32, usize) {
        plain::move_form(file, buffer)
    }
}

impl Front for zelezmut::Desk {
    const NAME: &'static str = "zelezmut";

    fn made_for(memory: usize) -> zelezmut::Desk {
        zelezmut::Desk::new(memory)
    }

    fn write(&mut self, offset: u32, value: u32) -> u32 {
        match zelezmut::Desk::write(self, offset, value) {
            Ok(_) => 0,
            Err(refused) => number(refused),
        }
    }

    fn read(&self, offset: u32) -> (u32, u32) {
        match zelezmut::Desk::read(self, offset) {
            Ok(value) => (0, value),
            Err(refused) => (number(refused), 0),
        }
    }

    fn run(&mut self, memory: &mut [u8], allowance: u16) -> Ran {
        ran(zelezmut::Desk::run(self, memory, allowance))
    }

    fn record(&self, i: u32) -> (u32, Record) {
        match zelezmut::Desk::record(self, i) {
            Ok(record) => (0, record_in_numbers(record)),
            Err(refused) => (number(refused), Record::default()),
        }
    }

    fn answer(&mut self, memory: &mut [u8], good: bool, allowance: u16) -> Ran {
        let ticket = current_ticket(self);
        let answer = HostAnswer::from(good);
        ran(zelezmut::Desk::answer(
            self, memory, ticket, answer, allowance,
        ))
    }

    fn save(&self, form: Form, buffer: &mut [u8]) -> (u32, usize) {
        match self.save_as_into(form, buffer) {
            Ok(length) => (0, length),
            Err(refused) => (number(refused), 0),
        }
    }

    fn load(&mut self, file: &[u8]) -> (u32, usize) {
        match zelezmut::Desk::load(self, file) {
            Ok(()) => (0, 0),
            Err(bad) => (bad.number(), bad.place()),
        }
    }

    fn names(&self) -> Vec<(u32, u32)> {
        zelezmut::Desk::names(self)
    }

    fn tokens(&self) -> Vec<(u64, u32)> {
        let tokens = zelezmut::Desk::tokens(self).into_iter();
        tokens
            .map(|(token, name)| (token, name.unwrap_or(0)))
            .collect()
    }

    #[inline]
    fn packed_size(shape: Shape) -> u64 {
        let Shape {
            format,
            width,
            height,
            mips,
            layers,
            pitch,
        } = shape;
        zelezmut::packed_size(format, width, height, mips, layers, pitch).unwrap_or(0)
    }

    fn table_error(table: &[u8], memory: u64) -> u32 {
        zelezmut::table_error(table, memory).map_or(0, |found| found.error.number())
    }

    fn table_place(table: &[u8], memory: u64) -> u32 {
        zelezmut::table_error(table, memory)
            .and_then(|found| found.entry)
            .unwrap_or(0)
    }

    fn move_form(file: &[u8], buffer: &mut [u8]) -> (u32, usize) {
        match saved::move_form_into(file, buffer) {
            Ok(length) => (0, length),
            Err(not_moved) => (not_moved.number(), 0),
        }
    }
}

/// The documents know no tickets: an answer is for what waits, and where nothing does no ticket is right.
#[inline]
pub(crate) fn current_ticket(desk: &zelezmut::Desk) -> Ticket {
    desk.waiting()
        .map_or(Ticket::NONE, |waiting| waiting.ticket)
}

fn number(refused: Refused) -> u32 {
    refused
        .number()
        .expect("the current ticket is never stale, and all other refusals have a number")
}

fn ran(ran: Result<zelezmut::Ran, Refused>) -> Ran {
    match ran {
        Ok(ran) => Ran {
            answer: 0,
            units: ran.units,
            ended: ended(ran.ended),
        },
        Err(refused) => Ran {
            answer: number(refused),
            units: 0,
            ended: Ended::Idle,
        },
    }
}

fn ended(ended: zelezmut::Ended) -> Ended {
    match ended {
        zelezmut::Ended::Idle => Ended::Idle,
        zelezmut::Ended::Waiting => Ended::Waiting,
        zelezmut::Ended::Paused => Ended::Paused,
    }
}

fn record_in_numbers(record: zelezmut::Record) -> Record {
    let [kind, handle, id, gpa, length] = record.numbers();
    Record {
        kind: kind as u32,
        handle: handle as u32,
        id: id as u32,
        gpa,
        length,
    }
}
