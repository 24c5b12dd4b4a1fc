//! Fronts that are wrong about saved desks in one way are told apart.

mod told_apart;

use compare::front::{Front, Ran, Record};
use compare::shape::Shape;
use told_apart::told_of;
use zelezmut::registers::{ERROR_CODE, ERROR_COUNT, ERROR_DETAIL, RING_SIZE};
use zelezmut::{FileField, FileLayout, Form, ResourceField};

const TELLS_ERRORS_AT_THE_CODE: u8 = 0;
const TELLS_PITCHES_AT_THE_PITCH: u8 = 1;
const TELLS_SIZES_AT_THE_LOW_HALF: u8 = 2;
const TELLS_HANDLES_AT_THE_EARLIER: u8 = 3;
const TELLS_CUT_FIELDS_AT_THE_CUT: u8 = 4;
const TAKES_A_BYTE_MORE: u8 = 5;
const TAKES_UNKNOWN_CODES: u8 = 6;
const TAKES_A_FENCE_WITHOUT_A_CODE: u8 = 7;
const CHANGES_THE_DEVICE_BEFORE_IT_REFUSES: u8 = 8;
const REFUSES_WHILE_IN_WORK: u8 = 9;
const KEEPS_ITS_MEMORY: u8 = 10;
const WRITES_BEHIND_THE_FILE: u8 = 11;
const WRITES_WHAT_FITS: u8 = 12;
const SAYS_SHORT_BEFORE_FORM: u8 = 13;
const SAYS_FORM_BEFORE_WORK: u8 = 14;

const DONE: u32 = 0;
const IN_WORK: u32 = 5;
const TOO_SHORT: u32 = 6;
const BAD_FILE: u32 = 7;
const NOT_IN_FORM: u32 = 8;

const LAST_ERROR: u32 = 30;

/// The bytes of a file of form 1 without resources, and of a resource.
const NO_RESOURCES: usize = 96;
const RESOURCE: usize = 48;

/// Where a file has a register.
fn place_of(file: &[u8], register: u32) -> usize {
    place(file, FileField::Register(register))
}

fn place(file: &[u8], field: FileField) -> usize {
    let place = FileLayout::of(file).place(field);
    place.expect("a field that every file has")
}

/// The plain program with one fault.
struct Wrong<const FAULT: u8> {
    desk: plain::Desk,
    memory: u64,
}

impl<const FAULT: u8> Wrong<FAULT> {
    /// The place that a front with this fault tells of a bad file.
    fn place(&self, file: &[u8], place: usize) -> usize {
        let layout = FileLayout::of(file);
        let broken = place + 4 <= file.len();
        let (index, field) = match layout.field(place) {
            Some(FileField::Resource { index, field }) if broken => (index, Some(field)),
            _ => (0, None),
        };
        let tells_at = |index: usize, field| {
            let told = layout.place(FileField::Resource { index, field });
            told.unwrap_or(place)
        };
        match (FAULT, field) {
            (TELLS_ERRORS_AT_THE_CODE, _) if broken && place == place_of(file, ERROR_COUNT) => {
                place_of(file, ERROR_CODE)
            }
            (TELLS_PITCHES_AT_THE_PITCH, Some(ResourceField::BackingId)) => {
                tells_at(index, ResourceField::Pitch)
            }
            (TELLS_SIZES_AT_THE_LOW_HALF, Some(ResourceField::SizeHi)) => {
                tells_at(index, ResourceField::SizeLo)
            }
            (TELLS_HANDLES_AT_THE_EARLIER, Some(ResourceField::Handle)) if index > 0 => {
                tells_at(index - 1, ResourceField::Handle)
            }
            (TELLS_CUT_FIELDS_AT_THE_CUT, _) if !broken => file.len(),
            _ => place,
        }
    }

    /// What a front with this fault takes a bad file for; none if that is bad too.
    fn misread(&self, file: &[u8], place: usize) -> Option<Vec<u8>> {
        let mut taken = file.to_vec();
        match FAULT {
            TAKES_A_BYTE_MORE if place + 1 == file.len() => taken.truncate(place),
            TAKES_UNKNOWN_CODES if place + 4 <= file.len() && is_at(file, place, ERROR_CODE) => {
                put(&mut taken, place, LAST_ERROR);
            }
            TAKES_A_FENCE_WITHOUT_A_CODE if is_at(file, place, ERROR_COUNT) => {
                put(&mut taken, place - 4, 0);
                put(&mut taken, place - 8, 0);
            }
            _ => return None,
        }
        Some(taken)
    }

    fn load_in_its_way(&mut self, file: &[u8]) -> (u32, usize) {
        let in_work = plain::Desk::save(&self.desk, &mut []).0 == IN_WORK;
        if FAULT == REFUSES_WHILE_IN_WORK && in_work {
            return (BAD_FILE, 0);
        }
        if FAULT == KEEPS_ITS_MEMORY && self.desk.clone().load(file).0 == DONE {
            let mut own = file.to_vec();
            let [low, high] = [FileField::MemoryLo, FileField::MemoryHi].map(|at| place(file, at));
            put(&mut own, low, self.memory as u32);
            put(&mut own, high, (self.memory >> 32) as u32);
            return self.desk.load(&own);
        }
        match self.desk.load(file) {
            (DONE, _) => (DONE, 0),
            (answer, place) => {
                if let Some(taken) = self.misread(file, place) {
                    if self.desk.load(&taken).0 == DONE {
                        return (DONE, 0);
                    }
                }
                let at = place_of(file, RING_SIZE);
                if FAULT == CHANGES_THE_DEVICE_BEFORE_IT_REFUSES && place > at {
                    let size = u32::from_le_bytes(file[at..at + 4].try_into().unwrap());
                    self.desk.write(RING_SIZE, size);
                }
                (answer, self.place(file, place))
            }
        }
    }

    /// In form 1.
    fn save_in_its_way(&self, buffer: &mut [u8]) -> (u32, usize) {
        let size = NO_RESOURCES + RESOURCE * self.desk.names().len();
        let beyond = self.desk.read(ERROR_DETAIL).1 != 0 || !self.desk.tokens().is_empty();
        match (plain::Desk::save(&self.desk, buffer), FAULT) {
            ((DONE, length), WRITES_BEHIND_THE_FILE) if length < buffer.len() => {
                buffer[length] = 0;
                (DONE, length)
            }
            ((TOO_SHORT, _), WRITES_WHAT_FITS) => {
                let mut whole = vec![0; size];
                plain::Desk::save(&self.desk, &mut whole);
                buffer.copy_from_slice(&whole[..buffer.len()]);
                (TOO_SHORT, 0)
            }
            ((NOT_IN_FORM, _), SAYS_SHORT_BEFORE_FORM) if buffer.len() < size => (TOO_SHORT, 0),
            ((IN_WORK, _), SAYS_FORM_BEFORE_WORK) if beyond => (NOT_IN_FORM, 0),
            (said, _) => said,
        }
    }
}

/// Whether the register stands there.
fn is_at(file: &[u8], at: usize, register: u32) -> bool {
    at == place_of(file, register)
}

fn put(file: &mut [u8], at: usize, value: u32) {
    file[at..at + 4].copy_from_slice(&value.to_le_bytes());
}

impl<const FAULT: u8> Front for Wrong<FAULT> {
    const NAME: &'static str = "wrong";

    fn made_for(memory: usize) -> Self {
        Wrong {
            desk: plain::Desk::new(memory),
            memory: memory as u64,
        }
    }

    fn write(&mut self, offset: u32, value: u32) -> u32 {
        self.desk.write(offset, value)
    }

    fn read(&self, offset: u32) -> (u32, u32) {
        self.desk.read(offset)
    }

    fn run(&mut self, memory: &mut [u8], allowance: u16) -> Ran {
        self.desk.run(memory, allowance)
    }

    fn record(&self, i: u32) -> (u32, Record) {
        self.desk.record(i)
    }

    fn answer(&mut self, memory: &mut [u8], good: bool, allowance: u16) -> Ran {
        self.desk.answer(memory, good, allowance)
    }

    fn save(&self, form: Form, buffer: &mut [u8]) -> (u32, usize) {
        match form {
            Form::One => self.save_in_its_way(buffer),
            Form::Two => self.desk.save_form_2(buffer),
        }
    }

    fn load(&mut self, file: &[u8]) -> (u32, usize) {
        self.load_in_its_way(file)
    }

    fn names(&self) -> Vec<(u32, u32)> {
        self.desk.names()
    }

    fn tokens(&self) -> Vec<(u64, u32)> {
        self.desk.tokens()
    }

    fn packed_size(shape: Shape) -> u64 {
        plain::Desk::packed_size(shape)
    }

    fn table_error(table: &[u8], memory: u64) -> u32 {
        plain::Desk::table_error(table, memory)
    }

    fn table_place(table: &[u8], memory: u64) -> u32 {
        plain::Desk::table_place(table, memory)
    }

    fn move_form(file: &[u8], buffer: &mut [u8]) -> (u32, usize) {
        plain::move_form(file, buffer)
    }
}

fn is_told<const FAULT: u8>() {
    told_of::<Wrong<FAULT>>(200 + u64::from(FAULT));
}

/// By what a load said.
fn is_told_at_a_load<const FAULT: u8>() {
    let told = told_of::<Wrong<FAULT>>(200 + u64::from(FAULT));
    assert!(told.contains("Load {"), "{}", told);
}

#[test]
fn a_front_that_tells_a_bad_error_at_its_code_is_told_apart() {
    is_told_at_a_load::<TELLS_ERRORS_AT_THE_CODE>();
}

#[test]
fn a_front_that_tells_a_bad_pitch_at_the_pitch_is_told_apart() {
    is_told_at_a_load::<TELLS_PITCHES_AT_THE_PITCH>();
}

#[test]
fn a_front_that_tells_a_size_of_0_at_its_low_half_is_told_apart() {
    is_told_at_a_load::<TELLS_SIZES_AT_THE_LOW_HALF>();
}

#[test]
fn a_front_that_tells_falling_handles_at_the_earlier_is_told_apart() {
    is_told_at_a_load::<TELLS_HANDLES_AT_THE_EARLIER>();
}

#[test]
fn a_front_that_tells_a_cut_field_at_the_cut_is_told_apart() {
    is_told_at_a_load::<TELLS_CUT_FIELDS_AT_THE_CUT>();
}

#[test]
fn a_front_that_takes_a_byte_behind_the_last_field_is_told_apart() {
    is_told_at_a_load::<TAKES_A_BYTE_MORE>();
}

#[test]
fn a_front_that_takes_an_unknown_code_is_told_apart() {
    is_told_at_a_load::<TAKES_UNKNOWN_CODES>();
}

#[test]
fn a_front_that_takes_a_fence_without_a_code_is_told_apart() {
    is_told_at_a_load::<TAKES_A_FENCE_WITHOUT_A_CODE>();
}

#[test]
fn a_front_that_changes_before_it_refuses_a_file_is_told_apart() {
    is_told_at_a_load::<CHANGES_THE_DEVICE_BEFORE_IT_REFUSES>();
}

#[test]
fn a_front_that_loads_nothing_while_in_work_is_told_apart() {
    is_told_at_a_load::<REFUSES_WHILE_IN_WORK>();
}

#[test]
fn a_front_that_keeps_its_memory_s_length_is_told_apart() {
    is_told::<KEEPS_ITS_MEMORY>();
}

#[test]
fn a_front_that_writes_behind_the_file_is_told_apart() {
    is_told::<WRITES_BEHIND_THE_FILE>();
}

#[test]
fn a_front_that_writes_into_a_short_buffer_is_told_apart() {
    is_told::<WRITES_WHAT_FITS>();
}

#[test]
fn a_front_that_says_6_before_8_is_told_apart() {
    is_told::<SAYS_SHORT_BEFORE_FORM>();
}

#[test]
fn a_front_that_says_8_before_5_is_told_apart() {
    is_told::<SAYS_FORM_BEFORE_WORK>();
}
