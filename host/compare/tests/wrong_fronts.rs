//! Fronts that are wrong in one way are told apart, and the desk that shows it is written out as a script that can be played. Those that
//! are wrong about names and tokens are in `wrong_shares`.

mod told_apart;

use compare::front::{Ended, Front, Ran, Record};
use compare::generator::draw;
use compare::player::play;
use compare::shape::Shape;
use told_apart::told_of;
use zelezmut::registers::{CONTROL, CONTROL_RESET, ERROR_CODE, ERROR_COUNT, ERROR_DETAIL};
use zelezmut::script::Operation;
use zelezmut::{DeviceError, Form, Place};

const DOES_NOTHING: u8 = 0;
const INVENTS_UNITS: u8 = 1;
const ANSWERS_ALIKE: u8 = 2;
const FORGETS_WRITES: u8 = 3;
const TOUCHES_MEMORY: u8 = 4;
const PANICS: u8 = 5;
const READS_ALL_AT_OPENING: u8 = 6;
const COUNTS_FROM_THE_FIRST_PACKET: u8 = 7;
const COUNTS_ENTRIES_FROM_1: u8 = 8;
const KEEPS_OLD_PLACES: u8 = 9;
const RESETS_PLACES: u8 = 10;
const RUNS_THOUGH_REFUSED: u8 = 11;
const ANSWERS_AND_STOPS: u8 = 12;
const RUNS_BEFORE_IT_ANSWERS: u8 = 13;
const SETTLES_FOR_A_UNIT: u8 = 14;
const SAYS_IDLE: u8 = 15;
const TAKES_MINUS_ZERO_FOR_A_SIDE: u8 = 16;
const TAKES_WHAT_IS_NOT_A_NUMBER: u8 = 17;
const CLIPS_IN_U32: u8 = 18;
const LETS_TARGETS_OUTLIVE_HANDLES: u8 = 19;
const FORGETS_EMPTY_CLIPS: u8 = 20;

/// An entry that is bad by itself.
const BAD_ENTRY: u32 = 14;

/// Where the first packet of a stream stands.
const FIRST_PACKET: u32 = 24;

/// The plain program with one fault.
struct Wrong<const FAULT: u8> {
    desk: plain::Desk,
    /// Memory as the first unit of the entries in work found it.
    found: Option<Vec<u8>>,
    /// The last error's detail, as a front with this fault keeps it.
    detail: u32,
}

impl<const FAULT: u8> Wrong<FAULT> {
    /// A call that may end with an error, whose place is then taken.
    fn call<T>(&mut self, call: impl FnOnce(&mut Self) -> T) -> T {
        let before = self.error();
        let said = call(self);
        if self.error() != before {
            match self.desk.read(ERROR_DETAIL) {
                (_, 0) if FAULT == KEEPS_OLD_PLACES => {}
                (_, detail) => self.detail = self.counted(detail),
            }
        }
        said
    }

    /// By the count alone an error could go unnoticed: a loaded one may stand at its end.
    fn error(&self) -> [(u32, u32); 3] {
        [ERROR_COUNT, ERROR_CODE, ERROR_DETAIL].map(|offset| self.desk.read(offset))
    }

    fn counted(&self, detail: u32) -> u32 {
        let error = DeviceError::from_number(self.desk.read(ERROR_CODE).1);
        match error.map(|error| Place::of(error, detail)) {
            Some(Place::Packet(at)) if FAULT == COUNTS_FROM_THE_FIRST_PACKET => at - FIRST_PACKET,
            Some(Place::Entry(index)) if FAULT == COUNTS_ENTRIES_FROM_1 => index + 1,
            _ => detail,
        }
    }

    fn run_in_its_way(&mut self, memory: &mut [u8], allowance: u16) -> Ran {
        if FAULT == DOES_NOTHING {
            let ended = Ended::Idle;
            return Ran {
                answer: 0,
                units: 0,
                ended,
            };
        }
        if FAULT == READS_ALL_AT_OPENING {
            return self.run_reading_ahead(memory, allowance);
        }
        if let Some(misread) = misreading(FAULT) {
            return self.run_misreading(memory, allowance, misread);
        }
        let mut ran = self.desk.run(memory, allowance);
        let waits = ran.units > 0 && ran.ended == Ended::Waiting;
        match FAULT {
            INVENTS_UNITS if waits => ran.units += 1,
            TOUCHES_MEMORY if waits => memory[0] ^= 1,
            PANICS if waits => panic!("a submission waits"),
            _ => {}
        }
        ran
    }

    fn answer_in_its_way(&mut self, memory: &mut [u8], good: bool, allowance: u16) -> Ran {
        let desk = &mut self.desk;
        match FAULT {
            RUNS_THOUGH_REFUSED => {
                let said = desk.answer(memory, good, allowance);
                if said.answer != 0 {
                    desk.run(memory, allowance);
                }
                said
            }
            ANSWERS_AND_STOPS => desk.answer(memory, good, 0),
            // What waits is in the way of the run.
            RUNS_BEFORE_IT_ANSWERS if desk.run(memory, 0).ended == Ended::Waiting => {
                let ran = desk.run(memory, allowance);
                desk.answer(memory, good, 0);
                ran
            }
            SETTLES_FOR_A_UNIT if allowance > 0 => {
                let mut ran = desk.answer(memory, good, allowance - 1);
                ran.units += u16::from(ran.answer == 0);
                ran
            }
            SAYS_IDLE => Ran {
                ended: Ended::Idle,
                ..desk.answer(memory, good, allowance)
            },
            _ => match desk.answer(memory, good || FAULT == ANSWERS_ALIKE, 0) {
                Ran { answer: 0, .. } => self.run_in_its_way(memory, allowance),
                refused => refused,
            },
        }
    }

    /// A run whose every unit is as it should be, but that later entries are taken from what the first one's unit found.
    fn run_reading_ahead(&mut self, memory: &mut [u8], allowance: u16) -> Ran {
        let mut ran = self.desk.run(memory, 0);
        while ran.answer == 0 && ran.units < allowance {
            let unit = self.unit_reading_ahead(memory);
            ran.units += unit.units;
            ran.ended = unit.ended;
            if unit.units == 0 {
                break;
            }
        }
        ran
    }

    fn unit_reading_ahead(&mut self, memory: &mut [u8]) -> Ran {
        match self.error_over_zeros(memory.len()) {
            Some(BAD_ENTRY) => {}
            Some(_) => {
                self.found = None;
                return self.desk.run(memory, 1);
            }
            None => return self.desk.run(memory, 1),
        }
        let found = self.found.get_or_insert_with(|| memory.to_vec());
        let mut after = found.clone();
        let ran = self.desk.run(&mut after, 1);
        // A refused entry settles its submission: what that writes is written here.
        take_over(memory, found, &after);
        ran
    }

    /// A run over what a front with this fault takes the memory's packets for.
    fn run_misreading(&mut self, memory: &mut [u8], allowance: u16, misread: Misreading) -> Ran {
        let mut misread_memory = memory.to_vec();
        for at in 0..memory.len() {
            misread(&mut misread_memory[at..]);
        }
        let mut after = misread_memory.clone();
        let ran = self.desk.run(&mut after, allowance);
        take_over(memory, &misread_memory, &after);
        ran
    }

    /// The record of this index, where scissors without a pixel have none.
    fn record_that_is_not_empty(&self, i: u32) -> (u32, Record) {
        let made =
            (0..).map_while(|i| Some(self.desk.record(i)).filter(|(answer, _)| *answer == 0));
        let mut left = made.filter(|(_, record)| (record.kind, record.gpa) != (4, 0));
        let none = (4, Record::default());
        left.nth(i as usize).unwrap_or(none)
    }

    /// What the next unit would be refused with over memory that is all zero, which tells an entry from an opening and from a packet.
    fn error_over_zeros(&self, memory: usize) -> Option<u32> {
        let mut other = self.desk.clone();
        let ran = other.run(&mut vec![0; memory], 1);
        (ran.units == 1).then(|| other.read(ERROR_CODE).1)
    }
}

/// Writes what a run has changed elsewhere.
fn take_over(memory: &mut [u8], before: &[u8], after: &[u8]) {
    for (byte, (before, after)) in memory.iter_mut().zip(before.iter().zip(after)) {
        if before != after {
            *byte = *after;
        }
    }
}

/// Changes the packet that bytes begin with, if it is one of those that are taken for something else.
type Misreading = fn(&mut [u8]);

fn misreading(fault: u8) -> Option<Misreading> {
    match fault {
        TAKES_MINUS_ZERO_FOR_A_SIDE => Some(minus_zero_for_a_side),
        TAKES_WHAT_IS_NOT_A_NUMBER => Some(not_a_number_for_0),
        CLIPS_IN_U32 => Some(negative_for_large),
        LETS_TARGETS_OUTLIVE_HANDLES => Some(scissor_before_destroy),
        _ => None,
    }
}

const DESTROY: u32 = 258;
const TARGET: u32 = 1024;
const VIEWPORT: u32 = 1025;
const SCISSOR: u32 = 1026;
const CLEAR: u32 = 1536;

/// The word at a place; behind the end stands 0.
fn word(bytes: &[u8], at: usize) -> u32 {
    let word = bytes.get(at..).and_then(|rest| rest.get(..4));
    word.map_or(0, |word| u32::from_le_bytes(word.try_into().unwrap()))
}

fn put(bytes: &mut [u8], at: usize, value: u32) {
    if let Some(place) = bytes.get_mut(at..).and_then(|rest| rest.get_mut(..4)) {
        place.copy_from_slice(&value.to_le_bytes());
    }
}

/// Width and height of a viewport.
fn minus_zero_for_a_side(bytes: &mut [u8]) {
    for at in [16, 20] {
        if word(bytes, 0) == VIEWPORT && word(bytes, at) == (-0.0f32).to_bits() {
            put(bytes, at, 1.0f32.to_bits());
        }
    }
}

/// A clear's colour: what is no number compares with nothing, so no rule seems to be broken.
fn not_a_number_for_0(bytes: &mut [u8]) {
    for at in [12, 16, 20, 24] {
        if word(bytes, 0) == CLEAR && f32::from_bits(word(bytes, at)).is_nan() {
            put(bytes, at, 0);
        }
    }
}

/// A scissor's corner: taken for a u32, a negative one lies behind every target.
fn negative_for_large(bytes: &mut [u8]) {
    for at in [8, 12] {
        if word(bytes, 0) == SCISSOR && (word(bytes, at) as i32) < 0 {
            put(bytes, at, i32::MAX as u32);
        }
    }
}

/// A target that is destroyed at once, and a good scissor behind that: the two change places, and the target is there still.
fn scissor_before_destroy(bytes: &mut [u8]) {
    let destroy = word(bytes, 4) as usize;
    if word(bytes, 0) != TARGET || word(bytes, destroy) != DESTROY {
        return;
    }
    let size = word(bytes, destroy + 4) as usize;
    let scissor = destroy + size;
    let end = scissor + word(bytes, scissor + 4) as usize;
    let good = [16, 20].map(|side| word(bytes, scissor + side) as i32 >= 0);
    let same = word(bytes, 8) == word(bytes, destroy + 8);
    if word(bytes, scissor) == SCISSOR && same && good == [true; 2] {
        if let Some(both) = bytes.get_mut(destroy..end) {
            both.rotate_left(size);
        }
    }
}

impl<const FAULT: u8> Front for Wrong<FAULT> {
    const NAME: &'static str = "wrong";

    fn made_for(memory: usize) -> Self {
        Wrong {
            desk: plain::Desk::new(memory),
            found: None,
            detail: 0,
        }
    }

    fn write(&mut self, offset: u32, value: u32) -> u32 {
        if FAULT == RESETS_PLACES && offset == CONTROL && value & CONTROL_RESET != 0 {
            self.detail = 0;
        }
        self.desk.write(offset, value)
    }

    fn read(&self, offset: u32) -> (u32, u32) {
        match offset {
            ERROR_DETAIL => (0, self.detail),
            _ => self.desk.read(offset),
        }
    }

    fn run(&mut self, memory: &mut [u8], allowance: u16) -> Ran {
        self.call(|wrong| wrong.run_in_its_way(memory, allowance))
    }

    fn record(&self, i: u32) -> (u32, Record) {
        match self.desk.record(i) {
            (0, record) if FAULT == FORGETS_WRITES && record.kind == 3 => (4, Record::default()),
            _ if FAULT == FORGETS_EMPTY_CLIPS => self.record_that_is_not_empty(i),
            told => told,
        }
    }

    fn answer(&mut self, memory: &mut [u8], good: bool, allowance: u16) -> Ran {
        self.call(|wrong| wrong.answer_in_its_way(memory, good, allowance))
    }

    fn save(&self, form: Form, buffer: &mut [u8]) -> (u32, usize) {
        Front::save(&self.desk, form, buffer)
    }

    fn load(&mut self, file: &[u8]) -> (u32, usize) {
        let said = self.desk.load(file);
        if said.0 == 0 {
            (self.found, self.detail) = (None, self.desk.read(ERROR_DETAIL).1);
        }
        said
    }

    fn names(&self) -> Vec<(u32, u32)> {
        self.desk.names()
    }

    fn tokens(&self) -> Vec<(u64, u32)> {
        self.desk.tokens()
    }

    fn packed_size(shape: Shape) -> u64 {
        plain::Desk::packed_size(shape)
    }

    fn table_error(table: &[u8], memory: u64) -> u32 {
        plain::Desk::table_error(table, memory)
    }

    fn table_place(table: &[u8], memory: u64) -> u32 {
        plain::Desk::table_place(table, memory)
    }

    fn move_form(file: &[u8], buffer: &mut [u8]) -> (u32, usize) {
        plain::move_form(file, buffer)
    }
}

/// Gives what is told of the first desk that shows it.
fn is_told_apart<const FAULT: u8>() -> String {
    told_of::<Wrong<FAULT>>(FAULT.into())
}

fn is_told_by_the_detail<const FAULT: u8>() {
    let told = is_told_apart::<FAULT>();
    assert!(told.contains("register 320"), "{}", told);
}

/// An answer is what the fronts part at, by what it says.
fn is_told_by_an_answer<const FAULT: u8>() {
    let told = is_told_apart::<FAULT>();
    assert!(told.contains(", Answer { "), "{}", told);
    assert!(told.contains("what the call said"), "{}", told);
}

#[test]
fn a_front_that_does_nothing_is_told_apart() {
    is_told_apart::<DOES_NOTHING>();
}

#[test]
fn a_front_that_invents_units_is_told_apart() {
    is_told_apart::<INVENTS_UNITS>();
}

#[test]
fn a_front_that_takes_every_answer_as_good_is_told_apart() {
    is_told_apart::<ANSWERS_ALIKE>();
}

#[test]
fn a_front_that_forgets_writes_is_told_apart() {
    is_told_apart::<FORGETS_WRITES>();
}

#[test]
fn a_front_that_touches_memory_is_told_apart() {
    is_told_apart::<TOUCHES_MEMORY>();
}

#[test]
fn a_front_that_panics_is_told_apart() {
    is_told_apart::<PANICS>();
}

#[test]
fn a_front_that_reads_all_entries_at_the_first_is_told_apart() {
    is_told_apart::<READS_ALL_AT_OPENING>();
}

/// So it is what was read too early that tells it apart: where every run goes on to its end, no byte changes between two entries.
#[test]
fn a_front_that_reads_all_entries_at_the_first_is_right_over_still_memory() {
    for seed in 0..40 {
        let mut drawn = draw(seed);
        for operation in &mut drawn.operations {
            match operation {
                Operation::Run { allowance }
                | Operation::RunElsewhere { allowance, .. }
                | Operation::Answer { allowance, .. }
                | Operation::AnswerElsewhere { allowance, .. } => *allowance = u16::MAX,
                _ => {}
            }
        }
        let played = play::<plain::Desk, Wrong<READS_ALL_AT_OPENING>>(
            drawn.memory,
            &drawn.operations,
            |_, _, _| {},
        );
        if let Err(difference) = played {
            panic!("desk of seed {}: {:?}", seed, difference);
        }
    }
}

#[test]
fn a_front_that_counts_packets_from_the_first_is_told_apart() {
    is_told_by_the_detail::<COUNTS_FROM_THE_FIRST_PACKET>();
}

#[test]
fn a_front_that_counts_entries_from_1_is_told_apart() {
    is_told_by_the_detail::<COUNTS_ENTRIES_FROM_1>();
}

#[test]
fn a_front_that_keeps_the_place_of_an_older_error_is_told_apart() {
    is_told_by_the_detail::<KEEPS_OLD_PLACES>();
}

#[test]
fn a_front_that_forgets_a_place_at_reset_is_told_apart() {
    is_told_by_the_detail::<RESETS_PLACES>();
}

/// What it says is right; it is what it did that shows.
#[test]
fn a_front_that_runs_though_its_answer_is_refused_is_told_apart() {
    is_told_apart::<RUNS_THOUGH_REFUSED>();
}

#[test]
fn a_front_that_answers_and_does_not_run_is_told_apart() {
    is_told_by_an_answer::<ANSWERS_AND_STOPS>();
}

#[test]
fn a_front_that_runs_before_it_answers_is_told_apart() {
    is_told_by_an_answer::<RUNS_BEFORE_IT_ANSWERS>();
}

#[test]
fn a_front_that_spends_a_unit_on_settling_is_told_apart() {
    is_told_by_an_answer::<SETTLES_FOR_A_UNIT>();
}

#[test]
fn a_front_that_says_idle_beside_every_answer_is_told_apart() {
    is_told_by_an_answer::<SAYS_IDLE>();
}

/// A record is what the fronts part at.
fn is_told_by_a_record<const FAULT: u8>() {
    let told = is_told_apart::<FAULT>();
    assert!(told.contains("\n  record "), "{}", told);
}

/// The wrong front goes on where the other refuses, with 30.
fn is_told_by_a_refusal<const FAULT: u8>() {
    let told = is_told_apart::<FAULT>();
    assert!(!told.contains("\n  record "), "{}", told);
}

#[test]
fn a_front_that_takes_minus_0_for_a_side_is_told_apart() {
    is_told_by_a_refusal::<TAKES_MINUS_ZERO_FOR_A_SIDE>();
}

#[test]
fn a_front_that_takes_a_colour_that_is_not_a_number_is_told_apart() {
    is_told_by_a_refusal::<TAKES_WHAT_IS_NOT_A_NUMBER>();
}

#[test]
fn a_front_that_clips_in_u32_is_told_apart() {
    is_told_by_a_record::<CLIPS_IN_U32>();
}

#[test]
fn a_front_whose_target_outlives_its_handle_is_told_apart() {
    is_told_by_a_refusal::<LETS_TARGETS_OUTLIVE_HANDLES>();
}

#[test]
fn a_front_without_records_of_empty_clips_is_told_apart() {
    is_told_by_a_record::<FORGETS_EMPTY_CLIPS>();
}
