//! Fronts that are wrong about form 2, or about the move between the forms, in one way are told apart.

mod told_apart;

use compare::files::{field, File, Kind, TEXTURE};
use compare::front::{Front, Ran, Record};
use compare::shape::Shape;
use told_apart::{told_of, told_of_files};
use zelezmut::{FileField, FileLayout, Form, NameField, TokenField};

const TAKES_A_NAME_OF_A_NAME: u8 = 0;
const TAKES_A_TOKEN_ON_TWO_MIPS: u8 = 1;
const MOVES_A_SPENT_TOKEN_BACK: u8 = 2;
const MOVES_WITHOUT_THE_NUMBER: u8 = 3;
const LOSES_THE_DETAIL: u8 = 4;
const SAVES_FORM_2_WITHOUT_ITS_NUMBER: u8 = 5;
const COUNTS_NAMES_WITHOUT_THE_OTHERS: u8 = 6;
const SAVES_FORM_1_WITHOUT_ITS_NUMBER: u8 = 7;
const TELLS_TOKENS_AT_THE_LOW_HALF: u8 = 8;
const COUNTS_PLACES_BEHIND_THE_NUMBER: u8 = 9;
const FORGETS_SPENT_TOKENS: u8 = 10;
const SAYS_SHORT_BEFORE_FORM_OF_A_MOVE: u8 = 11;
const COMPARES_TOKENS_BY_THEIR_LOW_HALVES: u8 = 12;
const REFUSES_OLD_FILES: u8 = 13;

const DONE: u32 = 0;
const TOO_SHORT: u32 = 6;
const BAD_FILE: u32 = 7;
const NOT_IN_FORM: u32 = 8;

/// The plain program with one fault.
struct Wrong<const FAULT: u8> {
    desk: plain::Desk,
}

/// What a front with this fault takes a bad file of form 2 for; none if that is bad too.
fn misread(fault: u8, bytes: &[u8], place: usize) -> Option<File> {
    let mut file = File::read(bytes);
    let field = FileLayout::of(bytes).field(place)?;
    match (fault, field) {
        (
            TAKES_A_NAME_OF_A_NAME,
            FileField::Name {
                index,
                field: NameField::Lowest,
            },
        ) => {
            let name = file.names.get(index)?[1];
            let pair = file.names.iter().find(|pair| pair[0] == name)?;
            file.names[index][1] = pair[1];
        }
        (
            TAKES_A_TOKEN_ON_TWO_MIPS,
            FileField::Token {
                index,
                field: TokenField::Name,
            },
        ) => {
            let name = file.tokens.get(index)?[2];
            let mut rows = file.rows.iter();
            let row = rows.find(|row| row[field::HANDLE] == name)?;
            if row[field::KIND] != TEXTURE || row[field::MIPS] != 2 {
                return None;
            }
            file.tokens[index][2] = 0;
        }
        (COUNTS_NAMES_WITHOUT_THE_OTHERS, FileField::NameCount) => {
            // As many of them as there is room for.
            file.names.truncate(64 - file.rows.len());
            file.names_said = file.names.len() as u32;
        }
        _ => return None,
    }
    Some(file)
}

/// The place that a front with this fault tells of a bad file.
fn told_place(fault: u8, bytes: &[u8], place: usize) -> usize {
    let high = |field| {
        matches!(
            field,
            FileField::Token {
                field: TokenField::Hi,
                ..
            }
        )
    };
    let field = FileLayout::of(bytes).field(place);
    match fault {
        TELLS_TOKENS_AT_THE_LOW_HALF if field.map_or(false, high) && place + 4 <= bytes.len() => {
            place - 4
        }
        COUNTS_PLACES_BEHIND_THE_NUMBER if Kind::of(bytes) != Kind::Old => place - 4,
        _ => place,
    }
}

/// Whether of two tokens the later one has the lower low half.
fn low_halves_fall(file: &File) -> bool {
    let low: Vec<u32> = file.tokens.iter().map(|token| token[0]).collect();
    low.windows(2).any(|pair| pair[1] <= pair[0])
}

/// A good file as a front with this fault takes it; none if it refuses it.
fn taken(fault: u8, bytes: &[u8]) -> Option<Vec<u8>> {
    let mut file = File::read(bytes);
    match fault {
        LOSES_THE_DETAIL => file.detail = 0,
        FORGETS_SPENT_TOKENS => {
            let bound = file.tokens.iter().filter(|token| token[2] != 0);
            let bound = bound.copied().collect();
            file.set_tokens(bound);
        }
        COMPARES_TOKENS_BY_THEIR_LOW_HALVES if low_halves_fall(&file) => return None,
        REFUSES_OLD_FILES if file.kind == Kind::Old => return None,
        _ => {}
    }
    Some(file.bytes())
}

impl<const FAULT: u8> Wrong<FAULT> {
    fn load_in_its_way(&mut self, bytes: &[u8]) -> (u32, usize) {
        match plain::Desk::new(0).load(bytes) {
            (DONE, _) => match taken(FAULT, bytes) {
                Some(taken) => self.desk.load(&taken),
                None => (BAD_FILE, 0),
            },
            (answer, place) => {
                let misread = misread(FAULT, bytes, place);
                let loaded = misread.map(|file| self.desk.load(&file.bytes()));
                match loaded {
                    Some((DONE, _)) => (DONE, 0),
                    _ => (answer, told_place(FAULT, bytes, place)),
                }
            }
        }
    }
}

/// The file that was written, without the number that it began with.
fn without_number(buffer: &mut [u8], (answer, length): (u32, usize)) -> (u32, usize) {
    if answer != DONE {
        return (answer, length);
    }
    buffer.copy_within(4..length, 0);
    (DONE, length - 4)
}

/// A file of form 2 without its tokens, if all of them are spent.
fn without_spent_tokens(bytes: &[u8]) -> Option<Vec<u8>> {
    let mut file = File::read(bytes);
    if file.tokens.iter().any(|token| token[2] != 0) {
        return None;
    }
    file.set_tokens(Vec::new());
    Some(file.bytes())
}

impl<const FAULT: u8> Front for Wrong<FAULT> {
    const NAME: &'static str = "wrong";

    fn made_for(memory: usize) -> Self {
        Wrong {
            desk: plain::Desk::new(memory),
        }
    }

    fn write(&mut self, offset: u32, value: u32) -> u32 {
        self.desk.write(offset, value)
    }

    fn read(&self, offset: u32) -> (u32, u32) {
        self.desk.read(offset)
    }

    fn run(&mut self, memory: &mut [u8], allowance: u16) -> Ran {
        self.desk.run(memory, allowance)
    }

    fn record(&self, i: u32) -> (u32, Record) {
        self.desk.record(i)
    }

    fn answer(&mut self, memory: &mut [u8], good: bool, allowance: u16) -> Ran {
        self.desk.answer(memory, good, allowance)
    }

    fn save(&self, form: Form, buffer: &mut [u8]) -> (u32, usize) {
        let said = Front::save(&self.desk, form, buffer);
        match (FAULT, form) {
            (SAVES_FORM_1_WITHOUT_ITS_NUMBER, Form::One)
            | (SAVES_FORM_2_WITHOUT_ITS_NUMBER, Form::Two) => without_number(buffer, said),
            _ => said,
        }
    }

    fn load(&mut self, file: &[u8]) -> (u32, usize) {
        self.load_in_its_way(file)
    }

    fn names(&self) -> Vec<(u32, u32)> {
        self.desk.names()
    }

    fn tokens(&self) -> Vec<(u64, u32)> {
        self.desk.tokens()
    }

    fn packed_size(shape: Shape) -> u64 {
        plain::Desk::packed_size(shape)
    }

    fn table_error(table: &[u8], memory: u64) -> u32 {
        plain::Desk::table_error(table, memory)
    }

    fn table_place(table: &[u8], memory: u64) -> u32 {
        plain::Desk::table_place(table, memory)
    }

    fn move_form(file: &[u8], buffer: &mut [u8]) -> (u32, usize) {
        match (plain::move_form(file, buffer), FAULT) {
            ((NOT_IN_FORM, _), MOVES_A_SPENT_TOKEN_BACK) => match without_spent_tokens(file) {
                Some(taken) => plain::move_form(&taken, buffer),
                None => (NOT_IN_FORM, 0),
            },
            ((NOT_IN_FORM, _), SAYS_SHORT_BEFORE_FORM_OF_A_MOVE) if buffer.len() < 96 => {
                (TOO_SHORT, 0)
            }
            (said, MOVES_WITHOUT_THE_NUMBER) => without_number(buffer, said),
            (said, _) => said,
        }
    }
}

/// In desks that play, save and load.
fn is_told<const FAULT: u8>() -> String {
    told_of::<Wrong<FAULT>>(300 + u64::from(FAULT))
}

/// In nights that do little else than load, by what the load said.
fn is_told_at_a_load<const FAULT: u8>() {
    let told = told_of_files::<Wrong<FAULT>>(300 + u64::from(FAULT));
    assert!(told.contains("Load {"), "{}", told);
}

/// By what the move said.
fn is_told_at_a_move<const FAULT: u8>() {
    let told = told_of_files::<Wrong<FAULT>>(300 + u64::from(FAULT));
    assert!(told.contains("Move {"), "{}", told);
}

#[test]
fn a_front_that_takes_another_name_for_a_lowest_one_is_told_apart() {
    is_told_at_a_load::<TAKES_A_NAME_OF_A_NAME>();
}

#[test]
fn a_front_that_takes_a_token_on_a_texture_of_two_mips_is_told_apart() {
    is_told_at_a_load::<TAKES_A_TOKEN_ON_TWO_MIPS>();
}

#[test]
fn a_front_that_counts_names_without_the_others_is_told_apart() {
    is_told_at_a_load::<COUNTS_NAMES_WITHOUT_THE_OTHERS>();
}

#[test]
fn a_front_that_tells_a_token_at_its_low_half_is_told_apart() {
    is_told_at_a_load::<TELLS_TOKENS_AT_THE_LOW_HALF>();
}

#[test]
fn a_front_that_counts_places_behind_the_number_is_told_apart() {
    is_told_at_a_load::<COUNTS_PLACES_BEHIND_THE_NUMBER>();
}

#[test]
fn a_front_that_compares_tokens_by_their_low_halves_is_told_apart() {
    is_told_at_a_load::<COMPARES_TOKENS_BY_THEIR_LOW_HALVES>();
}

#[test]
fn a_front_that_refuses_old_files_is_told_apart() {
    is_told_at_a_load::<REFUSES_OLD_FILES>();
}

#[test]
fn a_front_that_moves_a_spent_token_back_is_told_apart() {
    is_told_at_a_move::<MOVES_A_SPENT_TOKEN_BACK>();
}

#[test]
fn a_front_that_forgets_the_number_of_a_moved_file_is_told_apart() {
    is_told_at_a_move::<MOVES_WITHOUT_THE_NUMBER>();
}

#[test]
fn a_front_that_says_6_before_8_of_a_move_is_told_apart() {
    is_told_at_a_move::<SAYS_SHORT_BEFORE_FORM_OF_A_MOVE>();
}

#[test]
fn a_front_that_loses_the_detail_is_told_apart() {
    is_told::<LOSES_THE_DETAIL>();
}

#[test]
fn a_front_that_forgets_spent_tokens_is_told_apart() {
    is_told::<FORGETS_SPENT_TOKENS>();
}

#[test]
fn a_front_that_saves_form_1_without_its_number_is_told_apart() {
    is_told::<SAVES_FORM_1_WITHOUT_ITS_NUMBER>();
}

#[test]
fn a_front_that_saves_form_2_without_its_number_is_told_apart() {
    is_told::<SAVES_FORM_2_WITHOUT_ITS_NUMBER>();
}
