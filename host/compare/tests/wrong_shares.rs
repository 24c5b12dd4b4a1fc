//! Fronts that are wrong about names and tokens in one way are told apart. What they list is right; what they do shows it.

mod told_apart;

use compare::front::{Front, Ran, Record};
use compare::shape::Shape;
use std::collections::BTreeSet;
use std::mem;
use told_apart::told_of;
use zelezmut::registers::{CONTROL, CONTROL_RESET, ERROR_CODE, ERROR_COUNT};
use zelezmut::Form;

const ENDS_ALL_NAMES_WITH_ONE: u8 = 0;
const LEAVES_TOKENS_BOUND_TO_NOTHING: u8 = 1;
const KEEPS_TOKENS_OF_FAILED_SUBMISSIONS: u8 = 2;
const KEEPS_TOKENS_OVER_RESETS: u8 = 3;
const COUNTS_RESOURCES: u8 = 4;
const JUDGES_TOKENS_BEFORE_HANDLES: u8 = 5;
const BINDS_RELEASED_TOKENS: u8 = 6;
const REFUSES_THE_SAME_TOKEN_AGAIN: u8 = 7;
const LOOKS_AT_LOW_WORDS: u8 = 8;

const DESTROY: u32 = 258;
const DIRTY_RANGE: u32 = 259;
const TARGET: u32 = 1024;
const EXPORT: u32 = 1808;
const IMPORT: u32 = 1809;
const RELEASE: u32 = 1810;
const UNKNOWN: u32 = 1811;
const KNOWN: [u32; 12] = [
    256,
    257,
    DESTROY,
    DIRTY_RANGE,
    261,
    TARGET,
    1025,
    1026,
    1536,
    EXPORT,
    IMPORT,
    RELEASE,
];

/// Where these packets have their handle, and where an export, an import and a release have their token.
const HANDLE: usize = 8;
const TOKEN: usize = 16;
const RELEASED: usize = 8;

/// A handle that no desk is likely to use.
const FREE_HANDLE: u32 = 0xfedc_ba98;

const NO_ERROR: u32 = 0;
const BAD_HANDLE: u32 = 18;
const LIMIT: u32 = 19;
const TOKEN_TAKEN: u32 = 28;
const TOKEN_UNBOUND: u32 = 29;

/// What a unit comes to by the rules, and what by a front with this fault, if it takes a packet for another.
struct Fault {
    by_the_rules: u32,
    by_the_fault: u32,
}

const fn fault(fault: u8) -> Fault {
    let (by_the_rules, by_the_fault) = match fault {
        ENDS_ALL_NAMES_WITH_ONE => (NO_ERROR, BAD_HANDLE),
        LEAVES_TOKENS_BOUND_TO_NOTHING => (TOKEN_UNBOUND, NO_ERROR),
        COUNTS_RESOURCES => (LIMIT, NO_ERROR),
        JUDGES_TOKENS_BEFORE_HANDLES => (BAD_HANDLE, TOKEN_UNBOUND),
        BINDS_RELEASED_TOKENS => (TOKEN_TAKEN, NO_ERROR),
        _ => (NO_ERROR, TOKEN_TAKEN),
    };
    Fault {
        by_the_rules,
        by_the_fault,
    }
}

/// Whether a front with this fault must know what became of names and tokens before.
fn learns(fault: u8) -> bool {
    matches!(
        fault,
        ENDS_ALL_NAMES_WITH_ONE
            | LEAVES_TOKENS_BOUND_TO_NOTHING
            | BINDS_RELEASED_TOKENS
            | REFUSES_THE_SAME_TOKEN_AGAIN
    )
}

/// What a device lists.
#[derive(Clone, Default)]
struct Listed {
    names: Vec<(u32, u32)>,
    tokens: Vec<(u64, u32)>,
}

impl Listed {
    fn of(desk: &plain::Desk) -> Listed {
        Listed {
            names: desk.names(),
            tokens: desk.tokens(),
        }
    }

    fn names_beside(&self, lowest: u32) -> BTreeSet<u32> {
        let beside = self.names.iter().filter(|(_, first)| *first == lowest);
        beside.map(|(name, _)| *name).collect()
    }

    fn token(&self, token: u64) -> Option<u32> {
        let mut found = self.tokens.iter().filter(|(other, _)| *other == token);
        found.next().map(|(_, name)| *name)
    }

    /// Whether the token is bound to the resource with this name.
    fn binds(&self, token: u64, name: u32) -> bool {
        let found = self.names.iter().find(|(other, _)| *other == name);
        found.map_or(false, |(_, lowest)| self.token(token) == Some(*lowest))
    }
}

/// What a front with a fault has seen.
#[derive(Clone, Default)]
struct Seen {
    listed: Listed,
    /// The names and tokens that it takes for something else than they are.
    names: BTreeSet<u32>,
    tokens: BTreeSet<u64>,
}

impl Seen {
    /// A packet came to this, after which the fault may have more to be wrong about.
    fn learn(&mut self, fault: u8, after: Listed) {
        let before = mem::replace(&mut self.listed, after);
        for &(token, was) in before.tokens.iter().filter(|(_, was)| *was != 0) {
            let had = before.names_beside(was);
            match self.listed.token(token) {
                Some(0) => self.learn_spent(fault, token, &had),
                Some(is) if fault == ENDS_ALL_NAMES_WITH_ONE => {
                    let has = self.listed.names_beside(is);
                    if !had.is_subset(&has) {
                        self.names.extend(had.intersection(&has));
                    }
                }
                _ => {}
            }
        }
        let live = self.listed.names.iter().map(|(name, _)| *name).collect();
        self.names = self.names.intersection(&live).copied().collect();
    }

    /// A token is spent, whose resource had these names.
    fn learn_spent(&mut self, fault: u8, token: u64, had: &BTreeSet<u32>) {
        let mut names = self.listed.names.iter();
        let released = names.any(|(name, _)| had.contains(name));
        let learns = match fault {
            LEAVES_TOKENS_BOUND_TO_NOTHING => !released,
            BINDS_RELEASED_TOKENS => released,
            _ => false,
        };
        if learns {
            self.tokens.insert(token);
        }
    }
}

/// The plain program with one fault.
struct Wrong<const FAULT: u8> {
    desk: plain::Desk,
    /// What it had seen when the last submission settled, and by now.
    settled: Seen,
    now: Seen,
}

impl<const FAULT: u8> Wrong<FAULT> {
    fn answer_in_its_way(&mut self, memory: &mut [u8], good: bool, allowance: u16) -> Ran {
        let promised = if good {
            None
        } else {
            self.promised(memory, &places(memory))
        };
        let answered = self.desk.answer(memory, good, 0);
        if answered.answer != 0 {
            return answered;
        }
        if good {
            self.now.learn(FAULT, Listed::of(&self.desk));
            self.settled = self.now.clone();
        } else {
            self.come_to_nothing(promised);
        }
        self.run_in_its_way(memory, allowance)
    }

    /// A submission that would have led to this list has failed or was refused.
    fn come_to_nothing(&mut self, promised: Option<Listed>) {
        self.now = self.settled.clone();
        if FAULT == KEEPS_TOKENS_OF_FAILED_SUBMISSIONS {
            let before = Listed::of(&self.desk);
            let tokens = promised.into_iter().flat_map(|listed| listed.tokens);
            let new = tokens.filter(|(token, _)| before.token(*token).is_none());
            self.now.tokens.extend(new.map(|(token, _)| token));
            self.settled = self.now.clone();
        }
    }

    fn run_in_its_way(&mut self, memory: &mut [u8], allowance: u16) -> Ran {
        let places = places(memory);
        let shares = |at: &usize| (EXPORT..=RELEASE).contains(&word(&memory[*at..], 0));
        let shared = places.iter().any(shares) || !self.desk.tokens().is_empty();
        let may_learn = shared && learns(FAULT);
        if !may_learn && self.misread(memory, &places).is_none() {
            return self.run_as_it_should(memory, allowance);
        }
        let mut ran = self.desk.run(memory, 0);
        while ran.answer == 0 && ran.units < allowance {
            let unit = self.unit(memory, &places);
            ran.units += unit.units;
            ran.ended = unit.ended;
            if unit.units == 0 {
                break;
            }
        }
        ran
    }

    /// A run in which there is nothing to be wrong about, and nothing to learn.
    fn run_as_it_should(&mut self, memory: &mut [u8], allowance: u16) -> Ran {
        let before = self.desk.read(ERROR_COUNT);
        let ran = self.desk.run(memory, allowance);
        if self.desk.read(ERROR_COUNT) != before {
            self.come_to_nothing(None);
        }
        ran
    }

    fn unit(&mut self, memory: &mut [u8], places: &[usize]) -> Ran {
        let (ran, error) = self.unit_in_its_way(memory, places);
        if error != NO_ERROR {
            self.come_to_nothing(None);
        } else if learns(FAULT) {
            if let Some(promised) = self.promised(memory, places) {
                self.now.learn(FAULT, promised);
            }
        }
        ran
    }

    /// A unit as it should be; or over what this front takes the packets for, where that is what its fault is about.
    fn unit_in_its_way(&mut self, memory: &mut [u8], places: &[usize]) -> (Ran, u32) {
        let Fault {
            by_the_rules,
            by_the_fault,
        } = fault(FAULT);
        let (mut right, mut found) = (self.desk.clone(), memory.to_vec());
        let (ran, error) = unit_and_error(&mut right, &mut found);
        if error == by_the_rules {
            if let Some(misread) = self.misread(memory, places) {
                let (mut wrong, mut after) = (self.desk.clone(), misread.clone());
                let (ran, error) = unit_and_error(&mut wrong, &mut after);
                if error == by_the_fault {
                    self.desk = wrong;
                    take_over(memory, &misread, &after);
                    return (ran, error);
                }
            }
        }
        self.desk = right;
        memory.copy_from_slice(&found);
        (ran, error)
    }

    /// What the device would list if the rest of the stream were skipped and the host said good; none if there is nothing that comes
    /// to wait.
    fn promised(&self, memory: &[u8], places: &[usize]) -> Option<Listed> {
        let mut skipped = memory.to_vec();
        for &at in places {
            put(&mut skipped[at..], 0, UNKNOWN);
        }
        let mut desk = self.desk.clone();
        desk.run(&mut skipped, u16::MAX);
        let answered = desk.answer(&mut skipped, true, 0);
        (answered.answer == 0).then(|| Listed::of(&desk))
    }

    /// What a front with this fault takes the memory's packets for; none if they are what they are.
    fn misread(&self, memory: &[u8], places: &[usize]) -> Option<Vec<u8>> {
        let mut misread = memory.to_vec();
        for &at in places {
            self.misread_packet(&mut misread[at..]);
        }
        Some(misread).filter(|misread| misread != memory)
    }

    /// Changes the packet that bytes begin with, if it is one of those that are taken for something else.
    fn misread_packet(&self, bytes: &mut [u8]) {
        let (opcode, handle) = (word(bytes, 0), word(bytes, HANDLE));
        let token = match opcode {
            RELEASE => long(bytes, RELEASED),
            EXPORT | IMPORT => long(bytes, TOKEN),
            _ => 0,
        };
        let known = self.now.tokens.contains(&token);
        match (FAULT, opcode) {
            (ENDS_ALL_NAMES_WITH_ONE, DESTROY | DIRTY_RANGE | TARGET | EXPORT)
                if self.now.names.contains(&handle) =>
            {
                put(bytes, HANDLE, 0)
            }
            (LEAVES_TOKENS_BOUND_TO_NOTHING, IMPORT | RELEASE) if known => put(bytes, 0, UNKNOWN),
            (KEEPS_TOKENS_OF_FAILED_SUBMISSIONS | KEEPS_TOKENS_OVER_RESETS, EXPORT) if known => {
                put_token(bytes, 0)
            }
            (COUNTS_RESOURCES, IMPORT) => put(bytes, 0, UNKNOWN),
            (JUDGES_TOKENS_BEFORE_HANDLES, IMPORT) => put(bytes, HANDLE, FREE_HANDLE),
            (BINDS_RELEASED_TOKENS, EXPORT) if known => put(bytes, 0, UNKNOWN),
            (REFUSES_THE_SAME_TOKEN_AGAIN, EXPORT) if self.now.listed.binds(token, handle) => {
                put_token(bytes, 0)
            }
            (LOOKS_AT_LOW_WORDS, EXPORT) => put_token(bytes, token & u64::from(u32::MAX)),
            _ => {}
        }
    }
}

/// Where memory has what may be a known packet.
fn places(memory: &[u8]) -> Vec<usize> {
    let is_one = |bytes: &[u8]| KNOWN.contains(&word(bytes, 0)) && word(bytes, 4) % 4 == 0;
    (0..memory.len())
        .filter(|&at| is_one(&memory[at..]))
        .collect()
}

/// One unit, and the error that it ended with.
fn unit_and_error(desk: &mut plain::Desk, memory: &mut [u8]) -> (Ran, u32) {
    let before = desk.read(ERROR_COUNT);
    let ran = desk.run(memory, 1);
    let error = if desk.read(ERROR_COUNT) == before {
        NO_ERROR
    } else {
        desk.read(ERROR_CODE).1
    };
    (ran, error)
}

/// Writes what a unit has changed elsewhere.
fn take_over(memory: &mut [u8], before: &[u8], after: &[u8]) {
    for (byte, (before, after)) in memory.iter_mut().zip(before.iter().zip(after)) {
        if before != after {
            *byte = *after;
        }
    }
}

/// The word at a place; behind the end stands 0.
fn word(bytes: &[u8], at: usize) -> u32 {
    let word = bytes.get(at..).and_then(|rest| rest.get(..4));
    word.map_or(0, |word| u32::from_le_bytes(word.try_into().unwrap()))
}

fn long(bytes: &[u8], at: usize) -> u64 {
    u64::from(word(bytes, at)) | u64::from(word(bytes, at + 4)) << 32
}

fn put(bytes: &mut [u8], at: usize, value: u32) {
    if let Some(place) = bytes.get_mut(at..).and_then(|rest| rest.get_mut(..4)) {
        place.copy_from_slice(&value.to_le_bytes());
    }
}

/// An export's.
fn put_token(bytes: &mut [u8], token: u64) {
    put(bytes, TOKEN, token as u32);
    put(bytes, TOKEN + 4, (token >> 32) as u32);
}

impl<const FAULT: u8> Front for Wrong<FAULT> {
    const NAME: &'static str = "wrong";

    fn made_for(memory: usize) -> Self {
        Wrong {
            desk: plain::Desk::new(memory),
            settled: Seen::default(),
            now: Seen::default(),
        }
    }

    fn write(&mut self, offset: u32, value: u32) -> u32 {
        if offset == CONTROL && value & CONTROL_RESET != 0 {
            let mut tokens = mem::take(&mut self.settled).tokens;
            if FAULT == KEEPS_TOKENS_OVER_RESETS {
                tokens.extend(self.desk.tokens().into_iter().map(|(token, _)| token));
                self.settled.tokens = tokens;
            }
            self.now = self.settled.clone();
        }
        self.desk.write(offset, value)
    }

    fn read(&self, offset: u32) -> (u32, u32) {
        self.desk.read(offset)
    }

    fn run(&mut self, memory: &mut [u8], allowance: u16) -> Ran {
        self.run_in_its_way(memory, allowance)
    }

    fn record(&self, i: u32) -> (u32, Record) {
        self.desk.record(i)
    }

    fn answer(&mut self, memory: &mut [u8], good: bool, allowance: u16) -> Ran {
        self.answer_in_its_way(memory, good, allowance)
    }

    fn save(&self, form: Form, buffer: &mut [u8]) -> (u32, usize) {
        Front::save(&self.desk, form, buffer)
    }

    fn load(&mut self, file: &[u8]) -> (u32, usize) {
        let said = self.desk.load(file);
        if said.0 == 0 {
            let listed = Listed::of(&self.desk);
            let seen = Seen {
                listed,
                ..Seen::default()
            };
            (self.settled, self.now) = (seen.clone(), seen);
        }
        said
    }

    fn names(&self) -> Vec<(u32, u32)> {
        self.desk.names()
    }

    fn tokens(&self) -> Vec<(u64, u32)> {
        self.desk.tokens()
    }

    fn packed_size(shape: Shape) -> u64 {
        plain::Desk::packed_size(shape)
    }

    fn table_error(table: &[u8], memory: u64) -> u32 {
        plain::Desk::table_error(table, memory)
    }

    fn table_place(table: &[u8], memory: u64) -> u32 {
        plain::Desk::table_place(table, memory)
    }

    fn move_form(file: &[u8], buffer: &mut [u8]) -> (u32, usize) {
        plain::move_form(file, buffer)
    }
}

/// Not by what it lists.
fn is_told_by_what_it_does<const FAULT: u8>() {
    let told = told_of::<Wrong<FAULT>>(100 + u64::from(FAULT));
    let listed = told.contains("\n  the names") || told.contains("\n  the tokens");
    assert!(!listed, "{}", told);
}

#[test]
fn a_front_that_ends_all_names_with_one_is_told_apart() {
    is_told_by_what_it_does::<ENDS_ALL_NAMES_WITH_ONE>();
}

#[test]
fn a_front_that_leaves_a_token_bound_without_its_resource_is_told_apart() {
    is_told_by_what_it_does::<LEAVES_TOKENS_BOUND_TO_NOTHING>();
}

#[test]
fn a_front_that_keeps_the_tokens_of_a_failed_submission_is_told_apart() {
    is_told_by_what_it_does::<KEEPS_TOKENS_OF_FAILED_SUBMISSIONS>();
}

#[test]
fn a_front_that_keeps_tokens_over_a_reset_is_told_apart() {
    is_told_by_what_it_does::<KEEPS_TOKENS_OVER_RESETS>();
}

#[test]
fn a_front_whose_limit_counts_resources_is_told_apart() {
    is_told_by_what_it_does::<COUNTS_RESOURCES>();
}

#[test]
fn a_front_that_judges_a_token_before_the_handle_is_told_apart() {
    is_told_by_what_it_does::<JUDGES_TOKENS_BEFORE_HANDLES>();
}

#[test]
fn a_front_that_binds_a_released_token_again_is_told_apart() {
    is_told_by_what_it_does::<BINDS_RELEASED_TOKENS>();
}

#[test]
fn a_front_that_refuses_the_same_token_again_is_told_apart() {
    is_told_by_what_it_does::<REFUSES_THE_SAME_TOKEN_AGAIN>();
}

#[test]
fn a_front_that_looks_at_a_token_s_low_word_is_told_apart() {
    is_told_by_what_it_does::<LOOKS_AT_LOW_WORDS>();
}
