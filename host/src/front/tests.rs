//! What the boundary rests on, tried: states of any words, and what the calls say of them.
use super::*;
use crate::guest::{self, Entry};
use crate::numbers::Numbers;
use crate::registers;
use std::mem::size_of;

const MEMORY: usize = 4096;
const BESIDE: usize = 64;
const UNTOUCHED: u8 = 0xA5;

#[test]
fn the_state_takes_at_most_25_500_bytes() {
    assert!(size_of::<State>() <= 25_500);
}

/// The number has 12 bits for each length: none may run into the next.
#[test]
fn the_layout_is_the_librarys() {
    let lengths = [
        size_of::<Words>(),
        size_of::<Entries>(),
        size_of::<Resources>(),
        size_of::<Tokens>(),
        size_of::<Records>(),
    ];
    let told = [48, 36, 24, 12, 0].map(|at| (LAYOUT >> at) as usize % 4096);
    assert_eq!(told.map(|words| 8 * words), lengths);
    // SAFETY: it takes nothing, and gives a number.
    assert_eq!(unsafe { library::zelezmut_layout() }, LAYOUT);
}

/// Entries that a memory of 64 bytes has room for, with ids from 1.
pub(super) fn entries(count: u32) -> Vec<Entry> {
    let entry = |id| Entry {
        id,
        gpa: 0,
        size: 64,
        read_only: false,
    };
    (1..=count).map(entry).collect()
}

fn error_and_place(table: &[u8]) -> (u32, u32) {
    (table_error(table, 64), table_place(table, 64))
}

#[test]
fn a_table_breaks_at_an_entry_or_nowhere() {
    let good = guest::table(&entries(64));
    assert_eq!(error_and_place(&good), (0, 0));
    assert_eq!(error_and_place(&good[..good.len() - 1]), (13, 0));
    assert_eq!(error_and_place(&guest::table(&entries(65))), (19, 0));
    for (index, at) in (0..64).zip(0..) {
        let mut bad = entries(64);
        bad[index].size = 65;
        assert_eq!(error_and_place(&guest::table(&bad)), (14, at));
        let mut twice = entries(64);
        twice[index].id = 1;
        let expected = if index == 0 { (0, 0) } else { (15, at) };
        assert_eq!(error_and_place(&guest::table(&twice)), expected);
    }
}

/// Any words are some device's, and no call leaves the memory that it is lent.
#[test]
fn calls_return_whatever_the_state_is() {
    let mut numbers = Numbers(1);
    let mut bytes = [UNTOUCHED; BESIDE + MEMORY + BESIDE];
    for _ in 0..5_000 {
        let mut state = numbers.state(MEMORY);
        let memory = &mut bytes[BESIDE..][..MEMORY];
        memory.fill_with(|| numbers.next() as u8);
        let [offset, value, i] = [(); 3].map(|()| numbers.next() as u32);
        assert!([0, 2].contains(&read(&state, offset).0));
        assert!([0, 4].contains(&record(&state, i).0));
        let form = Form::ALL[value as usize % 2];
        assert!([0, 5, 6, 8].contains(&save(&state, form, memory).0));
        let allowance = numbers.next() as u16;
        let (done, ended, units) = run(&mut state, memory, allowance);
        assert!(done == 0 && ended <= 2 && units <= allowance);
        let (done, ended, units) = answer(&mut state, memory, value % 2 == 0, allowance);
        assert!(match done {
            0 => ended <= 2 && units <= allowance,
            _ => (done, ended, units) == (3, 0, 0),
        });
        assert!([0, 2].contains(&write(&mut state, offset, value)));
        let beside = bytes[..BESIDE].iter().chain(&bytes[BESIDE + MEMORY..]);
        assert!(beside.copied().all(|byte| byte == UNTOUCHED));
    }
}

/// The words that say what waits, held against what the calls say of it.
#[test]
fn the_words_that_are_read_are_what_the_calls_say() {
    let mut numbers = Numbers(3);
    let mut memory = vec![0; MEMORY];
    let (mut waited, mut rested) = (0, 0);
    for _ in 0..2_000 {
        let mut state = numbers.state(MEMORY);
        assert_eq!(state.memory(), MEMORY as u64);
        let (fence, made) = state.waiting();
        let records = if state.waits() { made } else { 0 };
        for i in (0..=64).chain([u32::MAX]) {
            assert_eq!(record(&state, i).0 == 0, i < records);
        }
        let waiting_before = state.waits();
        let (done, _, _) = answer(&mut state, &mut memory, false, 0);
        assert_eq!(done == 0, waiting_before);
        assert!(!state.waits());
        if done == 0 {
            let low = read(&state, registers::ERROR_FENCE_LO).1;
            let high = read(&state, registers::ERROR_FENCE_HI).1;
            assert_eq!(u64::from(high) << 32 | u64::from(low), fence);
            waited += 1;
        } else {
            rested += 1;
        }
    }
    assert!(waited > 100 && rested > 100, "{} {}", waited, rested);
}

/// All that a device keeps.
fn words(state: &State) -> Vec<u64> {
    let State {
        words,
        entries,
        first,
        second,
        first_tokens,
        second_tokens,
        records,
    } = state;
    let resources = [&first[..], second].concat();
    let tokens = [&first_tokens[..], second_tokens].concat();
    [&words[..], entries, &resources, &tokens, records].concat()
}

/// An answer on one device; on an equal one the answer alone, and the run alone unless that was refused.
#[test]
fn an_answer_that_carries_on_is_an_answer_and_a_run() {
    let mut numbers = Numbers(2);
    let (mut taken, mut refused) = (0, 0);
    for _ in 0..5_000 {
        let mut joined = numbers.state(MEMORY);
        let mut memory = numbers.memory(MEMORY);
        let mut apart = joined.clone();
        let mut beside = memory.clone();
        let (good, allowance) = (numbers.next() % 2 == 0, numbers.next() as u16);
        let said = answer(&mut joined, &mut memory, good, allowance);
        let mut expected = answer(&mut apart, &mut beside, good, 0);
        if expected.0 == 0 {
            assert_eq!(expected.2, 0);
            expected = run(&mut apart, &mut beside, allowance);
            taken += 1;
        } else {
            assert_eq!(expected, (3, 0, 0));
            refused += 1;
        }
        assert_eq!(said, expected);
        assert_eq!(memory, beside);
        assert_eq!(words(&joined), words(&apart));
    }
    assert!(taken > 100 && refused > 100, "{} {}", taken, refused);
}
