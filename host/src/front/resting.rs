//! What is not in work is 0: a made device's words are the same for the same state, but for the two that say which tables are its own.
use super::fuzz::submission;
use super::*;
use crate::guest;
use crate::numbers::Numbers;
use crate::registers;
use crate::saved::LONGEST_SAVED_DESK;
use crate::state::{word, ENTRIES, NOTHING, PACKETS};

const MEMORY: usize = 4096;

/// Whether a word says something where this is in work.
fn says_something(tag: u64, i: usize) -> bool {
    match i {
        word::JOB_RING..=word::JOB_SILENT | word::KEPT => tag != NOTHING,
        word::TABLE_GPA..=word::TABLE_STRIDE => tag == ENTRIES,
        word::STREAM_GPA | word::STREAM_SIZE => tag == ENTRIES || tag == PACKETS,
        word::PLACE => tag == PACKETS,
        word::HELD | word::MADE | word::COPIED | word::TARGET => tag != NOTHING && tag != ENTRIES,
        word::HELD_TOKENS | word::TOKENS_COPIED => tag != NOTHING && tag != ENTRIES,
        _ => true,
    }
}

fn nothing_is_left_over(state: &State) {
    let tag = state.words[word::TAG];
    for (i, &word) in state.words.iter().enumerate() {
        assert!(
            says_something(tag, i) || word == 0,
            "word {} is {}, tag {}",
            i,
            word,
            tag
        );
    }
}

/// A device with a submission to open, and the memory where it lies; a few bytes of it are not what they were.
fn begun(numbers: &mut Numbers) -> (Box<State>, Vec<u8>) {
    let mut memory = vec![0; MEMORY];
    submission(&mut memory);
    for _ in 0..numbers.next() % 3 {
        memory[numbers.next() as usize % 2048] = numbers.next() as u8;
    }
    let mut state = make(MEMORY as u64);
    nothing_is_left_over(&state);
    write(&mut state, registers::RING_SIZE, guest::ring_size(1));
    write(&mut state, registers::CONTROL, registers::CONTROL_ENABLE);
    write(&mut state, registers::DOORBELL, 1);
    (state, memory)
}

/// Runs in slices of any length until nothing is left to do; what waits gets this answer.
fn rest(state: &mut State, memory: &mut [u8], good: bool, slices: &mut Numbers) {
    for _ in 0..1_000 {
        let allowance = 1 + (slices.next() % 6) as u16;
        let (_, ended, _) = run(state, memory, allowance);
        nothing_is_left_over(state);
        match ended {
            0 => return,
            1 => drop(answer(state, memory, good, allowance - 1)),
            _ => (),
        }
        nothing_is_left_over(state);
    }
    panic!("it never rests");
}

#[test]
fn at_rest_the_words_are_the_same_however_it_was_sliced() {
    let mut numbers = Numbers(7);
    for round in 0..400 {
        let (mut one, mut memory) = begun(&mut numbers);
        let (mut other, mut same) = (one.clone(), memory.clone());
        let good = numbers.next() % 2 == 0;
        rest(&mut one, &mut memory, good, &mut Numbers(2 * round + 1));
        rest(&mut other, &mut same, good, &mut Numbers(3 * round + 2));
        assert!(memory == same);
        for side in [word::SIDE, word::TOKEN_SIDE] {
            other.words[side] = one.words[side];
        }
        assert_eq!(one.words, other.words);
    }
}

#[test]
fn a_reset_leaves_nothing_of_the_work() {
    let mut numbers = Numbers(9);
    for units in 0..400 {
        let (mut state, mut memory) = begun(&mut numbers);
        run(&mut state, &mut memory, units % 24);
        write(&mut state, registers::CONTROL, registers::CONTROL_RESET);
        assert_eq!(state.words[word::TAG], NOTHING);
        nothing_is_left_over(&state);
    }
}

/// Of what was in work before a load, too.
#[test]
fn a_load_leaves_nothing_of_the_work() {
    let mut numbers = Numbers(14);
    for form in Form::ALL {
        let mut file = vec![0; LONGEST_SAVED_DESK];
        let (answer, length) = save(&make(7), form, &mut file);
        assert_eq!(answer, 0);
        for units in 0..100 {
            let (mut state, mut memory) = begun(&mut numbers);
            run(&mut state, &mut memory, units % 24);
            assert_eq!(load(&mut state, &file[..length as usize]), (0, 0));
            nothing_is_left_over(&state);
            assert!(*state == *make(7));
        }
    }
}
