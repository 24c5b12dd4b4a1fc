//! Random numbers for tests, and states of them.
use crate::front;
use crate::state::{word, State};

/// Numbers of few bits and of many, the same in every run.
pub(crate) struct Numbers(pub(crate) u64);

impl Numbers {
    pub(crate) fn next(&mut self) -> u64 {
        self.0 ^= self.0 << 13;
        self.0 ^= self.0 >> 7;
        self.0 ^= self.0 << 17;
        self.0 >> [0, 32, 52, 56, 62, 62, 62, 62][(self.0 % 8) as usize]
    }

    /// Any words but the first, which is the memory's length: with another one nothing would run.
    pub(crate) fn state(&mut self, memory: usize) -> Box<State> {
        let mut state = front::make(0);
        let words = state.words.iter_mut();
        let tables = state.entries.iter_mut().chain(&mut state.records);
        let resources = state.first.iter_mut().chain(&mut state.second);
        let tokens = state
            .first_tokens
            .iter_mut()
            .chain(&mut state.second_tokens);
        for word in words.chain(tables).chain(resources).chain(tokens) {
            *word = self.next();
        }
        state.words[word::MEMORY] = memory as u64;
        state
    }

    /// A memory of any bytes.
    pub(crate) fn memory(&mut self, length: usize) -> Vec<u8> {
        (0..length).map(|_| self.next() as u8).collect()
    }
}
