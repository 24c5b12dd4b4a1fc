//! The names and tokens of a submission being written: what they are, and the packets that change them.
//! A packet that breaks a rule changes nothing, as on the device.

use crate::draft::{Draft, Resource};
use crate::held::Token;
use crate::numbers::{MOST_NAMES, MOST_TOKENS};
use crate::packet;

impl Draft<'_> {
    /// For a resource that is made now.
    pub fn new_surface(&self) -> u64 {
        let live = self.live.iter().map(|resource| resource.surface);
        let bound = self.tokens.iter().map(|token| token.surface);
        live.chain(bound).max().unwrap_or(0) + 1
    }

    pub fn token(&self, number: u64) -> Option<Token> {
        self.tokens
            .iter()
            .copied()
            .find(|token| token.number == number)
    }

    /// All names of a resource, the lowest first.
    pub fn names_of(&self, surface: u64) -> Vec<u32> {
        let rows = self.live.iter().filter(|row| row.surface == surface);
        let mut names: Vec<u32> = rows.map(|row| row.handle).collect();
        names.sort_unstable();
        names
    }

    /// The live resource that a token is bound to, under any of its names.
    pub fn bound(&self, number: u64) -> Option<Resource> {
        let token = self.token(number).filter(|token| !token.released)?;
        let mut rows = self.live.iter().copied();
        rows.find(|row| row.surface == token.surface)
    }

    /// The tokens that can be imported.
    pub fn bound_tokens(&self) -> Vec<u64> {
        let numbers = self.tokens.iter().map(|token| token.number);
        numbers
            .filter(|&number| self.bound(number).is_some())
            .collect()
    }

    pub fn export(&mut self, handle: u32, number: u64) {
        let packet = packet::export(self.random, handle, number);
        self.push_known(packet);
        let named = self.live.iter().copied().find(|row| row.handle == handle);
        let new = number != 0 && self.token(number).is_none() && self.tokens.len() < MOST_TOKENS;
        if let Some(resource) = named.filter(|row| new && row.exportable()) {
            self.tokens.push(Token {
                number,
                surface: resource.surface,
                released: false,
            });
        }
    }

    pub fn import(&mut self, handle: u32, number: u64) {
        let packet = packet::import(self.random, handle, number);
        self.push_known(packet);
        let new = handle != 0 && !self.is_live(handle) && self.live.len() < MOST_NAMES;
        if let Some(resource) = self.bound(number).filter(|_| new) {
            self.live.push(Resource { handle, ..resource });
        }
    }

    pub fn release(&mut self, number: u64) {
        let packet = packet::release(self.random, number);
        self.push_known(packet);
        if self.bound(number).is_some() {
            let mut tokens = self.tokens.iter_mut();
            if let Some(token) = tokens.find(|token| token.number == number) {
                token.released = true;
            }
        }
    }
}
