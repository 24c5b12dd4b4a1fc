//! Random exports, imports and releases that a submission being written is believed to pass with, and what twists of them begin with.

use crate::draft::{Draft, Resource};
use crate::held::Token;
use crate::numbers::{MOST_NAMES, MOST_TOKENS};
use crate::random::Random;
use crate::shape::Shape;

/// The edges of a token's two words, and of all of it.
const EDGES: [u64; 6] = [
    1,
    u32::MAX as u64,
    1 << 32,
    (1 << 32) + 1,
    1 << 63,
    u64::MAX,
];

/// A resource that is shared, and a token that is bound to it.
#[derive(Clone, Copy, Debug)]
pub struct Shared {
    pub resource: Resource,
    pub token: u64,
}

impl Draft<'_> {
    pub fn any_share_packet(&mut self) -> Option<()> {
        match self.random.within(0..=9) {
            0..=2 => self.any_export().map(drop),
            3 => self.any_export_again(),
            4..=6 => self.any_import().map(drop),
            7 => self.any_release(),
            _ => self.any_end(),
        }
    }

    /// A token that was not used since the last reset. Small ones come again after it, and after a submission that came to nothing.
    pub fn fresh_token(&mut self) -> u64 {
        loop {
            // The more were used, the more there are to draw from.
            let small = 30 + 3 * self.tokens.len() as u64;
            let token = some_token(self.random, small);
            if self.token(token).is_none() {
                return token;
            }
        }
    }

    /// A texture that may be exported, made here or before.
    pub fn exportable(&mut self) -> Option<Resource> {
        let old = self.find(|_, resource| resource.exportable());
        if self.random.coin() {
            old.or_else(|| self.texture_of_one_image())
        } else {
            self.texture_of_one_image().or(old)
        }
    }

    pub fn texture_of_one_image(&mut self) -> Option<Resource> {
        let mut shape = Shape::random(self.random);
        (shape.mips, shape.layers) = (1, 1);
        self.texture_of(shape)
    }

    /// A texture of this shape, backed more often than not.
    pub fn texture_of(&mut self, shape: Shape) -> Option<Resource> {
        let backed = self.backing_for(shape.packed());
        let backing = backed.filter(|_| self.random.percent(60));
        self.texture_at(shape, backing.unwrap_or_default())
    }

    /// A token is bound, the first of its resource or one more.
    pub fn any_export(&mut self) -> Option<Shared> {
        if self.tokens.len() >= MOST_TOKENS {
            return None;
        }
        let resource = self.exportable()?;
        let token = self.fresh_token();
        self.export(resource.handle, token);
        Some(Shared { resource, token })
    }

    /// A token and its resource again, under any of its names: that changes nothing.
    fn any_export_again(&mut self) -> Option<()> {
        let Shared { resource, token } = self.old_share()?;
        let name = self.some_name(resource);
        self.export(name, token);
        Some(())
    }

    pub fn any_import(&mut self) -> Option<Resource> {
        if self.live.len() >= MOST_NAMES {
            return None;
        }
        let Shared { token, .. } = self.old_share()?;
        self.second_name(token)
    }

    fn any_release(&mut self) -> Option<()> {
        let Shared { token, .. } = self.old_share()?;
        self.release(token);
        Some(())
    }

    /// Some names of a shared resource are destroyed, or all.
    fn any_end(&mut self) -> Option<()> {
        let Shared { resource, .. } = self.old_share()?;
        let names = self.names_of(resource.surface);
        let all = self.random.coin();
        for name in names {
            if (all || self.random.coin()) && self.has_room(16) {
                self.destroy(name);
            }
        }
        Some(())
    }

    /// One of the tokens that are bound.
    fn old_share(&mut self) -> Option<Shared> {
        let tokens = self.bound_tokens();
        if tokens.is_empty() {
            return None;
        }
        let token = self.random.pick(&tokens);
        let resource = self.bound(token)?;
        Some(Shared { resource, token })
    }

    /// A token that was released, here or before.
    pub fn released_token(&mut self) -> Option<u64> {
        self.spent_token(|_, token| token.released).or_else(|| {
            let Shared { token, .. } = self.some_share()?;
            self.release(token);
            Some(token)
        })
    }

    /// A token whose resource has no name left; it ended here or before.
    pub fn orphaned_token(&mut self) -> Option<u64> {
        let is_orphaned = |draft: &Self, token: &Token| {
            !token.released && draft.names_of(token.surface).is_empty()
        };
        self.spent_token(is_orphaned).or_else(|| {
            let (Shared { resource, token }, other) = self.two_names()?;
            self.destroy(resource.handle);
            self.destroy(other.handle);
            Some(token)
        })
    }

    /// Half the time one of those that are spent already.
    fn spent_token(&mut self, is_spent: impl Fn(&Self, &Token) -> bool) -> Option<u64> {
        let tokens = self.tokens.iter().filter(|token| is_spent(self, token));
        let numbers: Vec<u64> = tokens.map(|token| token.number).collect();
        if numbers.is_empty() || self.random.coin() {
            return None;
        }
        Some(self.random.pick(&numbers))
    }

    /// A token that is bound, made here or before.
    pub fn some_share(&mut self) -> Option<Shared> {
        if self.random.coin() {
            if let Some(old) = self.old_share() {
                return Some(old);
            }
        }
        self.any_export()
    }

    /// Any name of a resource.
    pub fn some_name(&mut self, resource: Resource) -> u32 {
        let names = self.names_of(resource.surface);
        self.random.pick(&names)
    }

    /// Another name for the resource of a bound token.
    pub fn second_name(&mut self, token: u64) -> Option<Resource> {
        if self.live.len() >= MOST_NAMES {
            return None;
        }
        let handle = self.fresh_handle();
        self.import(handle, token);
        self.live.last().copied().filter(|row| row.handle == handle)
    }

    /// A resource that was made here, its token, and another name of it.
    pub fn two_names(&mut self) -> Option<(Shared, Resource)> {
        if self.live.len() + 2 > MOST_NAMES || self.tokens.len() >= MOST_TOKENS {
            return None;
        }
        let resource = self.texture_of_one_image()?;
        let token = self.fresh_token();
        self.export(resource.handle, token);
        let other = self.second_name(token)?;
        Some((Shared { resource, token }, other))
    }
}

/// Small ones up to this more often than not, and those that agree with them in one of the two words.
fn some_token(random: &mut Random, most: u64) -> u64 {
    let small = random.within(1..=most);
    match random.within(0..=19) {
        0..=12 => small,
        13..=14 => small << 32,
        15..=16 => small + (1 << 32),
        17..=18 => random.pick(&EDGES),
        _ => random.word64().max(1),
    }
}

#[cfg(test)]
mod tests {
    use super::*;

    #[test]
    fn no_token_is_0_and_every_edge_is_met() {
        let mut random = Random::new(11);
        let tokens: Vec<u64> = (0..2_000).map(|_| some_token(&mut random, 30)).collect();
        assert!(tokens.iter().all(|&token| token != 0));
        assert!(EDGES.iter().all(|edge| tokens.contains(edge)));
    }
}
