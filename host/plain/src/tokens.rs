//! The share tokens: every one used since the last reset, at most 256.
//!
//! A token is bound to a surface, a resource that was exported. Each surface
//! has a number, which all names of the resource carry, and no number is given
//! twice between resets. So a token whose surface has no name left is spent
//! for good, and destroying a name changes nothing here.
//!
//! Resources that come from a file have their numbers from the start, above
//! all that exports give.

use crate::errors::Error;
use crate::resources::{Resources, NO_SURFACE};

/// The most tokens that may be used between two resets.
pub(crate) const MAX_TOKENS: usize = 256;

/// The surface number of the resource with this index in a file. No export
/// gives it: the numbers of those end with the count of tokens.
pub(crate) fn loaded_surface(index: u32) -> u32 {
    MAX_TOKENS as u32 + 1 + index
}

/// A used token.
#[derive(Clone, Copy, Debug)]
struct Used {
    token: u64,
    /// The surface it was bound to.
    surface: u32,
    released: bool,
}

/// The device's tokens, and the submission's from its first change of them on.
#[derive(Clone, Debug)]
pub(crate) struct Tokens {
    /// The device's own, by rising token.
    own: Vec<Used>,
    /// The submission's, by rising token, if it has changed any; else stale.
    changed: Vec<Used>,
    has_changed: bool,
}

impl Tokens {
    /// No tokens, with room for all there may be.
    pub(crate) fn new() -> Tokens {
        Tokens {
            own: Vec::with_capacity(MAX_TOKENS),
            changed: Vec::with_capacity(MAX_TOKENS),
            has_changed: false,
        }
    }

    /// Forgets all tokens, the submission's too.
    pub(crate) fn clear(&mut self) {
        self.own.clear();
        self.drop_changes();
    }

    /// Adds a token of a file, after all lower ones, with its resource's
    /// surface number; with [`NO_SURFACE`] it is spent, however that came.
    pub(crate) fn add_loaded(&mut self, token: u64, surface: u32) {
        self.own.push(Used {
            token,
            surface,
            released: surface == NO_SURFACE,
        });
    }

    /// Whether the device has used any token, spent or not.
    pub(crate) fn are_used(&self) -> bool {
        !self.own.is_empty()
    }

    /// The surface of a used token that was not released. It may have no name
    /// left.
    pub(crate) fn surface(&self, token: u64) -> Option<u32> {
        let rows = self.rows();
        let row = rows[find(rows, token).ok()?];
        Some(row.surface).filter(|_| !row.released)
    }

    /// Binds a token to a resource with this surface number, which may have
    /// none yet, and gives the number it has from then on. Nothing changes if
    /// they are bound already. Error 28 for token 0 and one used otherwise,
    /// 19 if there is no room for a new one.
    pub(crate) fn bind(&mut self, token: u64, surface: u32) -> Result<u32, Error> {
        if token == 0 {
            return Err(Error::TokenTaken);
        }
        let rows = self.rows();
        match find(rows, token) {
            Ok(at) if rows[at].surface == surface && !rows[at].released => Ok(surface),
            Ok(_) => Err(Error::TokenTaken),
            Err(_) if rows.len() >= MAX_TOKENS => Err(Error::Full),
            Err(at) => Ok(self.add(at, token, surface)),
        }
    }

    /// Adds a new token at its place among the others. A new surface number
    /// is the count of tokens with this one, which rises with every token and
    /// stays below the numbers of [`loaded_surface`].
    fn add(&mut self, at: usize, token: u64, surface: u32) -> u32 {
        let rows = self.rows_to_change();
        let surface = if surface == NO_SURFACE {
            rows.len() as u32 + 1
        } else {
            surface
        };
        let row = Used {
            token,
            surface,
            released: false,
        };
        rows.insert(at, row);
        surface
    }

    /// Spends a used token.
    pub(crate) fn release(&mut self, token: u64) {
        let rows = self.rows_to_change();
        if let Ok(at) = find(rows, token) {
            rows[at].released = true;
        }
    }

    /// Makes the submission's tokens the device's.
    pub(crate) fn accept_changes(&mut self) {
        if self.has_changed {
            std::mem::swap(&mut self.own, &mut self.changed);
            self.has_changed = false;
        }
    }

    /// Leaves the device's tokens as they were before the submission.
    pub(crate) fn drop_changes(&mut self) {
        self.has_changed = false;
    }

    /// The device's own tokens, each with the lowest name that its resource
    /// has among these, 0 if it is spent; by rising token.
    pub(crate) fn own(&self, resources: &Resources) -> Vec<(u64, u32)> {
        with_lowest_names(&self.own, resources)
    }

    /// As [`Tokens::own`], of the tokens as the submission's packets left them.
    pub(crate) fn of_submission(&self, resources: &Resources) -> Vec<(u64, u32)> {
        with_lowest_names(self.rows(), resources)
    }

    /// The tokens as the submission's packets left them.
    fn rows(&self) -> &[Used] {
        if self.has_changed {
            &self.changed
        } else {
            &self.own
        }
    }

    /// The submission's tokens; at its first change, a copy of the device's.
    fn rows_to_change(&mut self) -> &mut Vec<Used> {
        if !self.has_changed {
            self.changed.clear();
            self.changed.extend_from_slice(&self.own);
            self.has_changed = true;
        }
        &mut self.changed
    }
}

/// Where the token stands among rising ones, or would.
fn find(rows: &[Used], token: u64) -> Result<usize, usize> {
    rows.binary_search_by_key(&token, |row| row.token)
}

fn with_lowest_names(rows: &[Used], resources: &Resources) -> Vec<(u64, u32)> {
    let lowest_name = |row: &Used| {
        if row.released {
            0
        } else {
            resources.lowest_name(row.surface).unwrap_or(0)
        }
    };
    rows.iter()
        .map(|row| (row.token, lowest_name(row)))
        .collect()
}

#[cfg(test)]
mod tests {
    use super::*;

    #[test]
    fn no_surface_number_is_given_twice() {
        let mut tokens = Tokens::new();
        assert_eq!(tokens.bind(9, NO_SURFACE), Ok(1));
        assert_eq!(tokens.bind(7, 1), Ok(1));
        tokens.release(9);
        assert_eq!(tokens.bind(8, NO_SURFACE), Ok(3));
        tokens.accept_changes();
        assert_eq!(tokens.bind(1, NO_SURFACE), Ok(4));
        tokens.drop_changes();
        // No resource has 4 any more, so it may come again.
        assert_eq!(tokens.bind(2, NO_SURFACE), Ok(4));
        assert_eq!(tokens.surface(1), None);
    }

    #[test]
    fn no_export_gives_the_number_of_a_loaded_resource() {
        let mut tokens = Tokens::new();
        tokens.add_loaded(5, NO_SURFACE);
        tokens.add_loaded(9, loaded_surface(0));
        assert_eq!(tokens.surface(5), None);
        assert_eq!(tokens.surface(9), Some(loaded_surface(0)));
        assert_eq!(tokens.bind(9, loaded_surface(0)), Ok(loaded_surface(0)));
        assert_eq!(tokens.bind(7, loaded_surface(1)), Ok(loaded_surface(1)));
        for surface in [NO_SURFACE, loaded_surface(0), loaded_surface(1)] {
            assert_eq!(tokens.bind(5, surface), Err(Error::TokenTaken));
        }
        for number in 4..=MAX_TOKENS as u32 {
            let token = u64::from(number) << 32;
            assert_eq!(tokens.bind(token, NO_SURFACE), Ok(number));
            assert!(number < loaded_surface(0));
        }
        assert_eq!(tokens.bind(1, NO_SURFACE), Err(Error::Full));
    }

    #[test]
    fn only_a_change_copies() {
        let mut tokens = Tokens::new();
        assert_eq!(tokens.bind(5, NO_SURFACE), Ok(1));
        tokens.accept_changes();
        assert_eq!(tokens.bind(5, 1), Ok(1));
        assert_eq!(tokens.bind(5, NO_SURFACE), Err(Error::TokenTaken));
        assert_eq!(tokens.bind(0, NO_SURFACE), Err(Error::TokenTaken));
        assert_eq!((tokens.surface(5), tokens.surface(6)), (Some(1), None));
        assert!(!tokens.has_changed);
        tokens.release(5);
        assert!(tokens.has_changed);
        assert_eq!(tokens.surface(5), None);
        tokens.drop_changes();
        assert_eq!(tokens.surface(5), Some(1));
    }
}
