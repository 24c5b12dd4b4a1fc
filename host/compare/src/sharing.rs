//! What there is to see of names and tokens in a desk, for the count of what was reached.

use crate::detail::Errors;
use crate::front::Front;
use crate::numbers::error::HOST_FAILED;
use crate::numbers::{MOST_NAMES, MOST_TOKENS};
use std::collections::BTreeSet;
use zelezmut::registers::{CONTROL, CONTROL_RESET};
use zelezmut::script::Operation;
use zelezmut::{DeviceError, Place};

#[derive(Clone, Copy, Debug, PartialEq, Eq, PartialOrd, Ord)]
pub enum Sharing {
    /// A token was bound, or bound and spent by one submission.
    Exported,
    ExportedAndSpent,
    /// A resource has another name, below all it had or not.
    LowerName,
    HigherName,
    /// A token is spent, and its resource is as it was.
    Released,
    /// A resource lives, and its lowest name is gone, or another.
    LowestDestroyed,
    OtherDestroyed,
    /// A resource is gone, which had one name, or several, and its token is spent.
    OnlyNameDestroyed,
    AllNamesDestroyed,
    /// As many tokens as there may be, or one fewer.
    AllTokensButOne,
    AllTokens,
    /// As many names as there may be, some of one resource; or one fewer.
    AllNamesButOne,
    AllNames,
    /// There were tokens, and a submission that came to nothing left them.
    KeptOverFailed,
    KeptOverRefused,
    /// There were tokens, and a reset forgot them.
    Forgotten,
}

pub const SHARINGS: [Sharing; 16] = [
    Sharing::Exported,
    Sharing::ExportedAndSpent,
    Sharing::LowerName,
    Sharing::HigherName,
    Sharing::Released,
    Sharing::LowestDestroyed,
    Sharing::OtherDestroyed,
    Sharing::OnlyNameDestroyed,
    Sharing::AllNamesDestroyed,
    Sharing::AllTokensButOne,
    Sharing::AllTokens,
    Sharing::AllNamesButOne,
    Sharing::AllNames,
    Sharing::KeptOverFailed,
    Sharing::KeptOverRefused,
    Sharing::Forgotten,
];

/// A device's names and tokens.
#[derive(Clone, Debug, Default, PartialEq, Eq)]
pub struct Shares {
    names: Vec<(u32, u32)>,
    tokens: Vec<(u64, u32)>,
}

impl Shares {
    pub fn of<F: Front>(front: &F) -> Shares {
        Shares {
            names: front.names(),
            tokens: front.tokens(),
        }
    }

    /// All names of the resource with this lowest one, in rising order.
    fn names_beside(&self, lowest: u32) -> Vec<u32> {
        let beside = self.names.iter().filter(|(_, first)| *first == lowest);
        beside.map(|(name, _)| *name).collect()
    }

    fn token(&self, token: u64) -> Option<u32> {
        let found = self.tokens.binary_search_by_key(&token, |row| row.0);
        found.ok().map(|at| self.tokens[at].1)
    }
}

/// What an operation shows that finds one of these and leaves the other, beside the errors before and after it.
pub fn seen(
    operation: &Operation,
    (before, after): (&Shares, &Shares),
    errors: (Errors, Errors),
) -> BTreeSet<Sharing> {
    if before == after {
        let kept = kept_over(errors).filter(|_| !before.tokens.is_empty());
        return kept.into_iter().collect();
    }
    if is_reset(operation) {
        let forgot = !before.tokens.is_empty() && after.tokens.is_empty();
        return forgot.then_some(Sharing::Forgotten).into_iter().collect();
    }
    let of_tokens = after
        .tokens
        .iter()
        .flat_map(|&(token, name)| match before.token(token) {
            None if name == 0 => vec![Sharing::ExportedAndSpent],
            None => vec![Sharing::Exported],
            Some(0) => Vec::new(),
            Some(was) if name == 0 => spent(before, after, was),
            Some(was) => renamed(&before.names_beside(was), &after.names_beside(name)),
        });
    of_tokens.chain(counts(after)).collect()
}

fn is_reset(operation: &Operation) -> bool {
    matches!(*operation, Operation::Write { offset: CONTROL, value } if value & CONTROL_RESET != 0)
}

fn kept_over((before, after): (Errors, Errors)) -> Option<Sharing> {
    if before.count == after.count {
        return None;
    }
    let error = DeviceError::from_number(after.code)?;
    match Place::of(error, after.detail) {
        Place::Packet(_) => Some(Sharing::KeptOverRefused),
        _ if after.code == HOST_FAILED => Some(Sharing::KeptOverFailed),
        _ => None,
    }
}

/// Of a token whose resource had this lowest name.
fn spent(before: &Shares, after: &Shares, lowest: u32) -> Vec<Sharing> {
    let names = before.names_beside(lowest);
    let left = |name: &u32| after.names.iter().any(|(other, _)| other == name);
    if after.names_beside(lowest) == names {
        vec![Sharing::Released]
    } else if names.iter().any(left) {
        Vec::new()
    } else if names.len() == 1 {
        vec![Sharing::OnlyNameDestroyed]
    } else {
        vec![Sharing::AllNamesDestroyed]
    }
}

/// Of a resource that had some names and has others.
fn renamed(before: &[u32], after: &[u32]) -> Vec<Sharing> {
    let lowest = before.first();
    let gained = after.iter().filter(|name| !before.contains(name));
    let lost = before.iter().filter(|name| !after.contains(name));
    let gained = gained.map(|name| {
        if Some(name) < lowest {
            Sharing::LowerName
        } else {
            Sharing::HigherName
        }
    });
    let lost = lost.map(|name| {
        if Some(name) == lowest {
            Sharing::LowestDestroyed
        } else {
            Sharing::OtherDestroyed
        }
    });
    gained.chain(lost).collect()
}

fn counts(shares: &Shares) -> Vec<Sharing> {
    let is_shared = shares.names.iter().any(|(name, lowest)| name != lowest);
    let told = [
        (
            shares.tokens.len() + 1 == MOST_TOKENS,
            Sharing::AllTokensButOne,
        ),
        (shares.tokens.len() == MOST_TOKENS, Sharing::AllTokens),
        (
            is_shared && shares.names.len() + 1 == MOST_NAMES,
            Sharing::AllNamesButOne,
        ),
        (
            is_shared && shares.names.len() == MOST_NAMES,
            Sharing::AllNames,
        ),
    ];
    told.iter()
        .filter(|(is_so, _)| *is_so)
        .map(|(_, sharing)| *sharing)
        .collect()
}

#[cfg(test)]
mod tests {
    use super::*;

    fn shown(before: &Shares, after: &Shares) -> Vec<Sharing> {
        let none = (Errors::default(), Errors::default());
        let operation = Operation::Run { allowance: 1 };
        let seen = seen(&operation, (before, after), none);
        seen.into_iter().collect()
    }

    fn shares(names: &[(u32, u32)], tokens: &[(u64, u32)]) -> Shares {
        Shares {
            names: names.to_vec(),
            tokens: tokens.to_vec(),
        }
    }

    #[test]
    fn what_became_of_names_and_tokens_is_told() {
        let one = shares(&[(5, 5)], &[(1, 5)]);
        let two = shares(&[(5, 5), (7, 5)], &[(1, 5)]);
        let lower = shares(&[(2, 2), (5, 2), (7, 2)], &[(1, 2)]);
        let spent = shares(&[(5, 5), (7, 5)], &[(1, 0)]);
        let gone = shares(&[], &[(1, 0)]);
        assert_eq!(shown(&shares(&[(5, 5)], &[]), &one), [Sharing::Exported]);
        assert_eq!(shown(&one, &two), [Sharing::HigherName]);
        assert_eq!(shown(&two, &lower), [Sharing::LowerName]);
        assert_eq!(shown(&lower, &two), [Sharing::LowestDestroyed]);
        assert_eq!(shown(&two, &one), [Sharing::OtherDestroyed]);
        assert_eq!(shown(&two, &spent), [Sharing::Released]);
        assert_eq!(shown(&one, &gone), [Sharing::OnlyNameDestroyed]);
        assert_eq!(shown(&two, &gone), [Sharing::AllNamesDestroyed]);
        assert_eq!(shown(&two, &two), []);
    }
}
