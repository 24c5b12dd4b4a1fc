//! Twists of a resource with two names: what destroying one of them leaves, and what is done by the other.

use super::touch::range_to_end;
use super::{broken, judged, kept, Aim, PacketTwist};
use crate::draft::{Draft, Resource};
use crate::good_shares::Shared;
use crate::good_state::some_scissor;
use crate::numbers::error::{HANDLE, RESOURCE_RANGE, STATE, TOKEN_UNBOUND};
use crate::numbers::MOST_RECORDS;
use crate::packet::Backing;

pub const TWISTS: &[PacketTwist] = &[
    one_destroyed,
    one_destroyed,
    one_used_after_it,
    both_destroyed,
    created_over_a_name,
    name_used_again,
    touched_by_the_other,
    targeted_by_the_other,
    targeted_by_the_other,
];

/// The two names of a resource made here, the lower first, and its token.
fn names(draft: &mut Draft) -> Option<(Resource, Resource, u64)> {
    let (Shared { resource, token }, other) = draft.two_names()?;
    if resource.handle < other.handle {
        Some((resource, other, token))
    } else {
        Some((other, resource, token))
    }
}

/// Does something by a name, after which nothing else is different.
fn used(draft: &mut Draft, name: Resource, token: u64) {
    match draft.random.within(0..=2) {
        0 => draft.set_target(name.handle),
        1 => draft.export(name.handle, token),
        _ => draft.destroy(name.handle),
    }
}

fn one_destroyed(draft: &mut Draft) -> Option<Aim> {
    let (lowest, other, token) = names(draft)?;
    if draft.random.coin() {
        draft.destroy(lowest.handle);
        used(draft, other, token);
        kept("destroy: the lowest name, the other is used")
    } else {
        draft.destroy(other.handle);
        used(draft, lowest, token);
        kept("destroy: another name, the lowest is used")
    }
}

fn one_used_after_it(draft: &mut Draft) -> Option<Aim> {
    let (lowest, other, token) = names(draft)?;
    let gone = draft.random.pick(&[lowest, other]);
    draft.destroy(gone.handle);
    if draft.random.coin() {
        draft.second_name(token)?;
        return kept("destroy: one of two names, and imported again");
    }
    used(draft, gone, token);
    broken("destroy: one of two names, and it is used", HANDLE)
}

fn both_destroyed(draft: &mut Draft) -> Option<Aim> {
    let (lowest, other, token) = names(draft)?;
    let (first, second) = draft.random.pick(&[(lowest, other), (other, lowest)]);
    draft.destroy(first.handle);
    draft.destroy(second.handle);
    match draft.random.within(0..=2) {
        0 => kept("destroy: both names"),
        1 => {
            let name = draft.random.pick(&[lowest, other]);
            used(draft, name, token);
            broken("destroy: both names, and one is used", HANDLE)
        }
        _ => {
            let handle = draft.fresh_handle();
            draft.import(handle, token);
            broken("destroy: both names, and imported", TOKEN_UNBOUND)
        }
    }
}

/// A name is as live as the handle that a resource was created with.
fn created_over_a_name(draft: &mut Draft) -> Option<Aim> {
    let (lowest, other, _) = names(draft)?;
    let name = draft.random.pick(&[lowest, other]);
    draft.create_buffer(name.handle, 16, Backing::default());
    broken("create: one of two names", HANDLE)
}

/// A handle that is another resource's now says nothing about the one that it named before.
fn name_used_again(draft: &mut Draft) -> Option<Aim> {
    let (lowest, other, token) = names(draft)?;
    let gone = draft.random.pick(&[lowest, other]);
    draft.destroy(gone.handle);
    draft.create_buffer(gone.handle, 16, Backing::default());
    if draft.random.coin() {
        draft.second_name(token)?;
    }
    kept("destroy: one of two names, and another resource has it")
}

/// The record carries the packet's handle; the range is the resource's.
fn touched_by_the_other(draft: &mut Draft) -> Option<Aim> {
    let (lowest, other, _) = names(draft)?;
    let name = draft.random.pick(&[lowest, other]);
    if draft.covered(&name) != Some(name.bytes) || draft.records >= MOST_RECORDS {
        return None;
    }
    if draft.random.coin() {
        let gone = if name.handle == lowest.handle {
            other
        } else {
            lowest
        };
        draft.destroy(gone.handle);
    }
    let past = draft.random.within(0..=1);
    let (offset, size) = range_to_end(draft, name.bytes, past);
    draft.dirty(name.handle, offset, size);
    judged("dirty: by one of two names", past == 0, RESOURCE_RANGE)
}

/// A target is the name that the packet gave: it ends with that name, though the texture lives on, and with no other.
fn targeted_by_the_other(draft: &mut Draft) -> Option<Aim> {
    let (lowest, other, _) = names(draft)?;
    let (name, second) = draft.random.pick(&[(lowest, other), (other, lowest)]);
    if draft.records >= MOST_RECORDS {
        return None;
    }
    draft.set_target(name.handle);
    let ends = draft.random.coin();
    draft.destroy(if ends { name.handle } else { second.handle });
    let scissor = some_scissor(draft.random, name);
    draft.scissor(scissor);
    if ends {
        broken("scissor: the target's name destroyed", STATE)
    } else {
        kept("scissor: another name of the target destroyed")
    }
}
