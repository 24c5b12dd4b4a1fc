//! Twists of the target: 18, and 30 for a scissor without one. It lasts until its handle is destroyed or the submission ends.

use super::{broken, kept, Aim, PacketTwist};
use crate::draft::{Draft, Resource};
use crate::good_state::some_scissor;
use crate::numbers::error::{HANDLE, STATE};
use crate::numbers::MOST_RECORDS;
use crate::packet::Backing;
use crate::shape::Shape;

pub const TWISTS: &[PacketTwist] = &[
    handle,
    no_target,
    destroyed,
    made_again,
    another_destroyed,
    replaced,
    replaced_and_destroyed,
];

/// A texture, made here or before, is the target; there is room for a record or two.
pub fn some_target(draft: &mut Draft) -> Option<Resource> {
    if draft.records + 3 > MOST_RECORDS {
        return None;
    }
    if draft.random.coin() {
        draft.any_texture()?;
    }
    draft.any_target()
}

/// A scissor that keeps its own rules, whether there is a target or not.
fn scissor_over(draft: &mut Draft, texture: Resource) {
    let scissor = some_scissor(draft.random, texture);
    draft.scissor(scissor);
}

fn handle(draft: &mut Draft) -> Option<Aim> {
    match draft.random.within(0..=5) {
        0 => {
            draft.set_target(0);
            broken("target: handle 0", HANDLE)
        }
        1 => {
            let handle = draft.fresh_handle();
            draft.set_target(handle);
            broken("target: handle not live", HANDLE)
        }
        2 => {
            let gone = draft.any_texture()?;
            draft.destroy(gone.handle);
            draft.set_target(gone.handle);
            broken("target: a texture that is gone", HANDLE)
        }
        3 => {
            let buffer = draft.any_buffer()?;
            draft.set_target(buffer.handle);
            broken("target: a buffer", HANDLE)
        }
        _ => {
            let texture = draft.any_texture()?;
            draft.set_target(texture.handle);
            kept("target: a texture")
        }
    }
}

/// The device may have had one, in the submission before. Viewport and clear need none.
fn no_target(draft: &mut Draft) -> Option<Aim> {
    if draft.target.is_some() {
        return None;
    }
    draft.any_viewport();
    draft.any_clear();
    if draft.random.percent(30) {
        return kept("viewport and clear: no target");
    }
    let texture = draft.any_texture()?;
    scissor_over(draft, texture);
    broken("scissor: no target", STATE)
}

fn destroyed(draft: &mut Draft) -> Option<Aim> {
    let target = some_target(draft)?;
    draft.destroy(target.handle);
    scissor_over(draft, target);
    broken("scissor: the target destroyed", STATE)
}

/// The handle alone does not bring the target back; a packet does.
fn made_again(draft: &mut Draft) -> Option<Aim> {
    let target = some_target(draft)?;
    draft.destroy(target.handle);
    let shape = Shape::random(draft.random);
    draft.create_texture(target.handle, shape, Backing::default());
    if draft.random.coin() {
        scissor_over(draft, target);
        return broken("scissor: the target destroyed and made again", STATE);
    }
    draft.set_target(target.handle);
    scissor_over(draft, target);
    kept("scissor: the target made again and set")
}

fn another_destroyed(draft: &mut Draft) -> Option<Aim> {
    let other = if draft.random.coin() {
        draft.any_texture()?
    } else {
        draft.any_buffer()?
    };
    let target = some_target(draft).filter(|target| target.handle != other.handle)?;
    draft.destroy(other.handle);
    scissor_over(draft, target);
    kept("scissor: another resource destroyed")
}

/// Two textures, the first of which was the target and the second of which is.
fn two_targets(draft: &mut Draft) -> Option<(Resource, Resource)> {
    let first = some_target(draft)?;
    let second = draft.any_texture()?;
    draft.set_target(second.handle);
    Some((first, second))
}

/// What counts is the later one, also after the earlier is gone.
fn replaced(draft: &mut Draft) -> Option<Aim> {
    let (first, second) = two_targets(draft)?;
    if draft.random.coin() {
        draft.destroy(first.handle);
    }
    scissor_over(draft, second);
    kept("scissor: the target replaced")
}

/// The earlier one does not come back.
fn replaced_and_destroyed(draft: &mut Draft) -> Option<Aim> {
    let (first, second) = two_targets(draft)?;
    draft.destroy(second.handle);
    scissor_over(draft, first);
    broken("scissor: the target replaced and destroyed", STATE)
}
