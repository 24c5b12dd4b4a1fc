//! Twists of export: 18, 20 for what may not be exported, 28 for the token, and what a token may be bound to again.

use super::{broken, kept, Aim, PacketTwist};
use crate::draft::{Draft, Resource};
use crate::good_shares::Shared;
use crate::numbers::error::{HANDLE, SHAPE, TOKEN_TAKEN};
use crate::numbers::MOST_TOKENS;
use crate::shape::Shape;

pub const TWISTS: &[PacketTwist] = &[
    handle,
    shape,
    shape,
    token,
    token_of_another,
    token_of_another,
    token_released,
    again,
    again,
    more_tokens,
    two_faults,
];

/// A token to bind, where one more may be used.
fn new_token(draft: &mut Draft) -> Option<u64> {
    (draft.tokens.len() < MOST_TOKENS).then(|| draft.fresh_token())
}

fn handle(draft: &mut Draft) -> Option<Aim> {
    let token = draft.fresh_token();
    match draft.random.within(0..=3) {
        0 => {
            draft.export(0, token);
            broken("export: handle 0", HANDLE)
        }
        1 => {
            let handle = draft.dead_handle()?;
            draft.export(handle, token);
            broken("export: handle not live", HANDLE)
        }
        2 => {
            let (Shared { resource, token }, _) = draft.two_names()?;
            draft.destroy(resource.handle);
            draft.export(resource.handle, token);
            broken("export: a name that is gone", HANDLE)
        }
        _ => {
            draft.any_export()?;
            kept("export: a live texture")
        }
    }
}

/// A good texture with so many mips and layers, as far as its sides have them.
fn texture(draft: &mut Draft, mips: u32, layers: u32) -> Option<Resource> {
    let mut shape = Shape::random(draft.random);
    shape.width = shape.width.max(2);
    shape.pitch = shape.least_pitch();
    shape.mips = mips.min(shape.full_chain());
    shape.layers = layers;
    draft.texture_of(shape)
}

fn shape(draft: &mut Draft) -> Option<Aim> {
    let token = new_token(draft)?;
    let (made, aim) = match draft.random.within(0..=4) {
        0 => (draft.any_buffer()?, broken("export: a buffer", SHAPE)),
        1 => (texture(draft, 2, 1)?, broken("export: two mips", SHAPE)),
        2 => (texture(draft, 1, 2)?, broken("export: two layers", SHAPE)),
        3 => {
            let layers = draft.random.pick(&[1, 2, 6]);
            let aim = broken("export: mips to the last", SHAPE);
            (texture(draft, u32::MAX, layers)?, aim)
        }
        _ => {
            let aim = kept("export: one mip and one layer");
            (texture(draft, 1, 1)?, aim)
        }
    };
    draft.export(made.handle, token);
    aim
}

fn token(draft: &mut Draft) -> Option<Aim> {
    let resource = draft.exportable()?;
    if draft.random.coin() {
        draft.export(resource.handle, 0);
        return broken("export: token 0", TOKEN_TAKEN);
    }
    let token = new_token(draft)?;
    draft.export(resource.handle, token);
    kept("export: a token never used")
}

/// A token was bound once, and its resource may be gone: it stays that resource's.
fn token_of_another(draft: &mut Draft) -> Option<Aim> {
    let (Shared { resource, token }, other) = draft.two_names()?;
    let rule = match draft.random.within(0..=3) {
        0 => "export: another resource's token",
        1 => {
            draft.destroy(resource.handle);
            "export: another resource's token, its first name gone"
        }
        2 => {
            let orphaned = draft.orphaned_token()?;
            let another = draft.texture_of_one_image()?;
            draft.export(another.handle, orphaned);
            return broken("export: a token whose resource is gone", TOKEN_TAKEN);
        }
        _ => {
            draft.destroy(resource.handle);
            draft.destroy(other.handle);
            let mut shape = Shape::random(draft.random);
            (shape.mips, shape.layers) = (1, 1);
            draft.create_texture(resource.handle, shape, Default::default());
            draft.export(resource.handle, token);
            return broken("export: a token of the handle before", TOKEN_TAKEN);
        }
    };
    let another = draft.texture_of_one_image()?;
    draft.export(another.handle, token);
    broken(rule, TOKEN_TAKEN)
}

fn token_released(draft: &mut Draft) -> Option<Aim> {
    let number = draft.released_token()?;
    let token = draft.token(number)?;
    let own = draft.find(|_, row| row.surface == token.surface);
    if let Some(own) = own.filter(|_| draft.random.percent(60)) {
        draft.export(own.handle, number);
        return broken("export: its own token, released", TOKEN_TAKEN);
    }
    let another = draft.texture_of_one_image()?;
    draft.export(another.handle, number);
    broken("export: another resource's token, released", TOKEN_TAKEN)
}

/// The same token on the same resource changes nothing, whatever name it goes by.
fn again(draft: &mut Draft) -> Option<Aim> {
    let (Shared { resource, token }, other) = draft.two_names()?;
    match draft.random.within(0..=3) {
        0 => {
            draft.export(resource.handle, token);
            kept("export: the same token again")
        }
        1 => {
            draft.export(other.handle, token);
            kept("export: the same token by another name")
        }
        2 => {
            draft.destroy(resource.handle);
            draft.export(other.handle, token);
            kept("export: the same token, its first name gone")
        }
        _ => {
            let more = new_token(draft)?;
            draft.export(other.handle, more);
            draft.release(more);
            draft.export(resource.handle, token);
            kept("export: the same token, another one released")
        }
    }
}

/// Several tokens on one resource; tokens that agree in one of their two words are two.
fn more_tokens(draft: &mut Draft) -> Option<Aim> {
    let (Shared { resource, token }, other) = draft.two_names()?;
    let (number, rule) = match draft.random.within(0..=2) {
        0 => (draft.fresh_token(), "export: a second token"),
        1 => (token ^ 1 << 32, "export: a token with another high word"),
        _ => (token ^ 1, "export: a token with another low word"),
    };
    let fits = number != 0 && draft.token(number).is_none() && draft.tokens.len() < MOST_TOKENS;
    if !fits {
        return None;
    }
    let name = draft.random.pick(&[resource, other]).handle;
    draft.export(name, number);
    kept(rule)
}

/// 18 comes before 20, and 20 before 28.
fn two_faults(draft: &mut Draft) -> Option<Aim> {
    if draft.random.coin() {
        let handle = draft.dead_handle()?;
        draft.export(handle, 0);
        return broken("export: 18 before 28", HANDLE);
    }
    let Shared { token, .. } = draft.some_share()?;
    let buffer = draft.any_buffer()?;
    let token = draft.random.pick(&[0, token]);
    draft.export(buffer.handle, token);
    broken("export: 20 before 28", SHAPE)
}
