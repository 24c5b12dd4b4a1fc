//! Twists at the limit of 256 tokens: 19, and what comes before it. A token counts until the next reset, spent or not.

use super::{broken, judged, kept, Aim, PacketTwist};
use crate::draft::{Draft, Resource};
use crate::numbers::error::{HANDLE, LIMIT, SHAPE, TOKEN_TAKEN};
use crate::numbers::{MOST_NAMES, MOST_TOKENS};

pub const TWISTS: &[PacketTwist] = &[one_more, one_more, spent_ones_count, faults, none_more];

/// The bytes of an export.
const EXPORT_SIZE: usize = 24;

/// Binds tokens to a texture until so many were used. The texture comes back, and its last token.
pub fn fill_tokens(draft: &mut Draft, most: usize) -> Option<(Resource, u64)> {
    let missing = most.checked_sub(draft.tokens.len())?;
    if !draft.has_room(missing * EXPORT_SIZE + 6 * 56) || draft.live.len() + 2 > MOST_NAMES {
        return None;
    }
    let texture = draft.texture_of_one_image()?;
    while draft.tokens.len() < most {
        let token = draft.fresh_token();
        draft.export(texture.handle, token);
    }
    let last = draft.tokens.last().copied();
    let last = last.filter(|last| last.surface == texture.surface)?;
    Some((texture, last.number))
}

fn one_more(draft: &mut Draft) -> Option<Aim> {
    let fits = draft.random.coin();
    let used = MOST_TOKENS - usize::from(fits);
    let (texture, _) = fill_tokens(draft, used)?;
    let token = draft.fresh_token();
    draft.export(texture.handle, token);
    judged("export: 256 tokens", fits, LIMIT)
}

/// Neither a release nor the end of a resource makes room for another token.
fn spent_ones_count(draft: &mut Draft) -> Option<Aim> {
    let (texture, token) = fill_tokens(draft, MOST_TOKENS)?;
    let rule = if draft.random.coin() {
        draft.release(token);
        "release: no room for another token"
    } else {
        draft.destroy(texture.handle);
        "destroy: no room for another token"
    };
    let another = draft.texture_of_one_image()?;
    let token = draft.fresh_token();
    draft.export(another.handle, token);
    broken(rule, LIMIT)
}

/// 18, 20 and 28 come before the limit.
fn faults(draft: &mut Draft) -> Option<Aim> {
    let (_, token) = fill_tokens(draft, MOST_TOKENS)?;
    let fresh = draft.fresh_token();
    match draft.random.within(0..=2) {
        0 => {
            draft.export(0, fresh);
            broken("export: 18 before the 256 tokens", HANDLE)
        }
        1 => {
            let buffer = draft.any_buffer()?;
            draft.export(buffer.handle, fresh);
            broken("export: 20 before the 256 tokens", SHAPE)
        }
        _ => {
            let another = draft.texture_of_one_image()?;
            let taken = draft.random.pick(&[0, token]);
            draft.export(another.handle, taken);
            broken("export: 28 before the 256 tokens", TOKEN_TAKEN)
        }
    }
}

/// What uses no new token is not held to their limit.
fn none_more(draft: &mut Draft) -> Option<Aim> {
    let (texture, token) = fill_tokens(draft, MOST_TOKENS)?;
    match draft.random.within(0..=2) {
        0 => draft.export(texture.handle, token),
        1 => draft.release(token),
        _ => drop(draft.second_name(token)?),
    }
    kept("256 tokens and none more")
}
