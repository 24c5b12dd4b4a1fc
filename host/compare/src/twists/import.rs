//! Twists of import and release: 18 for a handle that cannot be made, 29 for a token that is bound to nothing.

use super::{broken, kept, Aim, PacketTwist};
use crate::draft::Draft;
use crate::good_shares::Shared;
use crate::numbers::error::{HANDLE, TOKEN_UNBOUND};
use crate::numbers::{MOST_NAMES, MOST_TOKENS};

pub const TWISTS: &[PacketTwist] = &[
    handle,
    handle,
    name_beside,
    import_token,
    import_token,
    released_beside,
    two_faults,
    release_token,
    release_token,
];

fn handle(draft: &mut Draft) -> Option<Aim> {
    let Shared { resource, token } = draft.some_share()?;
    match draft.random.within(0..=3) {
        0 => {
            draft.import(0, token);
            broken("import: handle 0", HANDLE)
        }
        1 => {
            let name = draft.some_name(resource);
            draft.import(name, token);
            broken("import: a name of the same resource", HANDLE)
        }
        2 => {
            let live = draft.any_buffer()?;
            draft.import(live.handle, token);
            broken("import: a handle that is live", HANDLE)
        }
        _ => {
            let gone = draft.any_buffer()?;
            draft.destroy(gone.handle);
            draft.import(gone.handle, token);
            kept("import: a handle used again")
        }
    }
}

/// One name below all others of its resource, or above one of them.
fn name_beside(draft: &mut Draft) -> Option<Aim> {
    let Shared { resource, token } = draft.some_share()?;
    let lowest = *draft.names_of(resource.surface).first()?;
    let lower = draft.random.coin();
    let handle = if lower {
        lowest.checked_sub(1 + draft.random.within(0..=3) as u32)?
    } else {
        lowest.checked_add(1 + draft.random.within(0..=3) as u32)?
    };
    if handle == 0 || draft.is_live(handle) || draft.live.len() >= MOST_NAMES {
        return None;
    }
    draft.import(handle, token);
    kept(if lower {
        "import: below the lowest name"
    } else {
        "import: above the lowest name"
    })
}

/// A token that is bound to nothing, and why: the name of the rule follows which of these it is.
fn unbound(draft: &mut Draft) -> Option<(u64, usize)> {
    match draft.random.within(0..=6) {
        0 => Some((0, 0)),
        1 => Some((draft.fresh_token(), 1)),
        2..=3 => Some((draft.released_token()?, 2)),
        4..=5 => Some((draft.orphaned_token()?, 3)),
        _ => {
            let Shared { token, .. } = draft.some_share()?;
            let near = token ^ draft.random.pick(&[1, 1 << 31, 1 << 32, 1 << 63]);
            draft.bound(near).is_none().then_some((near, 4))
        }
    }
}

const IMPORTED: [&str; 5] = [
    "import: token 0",
    "import: a token never used",
    "import: a token released",
    "import: a token whose resource is gone",
    "import: one bit beside a bound token",
];

fn import_token(draft: &mut Draft) -> Option<Aim> {
    let (token, why) = unbound(draft)?;
    let handle = draft.fresh_handle();
    draft.import(handle, token);
    broken(IMPORTED[why], TOKEN_UNBOUND)
}

/// A release spends that token alone: others of the resource are good still, and so are its names.
fn released_beside(draft: &mut Draft) -> Option<Aim> {
    let (Shared { resource, token }, other) = draft.two_names()?;
    if draft.tokens.len() >= MOST_TOKENS {
        return None;
    }
    let more = draft.fresh_token();
    let name = draft.random.pick(&[resource, other]).handle;
    draft.export(name, more);
    draft.release(token);
    if draft.random.coin() {
        draft.second_name(more)?;
        return kept("import: another token of the resource released");
    }
    draft.release(more);
    draft.set_target(name);
    kept("release: the names stay")
}

/// 18 comes before 29.
fn two_faults(draft: &mut Draft) -> Option<Aim> {
    let (token, _) = unbound(draft)?;
    let handle = match draft.find(|_, _| true) {
        Some(live) if draft.random.coin() => live.handle,
        _ => 0,
    };
    draft.import(handle, token);
    broken("import: 18 before 29", HANDLE)
}

const RELEASED: [&str; 5] = [
    "release: token 0",
    "release: a token never used",
    "release: a token released",
    "release: a token whose resource is gone",
    "release: one bit beside a bound token",
];

fn release_token(draft: &mut Draft) -> Option<Aim> {
    if draft.random.percent(25) {
        let Shared { token, .. } = draft.some_share()?;
        draft.release(token);
        return kept("release: a bound token");
    }
    let (token, why) = unbound(draft)?;
    draft.release(token);
    broken(RELEASED[why], TOKEN_UNBOUND)
}
