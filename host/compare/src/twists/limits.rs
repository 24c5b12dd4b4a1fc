//! Twists at the limits of 64 names and 64 records: 19, and what comes before it.

use super::{broken, judged, kept, Aim, PacketTwist};
use crate::draft::{Draft, Resource};
use crate::good_shares::Shared;
use crate::good_state::some_scissor;
use crate::numbers::error::{
    BACKING, HANDLE, LIMIT, NO_ENTRY, READ_ONLY, RESOURCE_RANGE, SHAPE, STATE, TOKEN_UNBOUND,
};
use crate::numbers::{MOST_NAMES, MOST_RECORDS, WRITEBACK};
use crate::packet::{Backing, Copying, Scissor};

pub const TWISTS: &[PacketTwist] = &[
    resources,
    resources_and_faults,
    resources_and_faults,
    room_used_again,
    names,
    names,
    names_and_faults,
    room_of_a_name_used_again,
    names_without_names,
    created_records,
    dirty_records,
    dirty_past_the_end_and_records,
    copy_records,
    copy_records,
    scissor_records,
    scissor_records,
    scissor_faults_and_records,
    records_without_records,
];

/// The limit, or one below it, and whether one more still fits.
fn about(draft: &mut Draft, limit: usize) -> (usize, bool) {
    let fits = draft.random.coin();
    (if fits { limit - 1 } else { limit }, fits)
}

/// Creates host-backed buffers until so many resources live.
fn fill_resources(draft: &mut Draft, most: usize) -> Option<()> {
    let missing = most.checked_sub(draft.live.len())?;
    if !draft.has_room((missing + 2) * 40) {
        return None;
    }
    for _ in 0..missing {
        draft.host_buffer()?;
    }
    Some(())
}

/// Gives a texture made here so many names that so many live in all. Its token comes back.
pub fn fill_names(draft: &mut Draft, most: usize) -> Option<Shared> {
    let missing = most.checked_sub(draft.live.len() + 2)?;
    if !draft.has_room(missing * 24 + 6 * 56) {
        return None;
    }
    let (shared, _) = draft.two_names()?;
    while draft.live.len() < most {
        draft.second_name(shared.token)?;
    }
    Some(shared)
}

/// Touches a byte of a backed buffer until there are so many records.
fn fill_records(draft: &mut Draft, most: usize) -> Option<Resource> {
    let missing = most.checked_sub(draft.records + 2)?;
    if !draft.has_room(missing * 32 + 5 * 48) || draft.live.len() + 3 > MOST_NAMES {
        return None;
    }
    let resource = draft.backed_buffer()?;
    while draft.records < most {
        draft.dirty(resource.handle, 0, 1);
    }
    Some(resource)
}

/// As many resources, names or records as there may be, where there is room for them.
pub fn fill_up(draft: &mut Draft) {
    match draft.random.within(0..=3) {
        0..=1 => drop(fill_records(draft, MOST_RECORDS)),
        2 => drop(fill_resources(draft, MOST_NAMES)),
        _ => drop(fill_names(draft, MOST_NAMES)),
    }
}

fn resources(draft: &mut Draft) -> Option<Aim> {
    let (live, fits) = about(draft, MOST_NAMES);
    fill_resources(draft, live)?;
    let handle = draft.fresh_handle();
    let backing = draft.backing_for(16).filter(|_| draft.random.coin());
    draft.create_buffer(handle, 16, backing.unwrap_or_default());
    judged("create: 64 resources", fits, LIMIT)
}

/// 18, 20, 21 and 22 come before the limit.
fn resources_and_faults(draft: &mut Draft) -> Option<Aim> {
    fill_resources(draft, MOST_NAMES)?;
    let handle = draft.fresh_handle();
    let host = Backing::default();
    match (draft.random.within(0..=3), draft.backing_for(1)) {
        (0, _) => {
            draft.create_buffer(0, 1, host);
            broken("create: 18 before the 64 resources", HANDLE)
        }
        (1, backing) => {
            draft.create_buffer(handle, 0, backing.unwrap_or(host));
            broken("create: 20 before the 64 resources", SHAPE)
        }
        (2, Some(backing)) => {
            draft.create_buffer(handle, u64::MAX, backing);
            broken("create: 22 before the 64 resources", BACKING)
        }
        _ => {
            let id = draft.foreign_id();
            draft.create_buffer(handle, 1, Backing { id, offset: 0 });
            broken("create: 21 before the 64 resources", NO_ENTRY)
        }
    }
}

fn room_used_again(draft: &mut Draft) -> Option<Aim> {
    fill_resources(draft, MOST_NAMES)?;
    let gone = draft.find(|_, _| true)?;
    draft.destroy(gone.handle);
    draft.any_texture()?;
    kept("destroy: room used again")
}

/// The limit counts names: many of them are one resource's here.
fn names(draft: &mut Draft) -> Option<Aim> {
    let (live, fits) = about(draft, MOST_NAMES);
    let Shared { token, .. } = fill_names(draft, live)?;
    let handle = draft.fresh_handle();
    if draft.random.coin() {
        draft.import(handle, token);
        return judged("import: 64 names", fits, LIMIT);
    }
    draft.create_buffer(handle, 16, Backing::default());
    judged("create: 64 names", fits, LIMIT)
}

/// 18 and 29 come before the limit.
fn names_and_faults(draft: &mut Draft) -> Option<Aim> {
    let Shared { resource, token } = fill_names(draft, MOST_NAMES)?;
    if draft.random.coin() {
        let name = draft.some_name(resource);
        let handle = draft.random.pick(&[0, name]);
        draft.import(handle, token);
        return broken("import: 18 before the 64 names", HANDLE);
    }
    let unbound = if draft.random.coin() {
        draft.release(token);
        token
    } else {
        draft.fresh_token()
    };
    let handle = draft.fresh_handle();
    draft.import(handle, unbound);
    broken("import: 29 before the 64 names", TOKEN_UNBOUND)
}

/// Destroying any name gives back one of the 64, for another name or for a resource.
fn room_of_a_name_used_again(draft: &mut Draft) -> Option<Aim> {
    let Shared { resource, token } = fill_names(draft, MOST_NAMES)?;
    let gone = draft.some_name(resource);
    draft.destroy(gone);
    if draft.random.coin() {
        draft.second_name(token)?;
        return kept("destroy: a name's room used again by a name");
    }
    draft.host_buffer()?;
    kept("destroy: a name's room used again by a resource")
}

/// What makes no name is not held to their limit.
fn names_without_names(draft: &mut Draft) -> Option<Aim> {
    let Shared { resource, token } = fill_names(draft, MOST_NAMES)?;
    let name = draft.some_name(resource);
    if draft.random.coin() {
        draft.release(token);
    } else {
        draft.export(name, token);
    }
    kept("64 names and none more")
}

fn created_records(draft: &mut Draft) -> Option<Aim> {
    let (records, fits) = about(draft, MOST_RECORDS);
    let resource = fill_records(draft, records)?;
    let handle = draft.fresh_handle();
    if draft.random.percent(30) {
        draft.create_buffer(handle, 0, resource.backing);
        return broken("create: 20 before the 64 records", SHAPE);
    }
    draft.create_buffer(handle, 1, resource.backing);
    judged("create: 64 records", fits, LIMIT)
}

fn dirty_records(draft: &mut Draft) -> Option<Aim> {
    let (records, fits) = about(draft, MOST_RECORDS);
    let resource = fill_records(draft, records)?;
    draft.dirty(resource.handle, 0, 1);
    judged("dirty: 64 records", fits, LIMIT)
}

fn dirty_past_the_end_and_records(draft: &mut Draft) -> Option<Aim> {
    let resource = fill_records(draft, MOST_RECORDS)?;
    draft.dirty(resource.handle, resource.bytes, 1);
    broken("dirty: 24 before the 64 records", RESOURCE_RANGE)
}

fn copy_records(draft: &mut Draft) -> Option<Aim> {
    let from = draft.host_buffer()?;
    let (records, fits) = about(draft, MOST_RECORDS);
    let to = fill_records(draft, records)?;
    draft.copy(Copying {
        to: to.handle,
        from: from.handle,
        to_offset: 0,
        from_offset: 0,
        size: 1,
        flags: WRITEBACK,
    });
    if !draft.writable(&to) {
        return broken("copy: 23 before the 64 records", READ_ONLY);
    }
    judged("copy: 64 records", fits, LIMIT)
}

/// A target, and so many records: all of them scissors, or ranges and a scissor or two. Empty clips count as well.
fn fill_with_scissors(draft: &mut Draft, most: usize) -> Option<Resource> {
    if draft.random.coin() {
        fill_records(draft, most.checked_sub(2)?)?;
    }
    let missing = most.checked_sub(draft.records + 1)?;
    if !draft.has_room(missing * 24 + 5 * 56) {
        return None;
    }
    let texture = draft.any_texture()?;
    draft.set_target(texture.handle);
    while draft.records < most {
        draft.any_scissor()?;
    }
    Some(texture)
}

fn scissor_records(draft: &mut Draft) -> Option<Aim> {
    let (records, fits) = about(draft, MOST_RECORDS);
    let texture = fill_with_scissors(draft, records)?;
    let scissor = some_scissor(draft.random, texture);
    draft.scissor(scissor);
    judged("scissor: 64 records", fits, LIMIT)
}

/// 30 comes before the limit, for both of a scissor's rules.
fn scissor_faults_and_records(draft: &mut Draft) -> Option<Aim> {
    let texture = fill_with_scissors(draft, MOST_RECORDS)?;
    let scissor = some_scissor(draft.random, texture);
    if draft.random.coin() {
        draft.scissor(Scissor {
            height: -1,
            ..scissor
        });
        return broken("scissor: its sides before the 64 records", STATE);
    }
    draft.destroy(texture.handle);
    draft.scissor(scissor);
    broken("scissor: no target before the 64 records", STATE)
}

/// What makes no record is not held to their limit.
fn records_without_records(draft: &mut Draft) -> Option<Aim> {
    let from = draft.host_buffer()?;
    let to = fill_records(draft, MOST_RECORDS)?;
    let copying = Copying {
        to: to.handle,
        from: from.handle,
        to_offset: 0,
        from_offset: 0,
        size: 0,
        flags: 0,
    };
    match draft.random.within(0..=5) {
        0 => draft.dirty(to.handle, 1, 0),
        1 if draft.writable(&to) => draft.copy(Copying {
            flags: WRITEBACK,
            ..copying
        }),
        2 => draft.copy(Copying { size: 1, ..copying }),
        3 => draft.any_viewport()?,
        4 => draft.any_clear()?,
        _ => {
            draft.host_buffer()?;
        }
    }
    kept("64 records and none more")
}
