//! Twists of handles and backing in create, and of destroy: 18, 20 for buffers, 21, 22.

use super::{broken, judged, kept, Aim, PacketTwist};
use crate::draft::Draft;
use crate::image::Entry;
use crate::numbers::error::{BACKING, HANDLE, NO_ENTRY, SHAPE};
use crate::numbers::{MOST_NAMES, MOST_RECORDS};
use crate::packet::Backing;
use crate::shape::Shape;

pub const TWISTS: &[PacketTwist] = &[
    handle,
    handle_used_again,
    buffer_size,
    backing_id,
    buffer_end,
    buffer_far_too_long,
    texture_end,
    destroyed_handle,
];

fn handle(draft: &mut Draft) -> Option<Aim> {
    let handle = if draft.random.coin() {
        0
    } else {
        let resource = draft.any_buffer().or_else(|| draft.find(|_, _| true))?;
        resource.handle
    };
    if draft.random.coin() {
        draft.create_buffer(handle, 16, Backing::default());
    } else {
        let shape = Shape::random(draft.random);
        draft.create_texture(handle, shape, Backing::default());
    }
    broken("create: handle 0 or live", HANDLE)
}

fn handle_used_again(draft: &mut Draft) -> Option<Aim> {
    let resource = draft.any_buffer()?;
    draft.destroy(resource.handle);
    draft.create_buffer(resource.handle, 16, Backing::default());
    kept("create: handle used again")
}

fn buffer_size(draft: &mut Draft) -> Option<Aim> {
    room_for_one(draft)?;
    let size = draft.random.pick(&[0, 0, 1, u64::MAX]);
    let handle = draft.fresh_handle();
    let backing = Backing {
        id: 0,
        offset: draft.random.word(),
    };
    draft.create_buffer(handle, size, backing);
    judged("create: buffer size 0", size != 0, SHAPE)
}

fn backing_id(draft: &mut Draft) -> Option<Aim> {
    room_for_one(draft)?;
    let handle = draft.fresh_handle();
    let backing = Backing {
        id: draft.foreign_id(),
        offset: 0,
    };
    if draft.random.coin() {
        draft.create_buffer(handle, 16, backing);
    } else {
        let shape = Shape::random(draft.random);
        draft.create_texture(handle, shape, backing);
    }
    broken("create: backing id", NO_ENTRY)
}

/// Room for one more resource and one more record, so that no other limit is met.
pub fn room_for_one(draft: &mut Draft) -> Option<()> {
    let free = draft.live.len() < MOST_NAMES && draft.records < MOST_RECORDS;
    free.then_some(())
}

pub fn any_entry(draft: &mut Draft) -> Option<Entry> {
    room_for_one(draft)?;
    if draft.entries.is_empty() {
        return None;
    }
    Some(draft.random.pick(&draft.entries))
}

fn buffer_end(draft: &mut Draft) -> Option<Aim> {
    let entry = any_entry(draft)?;
    let past = draft.random.within(0..=1);
    let offset = draft.random.edgy(0..=entry.size.min(u32::MAX.into()));
    let size = (entry.size - offset)
        .checked_add(past)
        .filter(|&size| size > 0)?;
    let handle = draft.fresh_handle();
    draft.create_buffer(
        handle,
        size,
        Backing {
            id: entry.id,
            offset: offset as u32,
        },
    );
    judged("create: backing end of a buffer", past == 0, BACKING)
}

fn buffer_far_too_long(draft: &mut Draft) -> Option<Aim> {
    let entry = any_entry(draft)?;
    let size = draft
        .random
        .pick(&[u64::MAX, u64::MAX - 1, 1 << 63, 1 << 32]);
    let offset = draft.random.pick(&[0, 1, 2, u32::MAX]);
    let handle = draft.fresh_handle();
    draft.create_buffer(
        handle,
        size,
        Backing {
            id: entry.id,
            offset,
        },
    );
    broken("create: backing end far out", BACKING)
}

fn texture_end(draft: &mut Draft) -> Option<Aim> {
    let entry = any_entry(draft)?;
    let shape = Shape::random(draft.random);
    let past = draft.random.within(0..=1);
    let offset = entry.size.checked_add(past)?.checked_sub(shape.packed())?;
    let offset = u32::try_from(offset).ok()?;
    let handle = draft.fresh_handle();
    draft.create_texture(
        handle,
        shape,
        Backing {
            id: entry.id,
            offset,
        },
    );
    judged("create: backing end of a texture", past == 0, BACKING)
}

fn destroyed_handle(draft: &mut Draft) -> Option<Aim> {
    let handle = draft.dead_handle()?;
    draft.destroy(handle);
    broken("destroy: handle not live", HANDLE)
}
