//! Twists of copy: 18, 21 to 26.

use super::touch::{far_out, smaller_entry, touch_at_cover, without_entry};
use super::{broken, judged, Aim, PacketTwist};
use crate::draft::{Draft, Resource};
use crate::numbers::error::{
    BACKING, COPY, HANDLE, HOST_BACKED, NO_ENTRY, READ_ONLY, RESOURCE_RANGE,
};
use crate::numbers::WRITEBACK;
use crate::packet::Copying;

pub const TWISTS: &[PacketTwist] = &[
    copy_handles,
    copy_same_handle,
    copy_flags,
    copy_end,
    copy_far_out,
    writeback_host_backed,
];

/// Those that change the table, of which the draft must not have used an entry yet: the first packets of a submission. The smaller
/// entry is rarely found and comes to one of three ends, so it is tried three times as often.
pub const FIRST_TWISTS: &[PacketTwist] = &[
    writeback_without_entry,
    writeback_smaller_entry,
    writeback_smaller_entry,
    writeback_smaller_entry,
    writeback_read_only,
];

fn copy_of(to: Resource, from: Resource, flags: u32) -> Copying {
    Copying {
        to: to.handle,
        from: from.handle,
        to_offset: 0,
        from_offset: 0,
        size: 0,
        flags,
    }
}

fn two_buffers(draft: &mut Draft) -> Option<(Resource, Resource)> {
    let to = draft.backed_buffer().or_else(|| draft.any_buffer())?;
    let from = draft.any_buffer()?;
    Some((to, from))
}

fn copy_handles(draft: &mut Draft) -> Option<Aim> {
    let (to, from) = two_buffers(draft)?;
    let texture = draft.any_texture()?;
    let wrong = match draft.random.within(0..=2) {
        0 => 0,
        1 => draft.fresh_handle(),
        _ => texture.handle,
    };
    let flags = draft.random.within(0..=2) as u32;
    let mut copying = copy_of(to, from, flags);
    if draft.random.coin() {
        copying.to = wrong;
    } else {
        copying.from = wrong;
    }
    draft.copy(copying);
    broken("copy: not a live buffer", HANDLE)
}

fn copy_same_handle(draft: &mut Draft) -> Option<Aim> {
    let buffer = draft.any_buffer()?;
    let flags = draft.random.within(0..=1) as u32;
    let size = draft.random.pick(&[0, 1, u64::MAX]);
    draft.copy(Copying {
        size,
        ..copy_of(buffer, buffer, flags)
    });
    broken("copy: same handle", COPY)
}

fn copy_flags(draft: &mut Draft) -> Option<Aim> {
    let (to, from) = two_buffers(draft)?;
    let flags = draft.random.pick(&[0, 2, 2, 3, 0x8000_0001, u32::MAX]);
    draft.copy(copy_of(to, from, flags));
    judged("copy: flags", flags < 2, COPY)
}

fn copy_end(draft: &mut Draft) -> Option<Aim> {
    let (to, from) = two_buffers(draft)?;
    let past = draft.random.within(0..=1);
    let mut copying = copy_of(to, from, 0);
    let rule = if draft.random.coin() {
        copying.size = draft.random.edgy(0..=to.bytes.min(from.bytes));
        copying.to_offset = (to.bytes - copying.size).checked_add(past)?;
        "copy: end of the destination"
    } else {
        copying.size = draft.random.edgy(0..=to.bytes.min(from.bytes));
        copying.from_offset = (from.bytes - copying.size).checked_add(past)?;
        "copy: end of the source"
    };
    draft.copy(copying);
    judged(rule, past == 0, RESOURCE_RANGE)
}

fn copy_far_out(draft: &mut Draft) -> Option<Aim> {
    let to = draft.any_buffer()?;
    let from = draft.any_buffer()?;
    let (offset, size) = far_out(draft);
    let mut copying = Copying {
        size,
        ..copy_of(to, from, 0)
    };
    if draft.random.coin() {
        copying.to_offset = offset;
    } else {
        copying.from_offset = offset;
    }
    draft.copy(copying);
    broken("copy: far out", RESOURCE_RANGE)
}

/// Copies a byte or none, with writeback or without it, and gives the flags.
fn copy_little(draft: &mut Draft, to: Resource, from: Resource) -> u32 {
    let flags = draft.random.pick(&[WRITEBACK, WRITEBACK, 0]);
    let size = draft.random.within(0..=1);
    draft.copy(Copying {
        size,
        ..copy_of(to, from, flags)
    });
    flags
}

fn writeback_host_backed(draft: &mut Draft) -> Option<Aim> {
    let to = draft.host_buffer()?;
    let from = draft.any_buffer()?;
    let good = copy_little(draft, to, from) == 0;
    judged("copy: writeback to a host-backed buffer", good, HOST_BACKED)
}

fn writeback_without_entry(draft: &mut Draft) -> Option<Aim> {
    let to = without_entry(draft, |resource| !resource.texture)?;
    let from = draft.host_buffer()?;
    let good = copy_little(draft, to, from) == 0;
    judged("copy: writeback, id not in this table", good, NO_ENTRY)
}

/// 22 comes before 23: whether the entry is read-only counts only for what lies within it.
fn writeback_smaller_entry(draft: &mut Draft) -> Option<Aim> {
    let (to, left) = smaller_entry(draft, |resource| !resource.texture)?;
    any_entry_flags(draft, to.backing.id);
    let handle = draft.fresh_handle();
    draft.create_buffer(handle, to.bytes + 1, Default::default());
    let from = draft.live.last().copied()?;
    let (to_offset, size, good) = touch_at_cover(draft, left);
    draft.copy(Copying {
        to_offset,
        size,
        ..copy_of(to, from, WRITEBACK)
    });
    let rule = "copy: writeback, smaller entry than at creation";
    if good && !draft.writable(&to) {
        return broken(rule, READ_ONLY);
    }
    judged(rule, good, BACKING)
}

fn any_entry_flags(draft: &mut Draft, id: u32) {
    let flags = draft.random.word();
    for entry in draft.entries.iter_mut().filter(|entry| entry.id == id) {
        entry.flags = flags;
    }
}

fn writeback_read_only(draft: &mut Draft) -> Option<Aim> {
    let to = draft.backed_buffer()?;
    let from = draft.any_buffer()?;
    any_entry_flags(draft, to.backing.id);
    let good = copy_little(draft, to, from) == 0 || draft.writable(&to);
    judged("copy: writeback to a read-only entry", good, READ_ONLY)
}
