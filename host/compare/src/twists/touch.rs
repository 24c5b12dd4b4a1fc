//! What twists of the packets that touch a resource's bytes have in common: which resource, and which range of it.

use crate::draft::{Draft, Resource};
use crate::numbers::MOST_RECORDS;

/// A backed resource that this table's entry covers whole.
pub fn whole_backed(draft: &mut Draft) -> Option<Resource> {
    if draft.records >= MOST_RECORDS - 1 {
        return None;
    }
    let made = if draft.random.coin() {
        draft.backed_texture()
    } else {
        draft.backed_buffer()
    };
    made.or_else(|| draft.find(|draft, resource| draft.covered(resource) == Some(resource.bytes)))
}

/// A range that ends so far past the last byte, of size 0 now and then.
pub fn range_to_end(draft: &mut Draft, bytes: u64, past: u64) -> (u64, u64) {
    let offset = draft.random.edgy(0..=bytes + past);
    (offset, bytes + past - offset)
}

/// Sums near 2^64, also those that would wrap into the resource.
pub fn far_out(draft: &mut Draft) -> (u64, u64) {
    draft.random.pick(&[
        (u64::MAX, 0),
        (u64::MAX, 1),
        (u64::MAX, 2),
        (1, u64::MAX),
        (2, u64::MAX),
        (1 << 63, 1 << 63),
        (u64::MAX, u64::MAX),
        (1 << 32, 0),
        (0, 1 << 32),
    ])
}

/// Takes the entry of an older resource out of the table.
pub fn without_entry(draft: &mut Draft, fits: fn(&Resource) -> bool) -> Option<Resource> {
    let resource = draft.find(|_, resource| resource.backed() && fits(resource))?;
    draft
        .entries
        .retain(|entry| entry.id != resource.backing.id);
    Some(resource)
}

/// Shrinks the entry of an older resource, so that it ends this many bytes into the resource, or before it (negative).
pub fn smaller_entry(draft: &mut Draft, fits: fn(&Resource) -> bool) -> Option<(Resource, i64)> {
    let resource = draft.find(|draft, resource| {
        draft.entry(resource.backing.id).is_some() && resource.backing.offset > 1 && fits(resource)
    })?;
    let left = if draft.random.percent(20) {
        -1
    } else {
        draft.random.edgy(0..=resource.bytes - 1) as i64
    };
    let size = (i64::from(resource.backing.offset) + left) as u64;
    for entry in draft
        .entries
        .iter_mut()
        .filter(|entry| entry.id == resource.backing.id)
    {
        entry.gpa = entry.gpa.min(draft.memory.saturating_sub(size));
        entry.size = size;
    }
    Some((resource, left))
}

/// Where a touch of a resource with `left` covered bytes goes: to the last covered byte, or one past it.
pub fn touch_at_cover(draft: &mut Draft, left: i64) -> (u64, u64, bool) {
    if left < 0 {
        return (0, 0, false);
    }
    let past = draft.random.within(0..=1);
    let (offset, size) = range_to_end(draft, left as u64, past);
    (offset, size, past == 0)
}
