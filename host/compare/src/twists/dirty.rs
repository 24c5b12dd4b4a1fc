//! Twists of dirty: 18, 21, 22, 24, 25.

use super::touch::{
    far_out, range_to_end, smaller_entry, touch_at_cover, whole_backed, without_entry,
};
use super::{broken, judged, Aim, PacketTwist};
use crate::draft::Draft;
use crate::numbers::error::{BACKING, HANDLE, HOST_BACKED, NO_ENTRY, RESOURCE_RANGE};

pub const TWISTS: &[PacketTwist] = &[dirty_handle, dirty_host_backed, dirty_end, dirty_far_out];

/// Those that change the table, of which the draft must not have used an entry yet: the first packets of a submission.
pub const FIRST_TWISTS: &[PacketTwist] = &[dirty_without_entry, dirty_smaller_entry];

fn dirty_handle(draft: &mut Draft) -> Option<Aim> {
    let handle = draft.dead_handle()?;
    let size = draft.random.within(0..=1);
    draft.dirty(handle, 0, size);
    broken("dirty: handle not live", HANDLE)
}

/// 25 comes before 24, so the range may be anything.
fn dirty_host_backed(draft: &mut Draft) -> Option<Aim> {
    let resource = draft
        .find(|_, resource| !resource.backed())
        .or_else(|| draft.host_buffer())?;
    let (offset, size) = (
        draft.random.pick(&[0, u64::MAX]),
        draft.random.pick(&[0, 1, u64::MAX]),
    );
    draft.dirty(resource.handle, offset, size);
    broken("dirty: host-backed", HOST_BACKED)
}

fn dirty_end(draft: &mut Draft) -> Option<Aim> {
    let resource = whole_backed(draft)?;
    let past = draft.random.within(0..=1);
    let (offset, size) = range_to_end(draft, resource.bytes, past);
    draft.dirty(resource.handle, offset, size);
    judged("dirty: end of the resource", past == 0, RESOURCE_RANGE)
}

fn dirty_far_out(draft: &mut Draft) -> Option<Aim> {
    let resource = whole_backed(draft)?;
    let (offset, size) = far_out(draft);
    draft.dirty(resource.handle, offset, size);
    broken("dirty: far out", RESOURCE_RANGE)
}

fn dirty_without_entry(draft: &mut Draft) -> Option<Aim> {
    let resource = without_entry(draft, |_| true)?;
    let (offset, size) = range_to_end(draft, resource.bytes, 0);
    draft.dirty(resource.handle, offset, size);
    broken("dirty: id not in this table", NO_ENTRY)
}

fn dirty_smaller_entry(draft: &mut Draft) -> Option<Aim> {
    let (resource, left) = smaller_entry(draft, |_| true)?;
    let (offset, size, good) = touch_at_cover(draft, left);
    draft.dirty(resource.handle, offset, size);
    judged("dirty: smaller entry than at creation", good, BACKING)
}
