//! Twists of a known packet's size: it is good from the table size upward (wish 2), inside the stream and in fours; else 17.

use super::target::some_target;
use super::{broken, judged, Aim, PacketTwist};
use crate::draft::{Draft, Resource};
use crate::floats::NOT_A_NUMBER;
use crate::good_shares::Shared;
use crate::good_state::some_viewport;
use crate::image::put32;
use crate::numbers::error::{HANDLE, PACKET, STATE};
use crate::numbers::KNOWN_PACKETS;

pub const TWISTS: &[PacketTwist] = &[
    least_size,
    grown_to_the_end,
    grown_not_by_fours,
    grown_and_dead,
    grown_and_not_a_number,
];

/// A packet is grown by at most so many words.
const MOST_WORDS: u64 = 16;

/// A rule's name for each of the known packets, in their order.
type Names = [&'static str; KNOWN_PACKETS.len()];

const LEAST_SIZE: Names = [
    "create buffer: table size",
    "create texture: table size",
    "destroy: table size",
    "dirty: table size",
    "copy: table size",
    "target: table size",
    "viewport: table size",
    "scissor: table size",
    "clear: table size",
    "export: table size",
    "import: table size",
    "release: table size",
];

const TO_THE_END: Names = [
    "create buffer: grown to the end of the stream",
    "create texture: grown to the end of the stream",
    "destroy: grown to the end of the stream",
    "dirty: grown to the end of the stream",
    "copy: grown to the end of the stream",
    "target: grown to the end of the stream",
    "viewport: grown to the end of the stream",
    "scissor: grown to the end of the stream",
    "clear: grown to the end of the stream",
    "export: grown to the end of the stream",
    "import: grown to the end of the stream",
    "release: grown to the end of the stream",
];

/// Puts in a known packet that is believed to pass, and says which of them it is.
fn known_packet(draft: &mut Draft) -> Option<usize> {
    if draft.live.len() < 3 {
        draft.backed_buffer().or_else(|| draft.any_buffer())?;
        draft.any_buffer()?;
    }
    let which = draft.random.index(KNOWN_PACKETS.len());
    match which {
        0 => draft.any_buffer().map(drop),
        1 => draft.any_texture().map(drop),
        2 => draft.any_destroy().map(drop),
        3 => some_dirty(draft).map(drop),
        4 => draft.any_copy().map(drop),
        5 => some_target(draft).map(drop),
        6 => draft.any_viewport(),
        7 => some_target(draft).and_then(|_| draft.any_scissor()),
        8 => draft.any_clear(),
        _ => some_share_packet(draft, which),
    }?;
    Some(which)
}

/// A dirty range, of a buffer made for it if nothing else is covered.
fn some_dirty(draft: &mut Draft) -> Option<Resource> {
    draft.any_dirty().or_else(|| {
        draft.backed_buffer()?;
        draft.any_dirty()
    })
}

/// An export, import or release, of a texture made for it if need be.
fn some_share_packet(draft: &mut Draft, which: usize) -> Option<()> {
    if which == 9 {
        return draft.any_export().map(drop);
    }
    let Shared { token, .. } = draft.some_share()?;
    if which == 10 {
        return draft.second_name(token).map(drop);
    }
    draft.release(token);
    Some(())
}

/// 4 to 64.
fn some_bytes(draft: &mut Draft) -> usize {
    4 * draft.random.edgy(1..=MOST_WORDS) as usize
}

/// The last packet says that it has another size than its bytes are.
fn claim(draft: &mut Draft, more: u32) -> Option<()> {
    let last = draft.packets.last_mut()?;
    let size = last.len() as u32 + more;
    put32(last, 4, size);
    Some(())
}

/// Grown, and the packet behind it stands at its end; or shorter by a word.
fn least_size(draft: &mut Draft) -> Option<Aim> {
    let which = known_packet(draft)?;
    let good = draft.random.coin();
    if good {
        let bytes = some_bytes(draft);
        draft.grow_last(bytes);
    } else {
        let (_, least) = KNOWN_PACKETS[which];
        draft.cut_last(least as usize - 4);
    }
    judged(LEAST_SIZE[which], good, PACKET)
}

/// Its own bytes are the stream's last, and it reaches just as far or one word further.
fn grown_to_the_end(draft: &mut Draft) -> Option<Aim> {
    let which = known_packet(draft)?;
    let bytes = some_bytes(draft);
    draft.grow_last(bytes);
    draft.closed = true;
    let good = draft.random.coin();
    if !good {
        claim(draft, 4)?;
    }
    judged(TO_THE_END[which], good, PACKET)
}

fn grown_not_by_fours(draft: &mut Draft) -> Option<Aim> {
    known_packet(draft)?;
    let bytes = some_bytes(draft) - draft.random.within(1..=3) as usize;
    draft.grow_last(bytes);
    broken("packet: a grown one's size not a multiple of 4", PACKET)
}

/// A grown packet is still held to its own rules; those of its size come first.
fn grown_and_dead(draft: &mut Draft) -> Option<Aim> {
    let handle = draft.dead_handle()?;
    match draft.random.within(0..=5) {
        0 => draft.destroy(handle),
        1 => draft.dirty(handle, 0, 0),
        2 => draft.set_target(handle),
        3 => draft.export(handle, 0),
        4 => draft.import(0, 0),
        _ => draft.create_buffer(0, 1, Default::default()),
    }
    let bytes = some_bytes(draft);
    draft.grow_last(bytes);
    if draft.random.coin() {
        draft.closed = true;
        claim(draft, 4)?;
        return broken("packet: 17 of a grown one before 18", PACKET);
    }
    broken("packet: 18 of a grown one", HANDLE)
}

/// The same of 30.
fn grown_and_not_a_number(draft: &mut Draft) -> Option<Aim> {
    let mut viewport = some_viewport(draft.random);
    let field = draft.random.index(viewport.len());
    viewport[field] = NOT_A_NUMBER;
    draft.viewport(viewport);
    let bytes = some_bytes(draft);
    draft.grow_last(bytes);
    if draft.random.coin() {
        draft.closed = true;
        claim(draft, 4)?;
        return broken("packet: 17 of a grown one before 30", PACKET);
    }
    broken("packet: 30 of a grown one", STATE)
}
