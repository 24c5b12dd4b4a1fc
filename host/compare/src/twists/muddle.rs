//! Packets with several faults at once, or none: which one is found first is what the fronts must agree on.

use crate::draft::Draft;
use crate::exports::some_shape;
use crate::floats;
use crate::good_state::{some_clear, some_viewport};
use crate::packet::{Backing, Clear, Copying, Scissor};

/// Puts in a packet whose fields are good or bad each by itself.
pub fn muddled(draft: &mut Draft) {
    match draft.random.within(0..=9) {
        0..=2 => muddled_state(draft),
        3..=4 => muddled_share(draft),
        _ => muddled_resource(draft),
    }
}

fn muddled_resource(draft: &mut Draft) {
    match draft.random.within(0..=4) {
        0 => {
            let (handle, backing) = (some_new_handle(draft), some_backing(draft));
            let size = draft.random.pick(&[0, 1, 8, 300, u64::MAX]);
            draft.create_buffer(handle, size, backing);
        }
        1 => {
            let (handle, backing) = (some_new_handle(draft), some_backing(draft));
            let shape = some_shape(draft.random);
            draft.create_texture(handle, shape, backing);
        }
        2 => {
            let handle = some_old_handle(draft);
            let (offset, size) = (some_number(draft, handle), some_number(draft, handle));
            draft.dirty(handle, offset, size);
        }
        _ => {
            let to = some_old_handle(draft);
            let from = if draft.random.percent(10) {
                to
            } else {
                some_old_handle(draft)
            };
            let copying = Copying {
                to,
                from,
                to_offset: some_number(draft, to),
                from_offset: some_number(draft, from),
                size: some_number(draft, to),
                flags: draft.random.pick(&[0, 1, 1, 1, 2, 3]),
            };
            draft.copy(copying);
        }
    }
}

fn muddled_state(draft: &mut Draft) {
    match draft.random.within(0..=3) {
        0 => {
            let handle = some_old_handle(draft);
            draft.set_target(handle);
        }
        1 => {
            let viewport = some_viewport(draft.random).map(|good| some_float(draft, good));
            draft.viewport(viewport);
        }
        2 => {
            let [x, y, width, height] = [(); 4].map(|()| some_whole_number(draft));
            draft.scissor(Scissor {
                x,
                y,
                width,
                height,
            });
        }
        _ => {
            let good = some_clear(draft.random);
            let clear = Clear {
                flags: draft.random.pick(&[0, 1, 7, 7, 8, u32::MAX]),
                colour: good.colour.map(|part| some_float(draft, part)),
                depth: some_float(draft, good.depth),
                stencil: good.stencil,
            };
            draft.clear(clear);
        }
    }
}

fn muddled_share(draft: &mut Draft) {
    let token = some_token(draft);
    match draft.random.within(0..=2) {
        0 => {
            let handle = some_old_handle(draft);
            draft.export(handle, token);
        }
        1 => {
            let handle = some_new_handle(draft);
            draft.import(handle, token);
        }
        _ => draft.release(token),
    }
}

/// 0, one that was used, or one that was not.
fn some_token(draft: &mut Draft) -> u64 {
    match draft.random.within(0..=3) {
        0 => 0,
        1..=2 if !draft.tokens.is_empty() => draft.random.pick(&draft.tokens).number,
        _ => draft.fresh_token(),
    }
}

/// The good one, or any.
fn some_float(draft: &mut Draft, good: u32) -> u32 {
    if draft.random.percent(80) {
        good
    } else {
        floats::any(draft.random)
    }
}

fn some_whole_number(draft: &mut Draft) -> i32 {
    match draft.random.within(0..=3) {
        0 => draft.random.word() as i32,
        1 => draft.random.pick(&[i32::MIN, -1, i32::MAX]),
        _ => draft.random.within(0..=30) as i32,
    }
}

fn some_new_handle(draft: &mut Draft) -> u32 {
    match draft.random.within(0..=4) {
        0 => 0,
        1 => some_old_handle(draft),
        _ => draft.fresh_handle(),
    }
}

fn some_old_handle(draft: &mut Draft) -> u32 {
    let live = draft.find(|_, _| true);
    match (draft.random.within(0..=9), live) {
        (0, _) => 0,
        (1, _) | (_, None) => draft.fresh_handle(),
        (_, Some(resource)) => resource.handle,
    }
}

fn some_backing(draft: &mut Draft) -> Backing {
    let offset = draft.random.pick(&[0, 0, 1, 64, u32::MAX]);
    let id = match draft.random.within(0..=4) {
        0 => 0,
        1 => draft.foreign_id(),
        _ if draft.entries.is_empty() => 0,
        _ => draft.random.pick(&draft.entries).id,
    };
    Backing { id, offset }
}

/// A number about the size of the resource with this handle, if there is one.
fn some_number(draft: &mut Draft, handle: u32) -> u64 {
    let bytes = draft
        .live
        .iter()
        .find(|resource| resource.handle == handle)
        .map_or(0, |resource| resource.bytes);
    match draft.random.within(0..=7) {
        0..=2 => 0,
        3 => 1,
        4 => bytes,
        5 => bytes.wrapping_add(1),
        6 => draft.random.within(0..=bytes),
        _ => draft.random.any_size(),
    }
}
