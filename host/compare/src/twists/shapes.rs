//! Twists of texture shapes: 20, and 22 for good shapes that are too large for their entry.

use super::create::{any_entry, room_for_one};
use super::{broken, judged, kept, Aim, PacketTwist};
use crate::draft::Draft;
use crate::numbers::error::{BACKING, SHAPE};
use crate::numbers::{LONGEST_SIDE, MOST_LAYERS};
use crate::packet::Backing;
use crate::shape::Shape;

pub const TWISTS: &[PacketTwist] = &[format, sides, mips, layers, pitch];

fn format(draft: &mut Draft) -> Option<Aim> {
    let format = draft.random.pick(&[0, 1, 3, 4, 63, 64, 66, 67, u32::MAX]);
    let good = (1..=3).contains(&format) || (64..=66).contains(&format);
    let shape = Shape {
        format,
        ..Shape::random(draft.random)
    };
    let shape = Shape {
        pitch: shape.least_pitch(),
        ..shape
    };
    with_shape(draft, "create: format", shape, good)
}

fn sides(draft: &mut Draft) -> Option<Aim> {
    let side = draft
        .random
        .pick(&[0, 1, LONGEST_SIDE, LONGEST_SIDE + 1, u32::MAX]);
    let good = (1..=LONGEST_SIDE).contains(&side);
    let other = draft.random.pick(&[1, 4, 5]);
    let format = draft.random.pick(&[1, 64, 65]);
    let (rule, width, height) = if draft.random.coin() {
        ("create: width", side, other)
    } else {
        ("create: height", other, side)
    };
    let shape = Shape {
        format,
        width,
        height,
        mips: 1,
        layers: 1,
        pitch: 0,
    };
    let shape = Shape {
        pitch: shape.least_pitch(),
        ..shape
    };
    with_shape(draft, rule, shape, good)
}

fn mips(draft: &mut Draft) -> Option<Aim> {
    let shape = Shape::random(draft.random);
    let most = shape.full_chain();
    let mips = draft
        .random
        .pick(&[0, 1, most, most, most + 1, most + 1, 32, 64, u32::MAX]);
    with_shape(
        draft,
        "create: mips",
        Shape { mips, ..shape },
        (1..=most).contains(&mips),
    )
}

fn layers(draft: &mut Draft) -> Option<Aim> {
    let mut shape = Shape::random(draft.random);
    if draft.random.coin() {
        shape = Shape {
            format: 1,
            width: 1,
            height: 1,
            mips: 1,
            layers: 1,
            pitch: 4,
        };
    }
    let layers = draft
        .random
        .pick(&[0, 1, MOST_LAYERS, MOST_LAYERS, MOST_LAYERS + 1, u32::MAX]);
    with_shape(
        draft,
        "create: layers",
        Shape { layers, ..shape },
        (1..=MOST_LAYERS).contains(&layers),
    )
}

fn pitch(draft: &mut Draft) -> Option<Aim> {
    let shape = Shape::random(draft.random);
    let least = shape.least_pitch();
    let pitch = draft
        .random
        .pick(&[0, least - 1, least - 1, least, least, least + 1, u32::MAX]);
    let shape = Shape { pitch, ..shape };
    if draft.random.percent(20) {
        room_for_one(draft)?;
        let handle = draft.fresh_handle();
        draft.create_texture(handle, shape, Backing::default());
        return kept("create: pitch of a host-backed texture");
    }
    let entry = any_entry(draft)?;
    let handle = draft.fresh_handle();
    draft.create_texture(
        handle,
        shape,
        Backing {
            id: entry.id,
            offset: 0,
        },
    );
    if pitch < least {
        return broken("create: pitch", SHAPE);
    }
    judged("create: pitch", shape.packed() <= entry.size, BACKING)
}

/// Creates a texture of this shape, backed where the table has an entry, so that 20 and 22 both come into question.
fn with_shape(draft: &mut Draft, rule: &'static str, shape: Shape, good: bool) -> Option<Aim> {
    room_for_one(draft)?;
    let entry = if draft.random.coin() {
        any_entry(draft)
    } else {
        None
    };
    let handle = draft.fresh_handle();
    let backing = Backing {
        id: entry.map_or(0, |entry| entry.id),
        offset: 0,
    };
    draft.create_texture(handle, shape, backing);
    match entry {
        _ if !good => broken(rule, SHAPE),
        Some(entry) => judged(rule, shape.packed() <= entry.size, BACKING),
        None => kept(rule),
    }
}
