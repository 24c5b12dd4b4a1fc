//! Twists of viewport and clear: 30, every float of theirs at every boundary.

use super::{judged, kept, Aim, PacketTwist};
use crate::draft::Draft;
use crate::floats::{self, Asked, Edge, BEFORE_ONE, EDGES, LEAST_DENORMAL, MINUS_ZERO, ONE, ZERO};
use crate::good_state::{some_clear, some_viewport};
use crate::numbers::error::STATE;
use crate::numbers::MOST_CLEAR_FLAGS;
use crate::packet::Clear;

pub const TWISTS: &[PacketTwist] = &[
    viewport_field,
    viewport_field,
    viewport_field,
    viewport_field,
    clear_field,
    clear_field,
    clear_field,
    viewport_order,
    clear_flags,
    clear_stencil,
];

const NEAR: usize = 4;
const FAR: usize = 5;

/// The fields of a viewport, in their order, each with what its rules ask.
const VIEWPORT: [(&str, Asked); 6] = [
    ("viewport: x", Asked::Finite),
    ("viewport: y", Asked::Finite),
    ("viewport: width", Asked::Side),
    ("viewport: height", Asked::Side),
    ("viewport: near", Asked::Depth),
    ("viewport: far", Asked::Depth),
];

/// The floats of a clear: the colour's, and the depth.
const CLEAR: [(&str, Asked); 5] = [
    ("clear: red", Asked::Finite),
    ("clear: green", Asked::Finite),
    ("clear: blue", Asked::Finite),
    ("clear: alpha", Asked::Finite),
    ("clear: depth", Asked::Depth),
];

/// A boundary, on either side of the rule as often as on the other.
fn some_edge(draft: &mut Draft, asked: Asked) -> (Edge, bool) {
    let good = draft.random.coin();
    loop {
        let edge = draft.random.pick(&EDGES);
        if asked.fits(edge.bits) == good {
            return (edge, good);
        }
    }
}

/// The aim, with the float that is to meet it.
fn at_edge(edge: Edge, aim: Option<Aim>) -> Option<Aim> {
    let float = Some(edge.name);
    aim.map(|aim| Aim { float, ..aim })
}

/// One field is at a boundary, and the others are good: near and far as far apart as can be.
fn viewport_field(draft: &mut Draft) -> Option<Aim> {
    let field = draft.random.index(VIEWPORT.len());
    let (rule, asked) = VIEWPORT[field];
    let (edge, good) = some_edge(draft, asked);
    let mut viewport = some_viewport(draft.random);
    match field {
        NEAR => viewport[FAR] = ONE,
        FAR => viewport[NEAR] = draft.random.pick(&[ZERO, MINUS_ZERO]),
        _ => {}
    }
    viewport[field] = edge.bits;
    draft.viewport(viewport);
    at_edge(edge, judged(rule, good, STATE))
}

/// Both within 0 to 1, and one bit apart at most.
fn viewport_order(draft: &mut Draft) -> Option<Aim> {
    let middle = Asked::Depth.some(draft.random).clamp(1, ONE - 1);
    let (near, far, good) = draft.random.pick(&[
        (middle, middle, true),
        (middle, middle + 1, true),
        (middle + 1, middle, false),
        (ZERO, MINUS_ZERO, true),
        (MINUS_ZERO, ZERO, true),
        (LEAST_DENORMAL, MINUS_ZERO, false),
        (LEAST_DENORMAL, ZERO, false),
        (MINUS_ZERO, LEAST_DENORMAL, true),
        (BEFORE_ONE, ONE, true),
        (ONE, BEFORE_ONE, false),
        (ONE, ONE, true),
        (ONE, MINUS_ZERO, false),
    ]);
    let mut viewport = some_viewport(draft.random);
    viewport[NEAR] = near;
    viewport[FAR] = far;
    draft.viewport(viewport);
    judged("viewport: near above far", good, STATE)
}

/// Whatever its flags say.
fn clear_field(draft: &mut Draft) -> Option<Aim> {
    let field = draft.random.index(CLEAR.len());
    let (rule, asked) = CLEAR[field];
    let (edge, good) = some_edge(draft, asked);
    let mut clear = some_clear(draft.random);
    match clear.colour.get_mut(field) {
        Some(part) => *part = edge.bits,
        None => clear.depth = edge.bits,
    }
    draft.clear(clear);
    at_edge(edge, judged(rule, good, STATE))
}

fn clear_flags(draft: &mut Draft) -> Option<Aim> {
    let flags = draft.random.pick(&[
        0,
        MOST_CLEAR_FLAGS,
        MOST_CLEAR_FLAGS,
        MOST_CLEAR_FLAGS + 1,
        MOST_CLEAR_FLAGS + 1,
        0x8000_0000,
        u32::MAX,
    ]);
    let clear = some_clear(draft.random);
    draft.clear(Clear { flags, ..clear });
    judged("clear: flags", flags <= MOST_CLEAR_FLAGS, STATE)
}

/// It is no float, so it may be what a float may not.
fn clear_stencil(draft: &mut Draft) -> Option<Aim> {
    let stencil = floats::any(draft.random);
    let clear = some_clear(draft.random);
    draft.clear(Clear { stencil, ..clear });
    kept("clear: any stencil")
}
