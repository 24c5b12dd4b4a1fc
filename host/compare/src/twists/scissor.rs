//! Twists of scissor: 30 for its sides, and what is left of it beside the edges of the target.

use super::target::some_target;
use super::{judged, kept, Aim, PacketTwist};
use crate::draft::Draft;
use crate::good_state::some_scissor;
use crate::numbers::error::STATE;
use crate::numbers::LONGEST_SIDE;
use crate::packet::Scissor;

pub const TWISTS: &[PacketTwist] = &[sides, edges, edges, edges];

fn sides(draft: &mut Draft) -> Option<Aim> {
    let target = some_target(draft)?;
    let mut scissor = some_scissor(draft.random, target);
    let side = draft.random.pick(&[-1, -1, i32::MIN, 0, 0, 1, i32::MAX]);
    let rule = if draft.random.coin() {
        scissor.width = side;
        "scissor: width"
    } else {
        scissor.height = side;
        "scissor: height"
    };
    draft.scissor(scissor);
    judged(rule, side >= 0, STATE)
}

/// What a scissor does along one side of the target, so many pixels long: its name, where it begins and how long it is.
type Span = (&'static str, i32, i32);

fn spans(side: i32) -> [Span; 18] {
    const MIN: i32 = i32::MIN;
    const MAX: i32 = i32::MAX;
    [
        ("scissor: of length 0", 0, 0),
        ("scissor: ends at 0", -3, 3),
        ("scissor: ends behind 0", -3, 4),
        ("scissor: ends before 0", -3, 2),
        ("scissor: begins before 0", -1, side),
        ("scissor: begins at 0", 0, 1),
        ("scissor: ends before the target's end", 0, side - 1),
        ("scissor: ends at the target's end", 0, side),
        ("scissor: ends behind the target's end", 0, side + 1),
        ("scissor: over the whole target", -1, side + 2),
        ("scissor: begins before the target's end", side - 1, 5),
        ("scissor: begins at the target's end", side, 5),
        ("scissor: begins behind the target's end", side + 1, 5),
        ("scissor: from the least corner, too short", MIN, MAX),
        ("scissor: from the least corner but one, to 0", MIN + 1, MAX),
        ("scissor: from the least corner but two", MIN + 2, MAX),
        ("scissor: ends behind 2^31", side - 1, MAX),
        ("scissor: begins at the last corner", MAX, MAX),
    ]
}

/// One span is at an edge, and the other is mostly all of its side, so that it is the first which counts.
fn edges(draft: &mut Draft) -> Option<Aim> {
    let target = some_target(draft)?;
    let [across, down] = [target.width, target.height].map(|side| side.min(LONGEST_SIDE) as i32);
    let mut scissor = if draft.random.percent(70) {
        Scissor {
            x: 0,
            y: 0,
            width: across,
            height: down,
        }
    } else {
        some_scissor(draft.random, target)
    };
    let rule = if draft.random.coin() {
        let (rule, start, length) = draft.random.pick(&spans(across));
        (scissor.x, scissor.width) = (start, length);
        rule
    } else {
        let (rule, start, length) = draft.random.pick(&spans(down));
        (scissor.y, scissor.height) = (start, length);
        rule
    };
    draft.scissor(scissor);
    kept(rule)
}
