//! Twists of a packet's frame, its size and what is left of the stream: 17. Sizes of known packets are in `grown`.

use super::{broken, judged, kept, Aim, PacketTwist};
use crate::draft::Draft;
use crate::image::put32;
use crate::numbers::error::PACKET;
use crate::numbers::{KNOWN_PACKETS, PACKET_HEADER, UNKNOWN_OPCODES};
use crate::packet;

pub const TWISTS: &[PacketTwist] = &[
    bytes_left,
    size_below_header,
    size_not_of_fours,
    past_the_end,
    far_past_the_end,
    smallest_unknown,
];

fn some_opcode(draft: &mut Draft) -> u32 {
    if draft.random.coin() {
        draft.random.pick(&KNOWN_PACKETS).0
    } else {
        draft.random.pick(&UNKNOWN_OPCODES)
    }
}

fn bytes_left(draft: &mut Draft) -> Option<Aim> {
    let left = draft.random.within(1..=u64::from(PACKET_HEADER) - 1) as usize;
    let mut bytes = vec![0; left];
    draft.random.noise(&mut bytes);
    draft.push(bytes);
    draft.closed = true;
    broken("packet: 1 to 7 bytes left", PACKET)
}

fn size_below_header(draft: &mut Draft) -> Option<Aim> {
    let opcode = some_opcode(draft);
    let size = draft.random.pick(&[0, 4, 7]);
    let bytes = packet::any(draft.random, opcode, size);
    draft.push(bytes);
    broken("packet: size below 8", PACKET)
}

fn size_not_of_fours(draft: &mut Draft) -> Option<Aim> {
    let size = 8 + draft.random.pick(&[1, 2, 3, 5, 33]);
    let opcode = draft.random.pick(&UNKNOWN_OPCODES);
    let bytes = packet::any(draft.random, opcode, size);
    draft.push(bytes);
    broken("packet: size not a multiple of 4", PACKET)
}

fn past_the_end(draft: &mut Draft) -> Option<Aim> {
    let mut bytes = if draft.random.coin() {
        let (opcode, size) = draft.random.pick(&KNOWN_PACKETS);
        let whole = packet::any(draft.random, opcode, size);
        whole[..whole.len() - 4].to_vec()
    } else {
        let size = 8 + 4 * draft.random.within(0..=3) as u32;
        let opcode = draft.random.pick(&UNKNOWN_OPCODES);
        packet::any(draft.random, opcode, size)
    };
    let size = bytes.len() as u32 + 4;
    put32(&mut bytes, 4, size);
    draft.push(bytes);
    draft.closed = true;
    broken("packet: size past the end", PACKET)
}

fn far_past_the_end(draft: &mut Draft) -> Option<Aim> {
    let opcode = some_opcode(draft);
    let mut bytes = packet::any(draft.random, opcode, 16);
    let size = draft.random.pick(&[u32::MAX - 3, 1 << 31, 0xffff_0000]);
    put32(&mut bytes, 4, size);
    draft.push(bytes);
    broken("packet: size far past the end", PACKET)
}

fn smallest_unknown(draft: &mut Draft) -> Option<Aim> {
    let opcode = draft.random.pick(&UNKNOWN_OPCODES);
    let size = draft.random.pick(&[PACKET_HEADER, PACKET_HEADER + 4]);
    let bytes = packet::any(draft.random, opcode, size);
    draft.push(bytes);
    if draft.random.coin() {
        draft.closed = true;
        return kept("packet: ends with the stream");
    }
    judged("packet: smallest unknown", true, PACKET)
}
