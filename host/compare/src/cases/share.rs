//! The input of exports, imports and releases: many tokens and names stand before, and each submission leaves them as it found them,
//! since the host says that it failed.

use super::handle_of_row;
use crate::numbers::MOST_TOKENS;
use crate::packet;
use crate::random::Random;

/// What stands before: textures, tokens that are bound to them in turn, and names in all.
pub const TEXTURES: usize = 40;
const TOKENS: usize = 200;
const NAMES: usize = 60;

pub const INPUT: &str =
    "56 times export a host-backed texture by a new token, import it under a new name, release the token and destroy the name, beside 200 \
     tokens and 60 names of 40 textures (as many tokens in the end as there may be); no table; answered failed, so that the next one finds \
     the same";

/// Binds the tokens and gives the first textures another name.
pub fn tokens_and_names(random: &mut Random) -> Vec<Vec<u8>> {
    let mut packets = Vec::new();
    for i in 0..TOKENS {
        let handle = handle_of_row(i % TEXTURES);
        packets.push(packet::export(random, handle, token(i)));
    }
    for row in TEXTURES..NAMES {
        let of = token(row - TEXTURES);
        packets.push(packet::import(random, handle_of_row(row), of));
    }
    packets
}

/// The packet at this place of the stream.
pub fn packet(random: &mut Random, i: usize) -> Option<Vec<u8>> {
    let round = i / 4;
    let (token, name) = (token(TOKENS + round), handle_of_row(NAMES));
    if TOKENS + round >= MOST_TOKENS {
        return None;
    }
    Some(match i % 4 {
        0 => packet::export(random, handle_of_row(round % TEXTURES), token),
        1 => packet::import(random, name, token),
        2 => packet::release(random, token),
        _ => packet::destroy(random, name),
    })
}

/// Tokens in no order, that differ in both words.
fn token(i: usize) -> u64 {
    const ODD: u64 = 0x9e37_79b9_7f4a_7c15;
    (i as u64 + 1).wrapping_mul(ODD)
}
