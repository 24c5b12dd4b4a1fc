//! Two memories that agree on some bytes: how the others are scrambled, and that what agreed agrees still.

use crate::player::{same, Difference};
use crate::random::Random;
use plain::listed::not_listed;
use std::ops::Range;

/// A memory with other bytes wherever none is listed: noise, every bit turned over, or what is in other places of the same memory.
pub fn scrambled(random: &mut Random, memory: &[u8], listed: &[Range<usize>]) -> Vec<u8> {
    let mut other = memory.to_vec();
    let gaps = not_listed(memory.len(), listed);
    match random.within(0..=3) {
        0 => gaps.into_iter().for_each(|gap| {
            other[gap].iter_mut().for_each(|byte| *byte = !*byte);
        }),
        1 => {
            let moved = 4 * random.within(0..=memory.len() as u64 / 4) as usize;
            gaps.into_iter().flatten().for_each(|at| {
                other[at] = memory[(at + moved) % memory.len()];
            })
        }
        _ => gaps
            .into_iter()
            .for_each(|gap| random.noise(&mut other[gap])),
    }
    other
}

/// For each byte whether the memories agree on it.
pub fn agreeing(one: &[u8], other: &[u8]) -> Vec<bool> {
    let pairs = one.iter().zip(other);
    pairs.map(|(one, other)| one == other).collect()
}

/// Whether the bytes that agreed do so still.
pub fn still_agree(agreed: &[bool], one: &[u8], other: &[u8]) -> Result<(), Difference> {
    let parted = |agreed: bool, one: u8, other: u8| agreed & (one != other);
    let bytes = || agreed.iter().zip(one).zip(other);
    // No early end, so that many bytes are compared at a time.
    if !bytes().fold(false, |any, ((agreed, one), other)| {
        any | parted(*agreed, *one, *other)
    }) {
        return Ok(());
    }
    let at = bytes()
        .take_while(|((agreed, one), other)| !parted(**agreed, **one, **other))
        .count();
    same(|| format!("byte {}, which agreed", at), one[at], other[at])
}

#[cfg(test)]
mod tests {
    use super::{agreeing, scrambled, still_agree};
    use crate::random::Random;

    /// Each of the ways is met, and every byte that is not listed becomes another in some of them.
    #[test]
    fn listed_bytes_stay_and_others_change() {
        let memory: Vec<u8> = (0..99).collect();
        let listed = [4..8, 96..99, 6..10];
        let mut random = Random::new(12);
        let mut changed = vec![0; memory.len()];
        for _ in 0..100 {
            let other = scrambled(&mut random, &memory, &listed);
            for (at, agree) in agreeing(&memory, &other).into_iter().enumerate() {
                changed[at] += u32::from(!agree);
            }
        }
        for (at, times) in changed.into_iter().enumerate() {
            let is_listed = listed.iter().any(|range| range.contains(&at));
            assert_eq!(times == 0, is_listed, "byte {}", at);
            assert!(is_listed || times > 80, "byte {}: {} times", at, times);
        }
        assert_eq!(scrambled(&mut random, &[], &[]), []);
    }

    #[test]
    fn only_bytes_that_agreed_must_agree_still() {
        let agreed = agreeing(&[1, 2, 3, 4], &[1, 9, 3, 9]);
        assert_eq!(agreed, [true, false, true, false]);
        assert!(still_agree(&agreed, &[1, 2, 3, 4], &[1, 9, 3, 9]).is_ok());
        assert!(still_agree(&agreed, &[5, 2, 6, 7], &[5, 8, 6, 7]).is_ok());
        let parted = still_agree(&agreed, &[1, 2, 3, 4], &[1, 9, 5, 9]);
        assert!(parted
            .map_err(|parted| parted.of)
            .unwrap_err()
            .starts_with("byte 2,"));
    }
}
