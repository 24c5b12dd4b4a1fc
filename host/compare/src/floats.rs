//! Floats by their bits: those at the boundaries that the rules draw, and one bit either side of each.

use crate::random::Random;

/// A float, and what it is called where it is counted.
#[derive(Clone, Copy, Debug, PartialEq, Eq, PartialOrd, Ord)]
pub struct Edge {
    pub name: &'static str,
    pub bits: u32,
}

const fn edge(name: &'static str, bits: u32) -> Edge {
    Edge { name, bits }
}

pub const ZERO: u32 = 0;
pub const MINUS_ZERO: u32 = 0x8000_0000;
pub const LEAST_DENORMAL: u32 = 1;
pub const BEFORE_ONE: u32 = 0x3f7f_ffff;
pub const ONE: u32 = 0x3f80_0000;
pub const NOT_A_NUMBER: u32 = 0x7fc0_0000;

pub const EDGES: [Edge; 24] = [
    edge("0", ZERO),
    edge("-0", MINUS_ZERO),
    edge("least denormal", LEAST_DENORMAL),
    edge("-least denormal", 0x8000_0001),
    edge("largest denormal", 0x007f_ffff),
    edge("least normal", 0x0080_0000),
    edge("before 1", BEFORE_ONE),
    edge("1", ONE),
    edge("after 1", 0x3f80_0001),
    edge("-1", 0xbf80_0000),
    edge("largest", 0x7f7f_ffff),
    edge("-largest", 0xff7f_ffff),
    edge("infinity", 0x7f80_0000),
    edge("-infinity", 0xff80_0000),
    edge("first signalling NaN", 0x7f80_0001),
    edge("-first signalling NaN", 0xff80_0001),
    edge("last signalling NaN", 0x7fbf_ffff),
    edge("-last signalling NaN", 0xffbf_ffff),
    edge("first quiet NaN", NOT_A_NUMBER),
    edge("-first quiet NaN", 0xffc0_0000),
    edge("second quiet NaN", 0x7fc0_0001),
    edge("-second quiet NaN", 0xffc0_0001),
    edge("last quiet NaN", 0x7fff_ffff),
    edge("-last quiet NaN", 0xffff_ffff),
];

/// What a field's rules ask of its float.
#[derive(Clone, Copy, Debug, PartialEq, Eq)]
pub enum Asked {
    /// Any number that is finite.
    Finite,
    /// A finite number above 0.
    Side,
    /// From 0 to 1.
    Depth,
}

impl Asked {
    /// It only says what to aim at: whether it is right, the comparison finds out.
    pub fn fits(self, bits: u32) -> bool {
        let value = f32::from_bits(bits);
        match self {
            Asked::Finite => value.is_finite(),
            Asked::Side => value.is_finite() && value > 0.0,
            Asked::Depth => (0.0..=1.0).contains(&value),
        }
    }

    /// A float that fits, one at a boundary as often as not.
    pub fn some(self, random: &mut Random) -> u32 {
        loop {
            let bits = match random.within(0..=3) {
                0 | 1 => random.pick(&EDGES).bits,
                2 => (random.within(0..=4096) as f32 / 4096.0).to_bits(),
                _ => random.word(),
            };
            if self.fits(bits) {
                return bits;
            }
        }
    }
}

/// Any float at all, one at a boundary as often as not.
pub fn any(random: &mut Random) -> u32 {
    if random.coin() {
        random.pick(&EDGES).bits
    } else {
        random.word()
    }
}

#[cfg(test)]
mod tests {
    use super::{Asked, EDGES};
    use std::collections::BTreeSet;

    #[test]
    fn edges_are_what_they_are_called() {
        for (i, edge) in EDGES.iter().enumerate() {
            let value = f32::from_bits(edge.bits);
            assert_eq!(edge.name.contains("NaN"), value.is_nan(), "{:?}", edge);
            assert_eq!(edge.name.contains("infinity"), value.is_infinite());
            assert_eq!(edge.name.starts_with('-'), edge.bits >> 31 == 1);
            let quiet = value.is_nan() && edge.bits & 0x0040_0000 != 0;
            assert_eq!(edge.name.contains("quiet"), quiet, "{:?}", edge);
            assert!(EDGES[..i].iter().all(|other| other.bits != edge.bits));
        }
        let names: BTreeSet<&str> = EDGES.iter().map(|edge| edge.name).collect();
        assert_eq!(names.len(), EDGES.len());
    }

    #[test]
    fn each_rule_has_edges_on_both_sides() {
        let fitting = |asked: Asked| EDGES.iter().filter(|edge| asked.fits(edge.bits)).count();
        assert_eq!(fitting(Asked::Finite), 12);
        assert_eq!(fitting(Asked::Side), 7);
        assert_eq!(fitting(Asked::Depth), 7);
    }
}
