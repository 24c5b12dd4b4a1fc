//! The memory's floor plan: which parts are taken, and where something new may lie.

use crate::random::Random;

#[derive(Clone, Debug)]
pub struct Floor {
    memory: u64,
    taken: Vec<(u64, u64)>,
}

impl Floor {
    pub fn new(memory: u64) -> Floor {
        Floor {
            memory,
            taken: Vec::new(),
        }
    }

    pub fn take(&mut self, gpa: u64, length: u64) {
        self.taken.push((gpa, gpa.saturating_add(length)));
    }

    fn is_free(&self, gpa: u64, length: u64) -> bool {
        let end = gpa + length;
        end <= self.memory
            && self
                .taken
                .iter()
                .all(|&(from, to)| end <= from || to <= gpa)
    }

    /// A free place, not at 0 and often at the memory's very end, which is taken from then on.
    pub fn place(&mut self, random: &mut Random, length: u64) -> Option<u64> {
        let last = self.memory.checked_sub(length).filter(|&last| last > 0)?;
        let mut found = if random.percent(40) { Some(last) } else { None };
        found = found.filter(|&gpa| self.is_free(gpa, length));
        for _ in 0..4 {
            found = found
                .or_else(|| Some(random.within(1..=last)).filter(|&gpa| self.is_free(gpa, length)));
        }
        let beside = || {
            self.taken
                .iter()
                .map(|&(_, to)| to)
                .chain([1])
                .find(|&gpa| self.is_free(gpa, length))
        };
        let gpa = found.or_else(beside)?;
        self.take(gpa, length);
        Some(gpa)
    }

    /// Any place, over whatever lies there.
    pub fn anywhere(&self, random: &mut Random, length: u64) -> Option<u64> {
        let last = self.memory.checked_sub(length).filter(|&last| last > 0)?;
        match self.taken.is_empty() {
            false if random.coin() => {
                let (from, to) = random.pick(&self.taken);
                Some(
                    random
                        .within(from.saturating_sub(length)..=to)
                        .clamp(1, last),
                )
            }
            _ => Some(random.within(1..=last)),
        }
    }
}

#[cfg(test)]
mod tests {
    use super::Floor;
    use crate::random::Random;

    #[test]
    fn places_are_free_and_within_the_memory() {
        let mut random = Random::new(5);
        for memory in [100, 1_000, 5_000] {
            let mut floor = Floor::new(memory);
            floor.take(0, 64);
            while let Some(gpa) = floor.place(&mut random, 40) {
                assert!(gpa >= 64 && gpa + 40 <= memory);
            }
            let mut taken = floor.taken.clone();
            taken.sort_unstable();
            assert!(taken.windows(2).all(|pair| pair[0].1 <= pair[1].0));
        }
    }
}
