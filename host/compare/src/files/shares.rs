//! Sections 3 and 4 of good files: other names, and tokens, on textures of one mip and one layer.

use super::good::{row_of, some_numbers};
use super::{field, number, File, Kind, Pair, Row, Token, BUFFER, TEXTURE};
use crate::numbers::{MOST_NAMES, MOST_TOKENS};
use crate::random::Random;
use std::collections::BTreeMap;

/// Whether a resource may have other names and tokens.
pub fn is_shareable(row: &Row) -> bool {
    row[field::KIND] == TEXTURE && row[field::MIPS..=field::LAYERS] == [1, 1]
}

/// The handles of those that may.
pub fn shareable(file: &File) -> Vec<u32> {
    let rows = file.rows.iter().filter(|row| is_shareable(row));
    rows.map(|row| row[field::HANDLE]).collect()
}

/// Some of the textures may be shared, and some are.
pub fn put_shares(random: &mut Random, file: &mut File) {
    for row in &mut file.rows {
        if row[field::KIND] == TEXTURE && random.coin() {
            row[field::MIPS..=field::LAYERS].fill(1);
        }
    }
    let room = MOST_NAMES - file.rows.len();
    let few = random.within(0..=4) as usize;
    let count = random.pick(&[0, few, few, few, room]).min(room);
    let names = some_names(random, file, count);
    file.set_names(names);
    let few = random.within(0..=4) as usize;
    let many = random.within(5..=MOST_TOKENS as u64) as usize;
    let count = match random.within(0..=39) {
        0 => MOST_TOKENS,
        1 => many,
        2..=19 => 0,
        _ => few,
    };
    let tokens = some_tokens(random, file, count);
    file.set_tokens(tokens);
}

/// So many other names, or fewer where that is hard to come by.
pub fn some_names(random: &mut Random, file: &File, count: usize) -> Vec<Pair> {
    let lowest = shareable(file);
    let mut names = BTreeMap::new();
    for _ in 0..2 * count {
        if lowest.is_empty() || names.len() == count {
            break;
        }
        let of = random.pick(&lowest);
        let near = of.saturating_add(random.within(1..=90) as u32);
        let far = random.edgy(u64::from(of)..=u32::MAX.into()) as u32;
        let other = random.pick(&[near, near, near, far]);
        if other > of && is_free(file, other) {
            names.insert(other, of);
        }
    }
    names.into_iter().map(|(other, of)| [other, of]).collect()
}

/// Whether no resource of section 2 has this handle.
pub fn is_free(file: &File, handle: u32) -> bool {
    !file.rows.iter().any(|row| row[field::HANDLE] == handle)
}

/// So many tokens, spent or bound.
pub fn some_tokens(random: &mut Random, file: &File, count: usize) -> Vec<Token> {
    let lowest = shareable(file);
    let mut tokens = BTreeMap::new();
    while tokens.len() < count {
        let high = u64::from(random.word()) << 32;
        let token = match random.within(0..=5) {
            0 => u64::from(random.word()) | high,
            1 => high,
            2 => u64::MAX - random.within(0..=300),
            3 => (1 << 32) - 150 + random.within(0..=300),
            _ => random.within(1..=400),
        };
        if token != 0 {
            let bound = random.coin() && !lowest.is_empty();
            let name = if bound { random.pick(&lowest) } else { 0 };
            tokens.insert(token, name);
        }
    }
    tokens.into_iter().map(token_of).collect()
}

pub fn token_of((token, name): (u64, u32)) -> Token {
    [token as u32, (token >> 32) as u32, name]
}

/// A file of form 2 with as many names and tokens as there may be: 24 textures and 8 buffers, each texture under two names and 8 of them
/// under a third, every other token bound. For a memory of 65,536 bytes.
pub fn full_file() -> File {
    let mut random = Random::new(1);
    let mut numbers = some_numbers(&mut random);
    numbers[number::ERROR_CODE..=number::ERROR_COUNT].fill(0);
    let rows = (1..=32).map(|i| {
        let kind = if i % 4 == 0 { BUFFER } else { TEXTURE };
        let mut row = row_of(&mut random, 3 * i, kind, i % 2 == 0);
        if kind == TEXTURE {
            row[field::MIPS..=field::LAYERS].fill(1);
        }
        row
    });
    let rows = rows.collect();
    let mut file = File::new(numbers, rows).into_kind(Kind::Two);
    file.set_memory(1 << 16);
    let lowest = shareable(&file);
    let second = lowest.iter().map(|&of| [of + 1, of]);
    let third = lowest.iter().take(8).map(|&of| [of + 2, of]);
    let mut names: Vec<Pair> = second.chain(third).collect();
    names.sort_unstable();
    file.set_names(names);
    let bound = lowest.iter().cycle().flat_map(|&of| [of, 0]);
    let tokens = (1..=MOST_TOKENS as u64).map(|token| token << 30).zip(bound);
    file.set_tokens(tokens.map(token_of).collect());
    file
}

/// No name and no token stands for the resource of this handle any more.
pub fn unshare(file: &mut File, handle: u32) {
    let mut names = file.names.clone();
    names.retain(|[_, of]| *of != handle);
    file.set_names(names);
    for token in &mut file.tokens {
        if token[2] == handle {
            token[2] = 0;
        }
    }
}

/// The file is of form 2, and one of its resources, which is told, may be shared.
pub fn some_shareable(random: &mut Random, file: &mut File) -> usize {
    if file.kind != Kind::Two {
        file.set_kind(Kind::Two);
    }
    let rows: Vec<usize> = (0..file.rows.len())
        .filter(|&row| is_shareable(&file.rows[row]))
        .collect();
    if !rows.is_empty() {
        return random.pick(&rows);
    }
    if file.rows.is_empty() {
        file.rows = vec![row_of(random, 1, TEXTURE, false)];
        file.rows_said = 1;
    }
    let row = random.index(file.rows.len());
    let handle = file.rows[row][field::HANDLE];
    unshare(file, handle);
    file.rows[row] = row_of(random, handle, TEXTURE, false);
    file.rows[row][field::MIPS..=field::LAYERS].fill(1);
    row
}

#[cfg(test)]
mod tests {
    use super::*;

    #[test]
    fn the_full_file_is_good_and_full() {
        let file = full_file();
        assert_eq!(file.rows.len() + file.names.len(), MOST_NAMES);
        assert_eq!(file.tokens.len(), MOST_TOKENS);
        assert_eq!(plain::Desk::new(0).load(&file.bytes()), (0, 0));
    }
}
