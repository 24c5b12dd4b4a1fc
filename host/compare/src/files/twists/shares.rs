//! Sections 3 and 4 of form 2: other names, the lowest names beside them, tokens, and what these are bound to.

use super::{told, FileTwist, Told};
use crate::files::good::row_of;
use crate::files::shares::{some_tokens, token_of};
use crate::files::{field, File, Kind, Row, BUFFER, TEXTURE};
use crate::numbers::{MOST_NAMES, MOST_TOKENS};
use crate::random::Random;

pub const TWISTS: &[FileTwist] = &[
    first_name,
    later_name,
    later_name,
    name_that_is_a_handle,
    lowest_name,
    lowest_name,
    lowest_name_above,
    first_token,
    later_token,
    later_token,
    last_token,
    bound,
    bound,
    most_names,
    most_names,
    too_many_names_said,
    most_tokens,
    too_many_tokens_said,
];

// The resources of a furnished file, behind a handle that is drawn: two buffers, three textures that may be shared, and two that may not.
const SHARED: u32 = 20;
const PLAIN_BUFFER: u32 = 30;
const ALSO_SHARED: u32 = 40;
const TWO_MIPS: u32 = 50;
const TWO_LAYERS: u32 = 52;
const ABOVE: u32 = 60;

/// The fields of a pair and of a token.
const OTHER: usize = 0;
const LOWEST: usize = 1;
const HIGH: usize = 1;
const NAME: usize = 2;

/// Resources of all kinds, three other names and three tokens, all good; and what stands before all handles.
fn furnish(random: &mut Random, file: &mut File) -> u32 {
    file.set_kind(Kind::Two);
    let few = random.within(0..=500) as u32;
    let base = random.pick(&[0, few, u32::MAX - 100]);
    file.rows = [
        row_of(random, base + 10, BUFFER, true),
        shared_row(random, base + SHARED, [1, 1]),
        row_of(random, base + PLAIN_BUFFER, BUFFER, false),
        shared_row(random, base + ALSO_SHARED, [1, 1]),
        shared_row(random, base + TWO_MIPS, [2, 1]),
        shared_row(random, base + TWO_LAYERS, [1, 2]),
        shared_row(random, base + ABOVE, [1, 1]),
    ]
    .to_vec();
    file.rows_said = file.rows.len() as u32;
    let names = [[25, SHARED], [45, ALSO_SHARED], [55, SHARED]];
    file.set_names(names.map(|pair| pair.map(|name| base + name)).to_vec());
    let tokens = [(5, base + SHARED), (9, 0), (BEYOND, base + ALSO_SHARED)];
    file.set_tokens(tokens.map(token_of).to_vec());
    base
}

/// A token of more than 32 bits.
const BEYOND: u64 = (1 << 32) + 1;

/// A texture with so many mips and layers.
fn shared_row(random: &mut Random, handle: u32, images: [u32; 2]) -> Row {
    let mut row = row_of(random, handle, TEXTURE, false);
    row[field::WIDTH] = row[field::WIDTH].max(2);
    row[field::MIPS..=field::LAYERS].copy_from_slice(&images);
    row
}

fn first_name(random: &mut Random, file: &mut File) -> Option<Told> {
    let base = furnish(random, file);
    let name = random.pick(&[0, base + SHARED + 1, base + 29]);
    file.names[0][OTHER] = name;
    let at = file.name_at(0, OTHER);
    told("first other name not 0", name != 0, at)
}

/// Another name is above the one before it, equal, below, or 0.
fn later_name(random: &mut Random, file: &mut File) -> Option<Told> {
    furnish(random, file);
    // The third is of a resource that stands below all of them.
    let before = file.names[1][OTHER];
    let (rule, name) = random.pick(&[
        ("other names: one above", before + 1),
        ("other names: the highest", u32::MAX),
        ("other names: equal", before),
        ("other names: one below", before - 1),
        ("other names: 0 behind another", 0),
    ]);
    file.names[2][OTHER] = name;
    told(rule, name > before, file.name_at(2, OTHER))
}

/// A handle of section 2 is no other name, be it its own resource's or another's.
fn name_that_is_a_handle(random: &mut Random, file: &mut File) -> Option<Told> {
    let base = furnish(random, file);
    let handles = [TWO_MIPS, TWO_LAYERS, ABOVE, ABOVE - 1, TWO_LAYERS + 1];
    let name = base + random.pick(&handles);
    file.names[2][OTHER] = name;
    let free = !file.rows.iter().any(|row| row[field::HANDLE] == name);
    let at = file.name_at(2, OTHER);
    told("other name is no handle of section 2", free, at)
}

/// What stands beside the other name 55.
fn lowest_name(random: &mut Random, file: &mut File) -> Option<Told> {
    let base = furnish(random, file);
    let (rule, name) = random.pick(&[
        ("lowest name: a texture of one image", base + SHARED),
        ("lowest name: another such", base + ALSO_SHARED),
        ("lowest name: 0", 0),
        ("lowest name: no resource", base + SHARED - 1),
        ("lowest name: another other name", base + 25),
        ("lowest name: the other name itself", base + 55),
        ("lowest name: a buffer", base + PLAIN_BUFFER),
        ("lowest name: two mips", base + TWO_MIPS),
        ("lowest name: two layers", base + TWO_LAYERS),
    ]);
    file.names[2][LOWEST] = name;
    let good = name == base + SHARED || name == base + ALSO_SHARED;
    told(rule, good, file.name_at(2, LOWEST))
}

/// A lowest name that is not below: the resource may be shared, and has a lower name than it stands under.
fn lowest_name_above(random: &mut Random, file: &mut File) -> Option<Told> {
    let base = furnish(random, file);
    let (pair, name) = random.pick(&[(0, ALSO_SHARED), (0, ABOVE), (1, ABOVE), (2, ABOVE)]);
    file.names[pair][LOWEST] = base + name;
    let at = file.name_at(pair, LOWEST);
    told("lowest name below the other", false, at)
}

/// Changes a token's number, whatever it is bound to.
fn put_token(file: &mut File, token: usize, number: u64) {
    let name = file.tokens[token][NAME];
    file.tokens[token] = token_of((number, name));
}

fn first_token(random: &mut Random, file: &mut File) -> Option<Told> {
    furnish(random, file);
    let number = random.pick(&[0, 0, 1, 8]);
    put_token(file, 0, number);
    told("first token not 0", number != 0, file.token_at(0, HIGH))
}

/// The token between 5 and 2^32 + 1. One that is not below the next is told there.
fn later_token(random: &mut Random, file: &mut File) -> Option<Told> {
    furnish(random, file);
    let (rule, number, at) = random.pick(&[
        ("tokens: one above", 6, None),
        ("tokens: the low half is lower", 1 << 32, None),
        ("tokens: equal", 5, Some(1)),
        ("tokens: one below", 4, Some(1)),
        ("tokens: 0 behind another", 0, Some(1)),
        ("tokens: equal to the next", BEYOND, Some(2)),
        ("tokens: above the next", BEYOND + 1, Some(2)),
    ]);
    put_token(file, 1, number);
    let place = file.token_at(at.unwrap_or(1), HIGH);
    told(rule, at.is_none(), place)
}

/// The token behind 9.
fn last_token(random: &mut Random, file: &mut File) -> Option<Told> {
    furnish(random, file);
    let number = random.pick(&[9, 8, 10, u32::MAX.into(), 1 << 32, 8 << 32, u64::MAX]);
    put_token(file, 2, number);
    told("last token rises", number > 9, file.token_at(2, HIGH))
}

/// What a token is bound to.
fn bound(random: &mut Random, file: &mut File) -> Option<Told> {
    let base = furnish(random, file);
    let (rule, name) = random.pick(&[
        ("token: spent", 0),
        ("token: a texture of one image", base + ABOVE),
        ("token: no resource", base + ABOVE + 1),
        ("token: another name", base + 25),
        ("token: a buffer", base + PLAIN_BUFFER),
        ("token: two mips", base + TWO_MIPS),
        ("token: two layers", base + TWO_LAYERS),
    ]);
    let token = random.index(3);
    file.tokens[token][NAME] = name;
    let good = name == 0 || name == base + ABOVE;
    told(rule, good, file.token_at(token, NAME))
}

/// Resources and other names together: as many as there may be, or one or two beside that.
fn most_names(random: &mut Random, file: &mut File) -> Option<Told> {
    file.set_kind(Kind::Two);
    let all = random.within(MOST_NAMES as u64 - 1..=MOST_NAMES as u64 + 2) as usize;
    let rows = random.pick(&[1, 2, 32, 62, 63]);
    let rest = (2..=rows as u32).map(|handle| row_of(random, handle, BUFFER, true));
    let rest: Vec<Row> = rest.collect();
    file.rows = vec![shared_row(random, 1, [1, 1])];
    file.rows.extend(rest);
    file.rows_said = rows as u32;
    file.set_names((rows + 1..=all).map(|name| [name as u32, 1]).collect());
    file.set_tokens(Vec::new());
    let rule = match all - MOST_NAMES.min(all) {
        0 => "at most 64 names",
        1 => "65 names",
        _ => "66 names",
    };
    told(rule, all <= MOST_NAMES, file.names_at())
}

/// The count alone is too large: nothing after it is looked at.
fn too_many_names_said(random: &mut Random, file: &mut File) -> Option<Told> {
    furnish(random, file);
    let most = (MOST_NAMES - file.rows.len()) as u32;
    file.names_said = random.pick(&[most + 1, MOST_NAMES as u32, 1 << 31, u32::MAX]);
    told("too many names said", false, file.names_at())
}

fn most_tokens(random: &mut Random, file: &mut File) -> Option<Told> {
    furnish(random, file);
    let count = random.within(MOST_TOKENS as u64 - 1..=MOST_TOKENS as u64 + 2) as usize;
    let tokens = some_tokens(random, file, count);
    file.set_tokens(tokens);
    let rule = match count - MOST_TOKENS.min(count) {
        0 => "at most 256 tokens",
        1 => "257 tokens",
        _ => "258 tokens",
    };
    told(rule, count <= MOST_TOKENS, file.tokens_at())
}

fn too_many_tokens_said(random: &mut Random, file: &mut File) -> Option<Told> {
    furnish(random, file);
    let most = MOST_TOKENS as u32;
    file.tokens_said = random.pick(&[most + 1, most + 2, 1 << 31, u32::MAX]);
    told("too many tokens said", false, file.tokens_at())
}
