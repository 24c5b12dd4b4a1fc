//! What a submission holds: its table's entries and its packets, good ones with at most a twist or two.

use crate::draft::Draft;
use crate::image::Entry;
use crate::numbers::{MOST_ENTRIES, MOST_NAMES, MOST_TOKENS};
use crate::random::Random;
use crate::twists::entries::{EntryTwist, Rows};
use crate::twists::muddle::muddled;
use crate::twists::{self, limits, Aim, PacketTwist};
use crate::world::{some_entry, Scale, World};

/// Which twists a submission gets. With several it shows which fault is found first.
#[derive(Default)]
pub struct Twisted {
    pub entries: bool,
    pub packets: bool,
    pub frame: usize,
    pub muddle: bool,
}

impl Twisted {
    pub fn random(random: &mut Random) -> Twisted {
        let mut twisted = Twisted::default();
        let times = match random.within(0..=99) {
            0..=39 => 0,
            40..=86 => 1,
            _ => 2,
        };
        for _ in 0..times {
            match random.within(0..=27) {
                0..=2 => twisted.entries = true,
                3..=20 => twisted.packets = true,
                21..=25 => twisted.frame += 1,
                _ => twisted.muddle = true,
            }
        }
        twisted
    }
}

/// The usual entries in another order, some with another size, flag or place, some missing.
pub fn table_entries(random: &mut Random, world: &World) -> Vec<Entry> {
    let mut entries = world.usual_entries.clone();
    for last in (1..entries.len()).rev() {
        let place = random.index(last + 1);
        entries.swap(last, place);
    }
    if random.percent(10) && !entries.is_empty() {
        entries.pop();
    }
    if random.percent(25) && entries.len() < MOST_ENTRIES {
        entries.push(some_entry(random, world.memory, &entries));
    }
    if random.percent(25) && !entries.is_empty() {
        let place = random.index(entries.len());
        let id = entries[place].id;
        entries[place] = Entry {
            id,
            ..some_entry(random, world.memory, &[])
        };
    }
    entries
}

/// Fills a stream; the packet twist comes first, last or in between.
pub fn fill(draft: &mut Draft, scale: Scale, twisted: &Twisted) -> Option<Aim> {
    let count = match draft.random.within(0..=9) {
        0 => 0,
        1..=2 if twisted.frame > 0 => 0,
        1..=7 => draft.random.within(1..=8),
        _ => draft.random.within(8..=14),
    };
    let before = if draft.random.coin() {
        0
    } else {
        draft.random.within(0..=count)
    };
    add_packets(draft, before);
    let aim = if twisted.packets {
        packet_twist(draft, scale)
    } else {
        None
    };
    if twisted.muddle {
        if scale == Scale::Full && draft.random.coin() {
            limits::fill_up(draft);
        }
        if draft.has_room(56) {
            muddled(draft);
        }
    }
    if draft.random.coin() {
        add_many(draft, scale);
    }
    add_packets(draft, count - before);
    aim
}

/// What only a desk with room for it has.
fn add_many(draft: &mut Draft, scale: Scale) {
    match scale {
        Scale::Full if draft.random.percent(8) => add_names(draft),
        Scale::Shared => add_tokens(draft),
        Scale::Long => {
            let many = draft.random.within(100..=2_000);
            if draft.random.coin() {
                add_packets(draft, many);
            } else {
                add_unknown(draft, many);
            }
        }
        _ => {}
    }
}

/// As many names as there may be, or all but one, many of them one texture's.
fn add_names(draft: &mut Draft) {
    let names = MOST_NAMES - usize::from(draft.random.coin());
    limits::fill_names(draft, names);
}

/// So many tokens at once that a few submissions use all that there may be, or all but one.
fn add_tokens(draft: &mut Draft) {
    let some = draft.tokens.len() + draft.random.within(20..=150) as usize;
    let most = draft
        .random
        .pick(&[some, some, MOST_TOKENS - 1, MOST_TOKENS]);
    twists::tokens::fill_tokens(draft, most.min(MOST_TOKENS));
}

fn add_packets(draft: &mut Draft, count: u64) {
    for _ in 0..count {
        if draft.has_room(56) {
            draft.any_packet();
        }
    }
}

fn add_unknown(draft: &mut Draft, count: u64) {
    for _ in 0..count {
        if draft.has_room(48) {
            draft.any_unknown();
        }
    }
}

fn packet_twist(draft: &mut Draft, scale: Scale) -> Option<Aim> {
    (0..8).find_map(|_| {
        let first = draft.packets.is_empty();
        let twists: &[PacketTwist] = match draft.random.within(0..=56) {
            0..=9 if scale == Scale::Full => limits::TWISTS,
            0..=14 if scale == Scale::Shared => twists::tokens::TWISTS,
            0..=3 => twists::framing::TWISTS,
            4..=7 => twists::create::TWISTS,
            8..=12 => twists::shapes::TWISTS,
            13..=15 if first => twists::dirty::FIRST_TWISTS,
            13..=16 => twists::dirty::TWISTS,
            17..=21 if first => twists::copy::FIRST_TWISTS,
            17..=22 => twists::copy::TWISTS,
            23..=29 => twists::grown::TWISTS,
            30..=38 => twists::floats::TWISTS,
            39..=41 => twists::scissor::TWISTS,
            42..=44 => twists::target::TWISTS,
            45..=48 => twists::export::TWISTS,
            49..=52 => twists::import::TWISTS,
            _ => twists::names::TWISTS,
        };
        let twist = draft.random.pick(twists);
        if draft.has_room(6 * 56) {
            twist(draft)
        } else {
            None
        }
    })
}

pub fn entry_twist(random: &mut Random, entries: &mut Vec<Entry>, memory: u64) -> Option<Aim> {
    let mut rows = Rows {
        random,
        memory,
        entries,
    };
    (0..4).find_map(|_| {
        let twist: EntryTwist = rows.random.pick(twists::entries::TWISTS);
        twist(&mut rows)
    })
}
