//! The exports called over random words, bytes and lengths, with canaries beside all that they are lent.
use super::tests::entries;
use super::*;
use crate::guest::{self, Backing, Clear, Descriptor, Packet, Part, Scissor, Shape, Viewport};
use crate::numbers::Numbers;
use crate::registers;
use crate::state::{word, MOST, MOST_TOKENS};
use crate::state::{ENTRY_WORDS, RECORD_WORDS, RESOURCE_WORDS, TOKEN_WORDS};

const MEMORY: usize = 4096;
pub(super) const BESIDE: usize = 64;
pub(super) const UNTOUCHED: u8 = 0xA5;

/// Words that are lent, between words that nobody may touch.
#[derive(Clone, PartialEq)]
#[repr(C)]
pub(super) struct Fenced<const N: usize> {
    before: [u64; 8],
    pub(super) lent: [u64; N],
    behind: [u64; 8],
}

const FENCE: [u64; 8] = [0xA5A5_5A5A_0F0F_F0F0; 8];

impl<const N: usize> Fenced<N> {
    pub(super) fn new(numbers: &mut Numbers) -> Fenced<N> {
        let mut lent = [0; N];
        lent.fill_with(|| numbers.next());
        Fenced {
            before: FENCE,
            lent,
            behind: FENCE,
        }
    }

    pub(super) fn stands(&self) -> bool {
        self.before == FENCE && self.behind == FENCE
    }
}

/// All that calls are lent, each part fenced by itself.
#[derive(Clone, PartialEq)]
pub(super) struct Lent {
    pub(super) words: Fenced<36>,
    entries: Fenced<{ MOST * ENTRY_WORDS }>,
    pub(super) first: Fenced<{ MOST * RESOURCE_WORDS }>,
    pub(super) second: Fenced<{ MOST * RESOURCE_WORDS }>,
    pub(super) first_tokens: Fenced<{ MOST_TOKENS * TOKEN_WORDS }>,
    pub(super) second_tokens: Fenced<{ MOST_TOKENS * TOKEN_WORDS }>,
    records: Fenced<{ MOST * RECORD_WORDS }>,
    /// With bytes beside it at both ends.
    memory: Vec<u8>,
}

impl Lent {
    /// Any words; a memory of any length up to so many bytes, mostly the one that the words say. In every other one stands a submission,
    /// so that calls come far, with some bytes changed.
    pub(super) fn new(numbers: &mut Numbers) -> Lent {
        let length = match numbers.next() % 4 {
            0 => numbers.next() as usize % 128,
            _ => numbers.next() as usize % (MEMORY + 1),
        };
        let mut memory = vec![UNTOUCHED; BESIDE + length + BESIDE];
        memory[BESIDE..][..length].fill_with(|| numbers.next() as u8);
        let mut lent = Lent {
            words: Fenced::new(numbers),
            entries: Fenced::new(numbers),
            first: Fenced::new(numbers),
            second: Fenced::new(numbers),
            first_tokens: Fenced::new(numbers),
            second_tokens: Fenced::new(numbers),
            records: Fenced::new(numbers),
            memory,
        };
        if numbers.next() % 2 == 0 && length >= 2048 {
            lent.submit(length, numbers);
        } else if numbers.next() % 8 != 0 {
            lent.words.lent[word::MEMORY] = length as u64;
        }
        lent
    }

    /// A new device, and a submission that waits to be opened; up to three bytes of it are not what they were.
    fn submit(&mut self, length: usize, numbers: &mut Numbers) {
        let inside = &mut self.memory[BESIDE..][..length];
        submission(inside);
        for _ in 0..numbers.next() % 4 {
            inside[numbers.next() as usize % 2048] = numbers.next() as u8;
        }
        // SAFETY: a reference and a number.
        unsafe { library::zelezmut_make(&mut self.words.lent, length as u64) };
        for (offset, value) in [
            (registers::RING_SIZE, guest::ring_size(1)),
            (registers::CONTROL, registers::CONTROL_ENABLE),
            (registers::DOORBELL, 1),
        ] {
            // SAFETY: a reference and numbers.
            unsafe { library::zelezmut_write(&mut self.words.lent, offset, value) };
        }
    }

    pub(super) fn fences_stand(&self) -> bool {
        let (before, rest) = self.memory.split_at(BESIDE);
        let behind = &rest[rest.len() - BESIDE..];
        self.words.stands()
            && self.entries.stands()
            && self.first.stands()
            && self.second.stands()
            && self.first_tokens.stands()
            && self.second_tokens.stands()
            && self.records.stands()
            && before.iter().chain(behind).all(|&byte| byte == UNTOUCHED)
    }
}

const SHAPE: Shape = Shape {
    format: 1,
    width: 5,
    height: 3,
    mips: 1,
    layers: 1,
    pitch: 0,
};

/// A target, and what is drawn on it.
const DRAWING: [Packet; 5] = [
    Packet::CreateTexture {
        handle: 3,
        shape: SHAPE,
        backing: None,
    },
    Packet::Target { handle: 3 },
    Packet::Viewport(Viewport {
        x: 0.0,
        y: 0.0,
        width: 5.0,
        height: 3.0,
        near: 0.0,
        far: 1.0,
    }),
    Packet::Scissor(Scissor {
        x: -1,
        y: 1,
        width: 3,
        height: 9,
    }),
    Packet::Clear(Clear {
        flags: 7,
        colour: [1.0; 4],
        depth: 0.5,
        stencil: 9,
    }),
];

/// The texture under two names, of which the first is given up, and its token.
const SHARING: [Packet; 4] = [
    Packet::Export {
        handle: 3,
        token: 7,
    },
    Packet::Import {
        handle: 4,
        token: 7,
    },
    Packet::Destroy { handle: 3 },
    Packet::Release { token: 7 },
];

/// A submission of two entries and thirteen packets, and the ring that holds it, in the first 2048 bytes.
pub(super) fn submission(memory: &mut [u8]) {
    let create = |handle| Packet::CreateBuffer {
        handle,
        size: 32,
        backing: Some(Backing { id: 1, offset: 0 }),
    };
    let dirty = Packet::DirtyRange {
        handle: 1,
        offset: 0,
        size: 16,
    };
    let copy = Packet::CopyBuffer {
        destination: 2,
        source: 1,
        destination_offset: 0,
        source_offset: 0,
        size: 16,
        writeback: true,
    };
    let table = guest::table(&entries(2));
    let mut packets = vec![create(1), create(2), dirty, copy];
    packets.extend(DRAWING);
    packets.extend(SHARING);
    let stream = guest::stream(&packets);
    let slot = Descriptor {
        commands: Part::of(1024, &stream),
        table: Part::of(512, &table),
        fence: 1,
        silent: false,
    };
    guest::put(memory, 0, &guest::ring(1, 0, 1));
    guest::put(memory, guest::slot_offset(0), &slot.to_bytes());
    guest::put(memory, 512, &table);
    guest::put(memory, 1024, &stream);
}

/// Calls an export that may change what it is lent: the number that it says, whose low byte is the answer.
fn call(lent: &mut Lent, which: u64, numbers: &mut Numbers) -> u64 {
    let Lent {
        words,
        entries,
        first,
        second,
        first_tokens,
        second_tokens,
        records,
        memory,
    } = lent;
    let length = memory.len() - 2 * BESIDE;
    let memory = memory[BESIDE..][..length].as_mut_ptr();
    let (words, entries, records) = (&mut words.lent, &mut entries.lent, &mut records.lent);
    let (first, second) = (&mut first.lent, &mut second.lent);
    let (one, other) = (&mut first_tokens.lent, &mut second_tokens.lent);
    let (a, b) = (numbers.next() as u32, numbers.next() as u32);
    let allowance = numbers.next() as u16;
    // SAFETY: references to arrays of the boundary's types, numbers, and a slice's own pointer and length.
    unsafe {
        match which {
            0 => library::zelezmut_write(words, a, b).into(),
            1 => library::zelezmut_run(
                words, entries, first, second, one, other, records, memory, length, allowance,
            ),
            _ => library::zelezmut_answer(
                words, entries, first, second, one, other, records, memory, length, a, allowance,
            ),
        }
    }
}

/// Calls those that change nothing, which nothing then may have: a table may be any part of the memory.
fn call_readers(lent: &Lent, numbers: &mut Numbers) {
    let (a, b) = (numbers.next() as u32, numbers.next());
    let mut said = Fenced::<5>::new(numbers);
    // SAFETY: references to arrays of the boundary's types, and numbers; five words are five words, set or not.
    let answers = unsafe {
        let said = &mut *(&mut said.lent as *mut Said).cast::<MaybeUninit<Said>>();
        [
            library::zelezmut_read(&lent.words.lent, a) >> 32,
            library::zelezmut_record(&lent.words.lent, &lent.records.lent, a, said).into(),
        ]
    };
    assert!([0, 2].contains(&answers[0]) && [0, 4].contains(&answers[1]));
    assert!(said.stands());
    assert!(answers[1] == 0 || said.lent == [0; 5]);
    let from = b as usize % (lent.memory.len() + 1);
    let table = &lent.memory[from..];
    let error = table_error(table, b);
    assert!([0, 13, 14, 15, 19].contains(&error));
    assert!([14, 15].contains(&error) || table_place(table, b) == 0);
}

/// How many rounds of some calls are tried: few, or as many as this variable says.
const ROUNDS_VARIABLE: &str = "ZELEZMUT_FUZZ";

pub(super) fn rounds() -> u64 {
    match std::env::var(ROUNDS_VARIABLE) {
        Ok(rounds) => rounds.parse().expect("a number of rounds"),
        Err(_) => 2_000,
    }
}

/// Any words, any length: calls return, touch nothing beside what they are lent, and change nothing when they refuse.
#[test]
fn no_call_goes_over_a_fence() {
    let rounds = rounds();
    let mut numbers = Numbers(4);
    let (mut done, mut refused, mut units) = (0u64, 0u64, 0u64);
    for _ in 0..rounds {
        let mut lent = Lent::new(&mut numbers);
        for _ in 0..6 {
            let before = lent.clone();
            call_readers(&lent, &mut numbers);
            assert!(lent == before);
            let which = numbers.next() % 3;
            let said = call(&mut lent, which, &mut numbers);
            assert!(lent.fences_stand());
            if said as u8 == 0 {
                done += 1;
                units += said >> 16;
            } else {
                assert!(lent == before);
                refused += 1;
            }
        }
    }
    // Not all were refused, and not all that were done had nothing to do.
    let counted = format!("{} done, {} refused, {} units", done, refused, units);
    assert!(done >= rounds && refused >= rounds, "{}", counted);
    assert!(units >= rounds / 10, "{}", counted);
}
