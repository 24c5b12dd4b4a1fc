//! A device's state as a host keeps it: arrays of words that are lent to the library's calls, and the number that tells their layout.
//!
//! What the words mean is part of every contract of the library: the view that all of them are about says it, for all words that there
//! can be (`crates/run_state/specs/Views.antt`; the names are those of `crates/run_state/src/lib.rt`). On this side of the boundary the
//! words are kept and not written, and two files read them: this one for what no call tells, and [`meaning`](crate::meaning) to compare.
use std::mem::size_of;

/// Entries, names of resources, and records are rows of words, at most so many of each.
pub(crate) const MOST: usize = 64;

/// So are tokens.
pub(crate) const MOST_TOKENS: usize = 256;

/// The words of a row.
pub(crate) const ENTRY_WORDS: usize = 4;
pub(crate) const RESOURCE_WORDS: usize = 12;
pub(crate) const TOKEN_WORDS: usize = 2;
pub(crate) const RECORD_WORDS: usize = 5;

pub(crate) type Words = [u64; 36];
pub(crate) type Entries = [u64; MOST * ENTRY_WORDS];
pub(crate) type Resources = [u64; MOST * RESOURCE_WORDS];
pub(crate) type Tokens = [u64; MOST_TOKENS * TOKEN_WORDS];
pub(crate) type Records = [u64; MOST * RECORD_WORDS];

/// The totals of a month, in the published order. They are no part of a device's state, nor of the number below; its version goes up with
/// them, too.
pub(crate) type TotalsWords = [u64; 26];

/// A device's state.
///
/// The words stand first, where the box points, since every call takes them. `Copy` makes the box's clone a single copy.
#[derive(Clone, Copy)]
#[repr(C)]
pub(crate) struct State {
    /// Its numbers. The tables mean something only as far as these say.
    pub(crate) words: Words,
    pub(crate) entries: Entries,
    /// The resources of the device, and as the submission in work has left them: the words say which table is which.
    pub(crate) first: Resources,
    pub(crate) second: Resources,
    /// The tokens likewise, by two words of their own.
    pub(crate) first_tokens: Tokens,
    pub(crate) second_tokens: Tokens,
    pub(crate) records: Records,
}

/// It goes up with every landing that grows the state or changes what its words mean, here and in the library.
const LAYOUT_VERSION: u64 = 3;

/// The number that the library must give of itself: the version, and how many words each array has.
pub(crate) const LAYOUT: u64 = LAYOUT_VERSION << 60
    | words_of::<Words>() << 48
    | words_of::<Entries>() << 36
    | words_of::<Resources>() << 24
    | words_of::<Tokens>() << 12
    | words_of::<Records>();

const fn words_of<T>() -> u64 {
    (size_of::<T>() / size_of::<u64>()) as u64
}

/// The words by their index. Those from `JOB_RING` on are of the submission in work, but for the ones that are told apart.
pub(crate) mod word {
    pub(crate) const MEMORY: usize = 0;
    pub(crate) const RING: usize = 1;
    pub(crate) const RING_SIZE: usize = 2;
    pub(crate) const ENABLED: usize = 3;
    pub(crate) const FENCE_PAGE: usize = 4;
    pub(crate) const COMPLETED: usize = 5;
    pub(crate) const FENCED: usize = 6;
    pub(crate) const FAILED: usize = 7;
    pub(crate) const IRQ_ENABLE: usize = 8;
    pub(crate) const ERROR_CODE: usize = 9;
    pub(crate) const ERROR_FENCE: usize = 10;
    pub(crate) const ERROR_COUNT: usize = 11;
    pub(crate) const DOORBELL: usize = 12;
    /// What is in work: one of the tags below.
    pub(crate) const TAG: usize = 13;
    pub(crate) const JOB_RING: usize = 14;
    pub(crate) const JOB_HEAD: usize = 15;
    pub(crate) const JOB_SIGNAL: usize = 16;
    pub(crate) const JOB_SILENT: usize = 17;
    pub(crate) const TABLE_GPA: usize = 18;
    pub(crate) const TABLE_COUNT: usize = 19;
    pub(crate) const TABLE_STRIDE: usize = 20;
    pub(crate) const STREAM_GPA: usize = 21;
    pub(crate) const STREAM_SIZE: usize = 22;
    pub(crate) const PLACE: usize = 23;
    /// How many rows are live: of the entries kept, the names of the device's resources, of the submission's, and its records.
    pub(crate) const KEPT: usize = 24;
    pub(crate) const LIVE: usize = 25;
    pub(crate) const HELD: usize = 26;
    pub(crate) const MADE: usize = 27;
    /// Of the device, whatever is in work: which table of resources is its own.
    pub(crate) const SIDE: usize = 28;
    /// Whether the submission has the other table for its own.
    pub(crate) const COPIED: usize = 29;
    /// With the words of the error above.
    pub(crate) const ERROR_DETAIL: usize = 30;
    /// The handle of the submission's target, 0 for none.
    pub(crate) const TARGET: usize = 31;
    /// How many tokens the device has used since the last reset, and how many rows of them the submission has.
    pub(crate) const TOKENS: usize = 32;
    pub(crate) const HELD_TOKENS: usize = 33;
    /// Of the device, whatever is in work: which table of tokens is its own.
    pub(crate) const TOKEN_SIDE: usize = 34;
    /// Whether the submission has the other table of tokens for its own.
    pub(crate) const TOKENS_COPIED: usize = 35;
}

/// What is in work, by its tag; any other waits for the host.
pub(crate) const NOTHING: u64 = 0;
pub(crate) const ENTRIES: u64 = 1;
pub(crate) const PACKETS: u64 = 2;

impl State {
    /// The bytes of the memory that the device was made for.
    #[inline]
    pub(crate) fn memory(&self) -> u64 {
        self.words[word::MEMORY]
    }

    /// Whether a submission is in work, one that waits among them.
    #[inline]
    pub(crate) fn is_in_work(&self) -> bool {
        self.words[word::TAG] != NOTHING
    }

    /// Whether a submission waits for the host's answer.
    #[inline]
    pub(crate) fn waits(&self) -> bool {
        self.words[word::TAG] > PACKETS
    }

    /// The signal fence of the submission that waits, and how many records it has. They mean nothing where none waits.
    #[inline]
    pub(crate) fn waiting(&self) -> (u64, u32) {
        (self.words[word::JOB_SIGNAL], self.rows(word::MADE) as u32)
    }

    /// How many rows a word says are live: there are no more than [`MOST`].
    #[inline]
    pub(crate) fn rows(&self, count: usize) -> usize {
        self.words[count].min(MOST as u64) as usize
    }

    /// How many rows a word says of tokens: there are no more than [`MOST_TOKENS`].
    #[inline]
    pub(crate) fn token_rows(&self, count: usize) -> usize {
        self.words[count].min(MOST_TOKENS as u64) as usize
    }
}
