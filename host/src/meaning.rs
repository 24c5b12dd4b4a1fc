//! What a device's state means, to compare two by it and to list its names and tokens: numbers of what is over, rows that are not live,
//! the order of resources and of tokens, and which of the two tables has them say nothing.
//!
//! This is the view of the rule book's state that the library's contracts are about, `deskIn` of `crates/run_state/specs/Views.antt`,
//! written once more in Rust. It is tested, not proved: words that it takes for the same are the same to every call.
use crate::state::word::*;
use crate::state::{State, ENTRIES, NOTHING, PACKETS};
use crate::state::{ENTRY_WORDS, RECORD_WORDS, RESOURCE_WORDS, TOKEN_WORDS};

/// By meaning, for states that were made and called: in those no two rows of a table have one name, or one token.
impl PartialEq for State {
    fn eq(&self, other: &State) -> bool {
        self.memory() == other.memory()
            && registers(self) == registers(other)
            && resources(self) == resources(other)
            && tokens(self) == tokens(other)
            && work(self) == work(other)
    }
}

impl Eq for State {}

/// The registers, and the doorbell's flag: numbers of 64 bits, those of 32, and flags.
fn registers(state: &State) -> ([u64; 4], [u32; 5], [bool; 4]) {
    (
        [RING, FENCE_PAGE, COMPLETED, ERROR_FENCE].map(|i| state.words[i]),
        [RING_SIZE, IRQ_ENABLE, ERROR_CODE, ERROR_COUNT, ERROR_DETAIL].map(|i| state.small(i)),
        [ENABLED, FENCED, FAILED, DOORBELL].map(|i| state.is_set(i)),
    )
}

/// What is in work: of a submission only what its phase still needs.
#[derive(PartialEq)]
enum Work<'a> {
    Nothing,
    Entries(Job, Table, Stream, Kept<'a>),
    Packets(Job, Stream, u64, Kept<'a>, Held<'a>),
    Waiting(Job, Kept<'a>, Held<'a>),
}

/// Ring, head, signal fence, and whether it is silent.
type Job = (u64, u32, u64, bool);

/// Address, count and stride.
type Table = (u64, u32, u32);

/// Address and size.
type Stream = (u64, u32);

/// The submission's resources and tokens, the records that it has made, and its target.
type Held<'a> = (Map<'a>, Tokens<'a>, Made<'a>, u32);

fn work(state: &State) -> Work<'_> {
    let kept = Kept(state.live(&state.entries, ENTRY_WORDS, KEPT));
    match state.words[TAG] {
        NOTHING => Work::Nothing,
        ENTRIES => Work::Entries(job(state), table(state), stream(state), kept),
        PACKETS => {
            let place = state.words[PLACE];
            Work::Packets(job(state), stream(state), place, kept, held(state))
        }
        _ => Work::Waiting(job(state), kept, held(state)),
    }
}

fn job(state: &State) -> Job {
    (
        state.words[JOB_RING],
        state.small(JOB_HEAD),
        state.words[JOB_SIGNAL],
        state.is_set(JOB_SILENT),
    )
}

fn table(state: &State) -> Table {
    (
        state.words[TABLE_GPA],
        state.small(TABLE_COUNT),
        state.small(TABLE_STRIDE),
    )
}

fn stream(state: &State) -> Stream {
    (state.words[STREAM_GPA], state.small(STREAM_SIZE))
}

/// The device's resources.
fn resources(state: &State) -> Map<'_> {
    let table = match state.is_set(SIDE) {
        false => &state.first,
        true => &state.second,
    };
    Map(state.live(table, RESOURCE_WORDS, LIVE))
}

/// The device's tokens.
fn tokens(state: &State) -> Tokens<'_> {
    let table = match state.is_set(TOKEN_SIDE) {
        false => &state.first_tokens,
        true => &state.second_tokens,
    };
    Tokens(state.used(table, TOKENS))
}

/// Resources and tokens are rows of the device's tables until the submission has its own.
fn held(state: &State) -> Held<'_> {
    let resources = match state.is_set(SIDE) == state.is_set(COPIED) {
        true => &state.first,
        false => &state.second,
    };
    let tokens = match state.is_set(TOKEN_SIDE) == state.is_set(TOKENS_COPIED) {
        true => &state.first_tokens,
        false => &state.second_tokens,
    };
    (
        Map(state.live(resources, RESOURCE_WORDS, HELD)),
        Tokens(state.used(tokens, HELD_TOKENS)),
        Made(state.live(&state.records, RECORD_WORDS, MADE)),
        state.small(TARGET),
    )
}

impl State {
    /// A number of 32 bits is a word's lower half.
    fn small(&self, i: usize) -> u32 {
        self.words[i] as u32
    }

    fn is_set(&self, i: usize) -> bool {
        self.words[i] != 0
    }

    /// The live rows of a table, of so many words each, as many as a word says.
    fn live<'a>(&self, table: &'a [u64], words: usize, count: usize) -> &'a [u64] {
        &table[..words * self.rows(count)]
    }

    /// The rows of a table of tokens that mean something, as many as a word says.
    fn used<'a>(&self, table: &'a [u64], count: usize) -> &'a [u64] {
        &table[..TOKEN_WORDS * self.token_rows(count)]
    }

    /// The names of the device's resources, each with the lowest name of its resource, in rising order.
    pub(crate) fn names(&self) -> Vec<(u32, u32)> {
        let rows = resources(self).0.chunks_exact(RESOURCE_WORDS);
        let mut names: Vec<(u32, u32)> = rows.map(|row| (row[0] as u32, row[11] as u32)).collect();
        names.sort_unstable();
        names
    }

    /// The device's tokens, each with the lowest name of its resource unless it is spent, in rising order.
    pub(crate) fn tokens(&self) -> Vec<(u64, Option<u32>)> {
        let rows = tokens(self).0.chunks_exact(TOKEN_WORDS).map(token);
        let mut tokens: Vec<(u64, Option<u32>)> = rows
            .map(|[name, token]| (token, Some(name as u32).filter(|&name| name != 0)))
            .collect();
        tokens.sort_unstable();
        tokens
    }
}

/// A word of which the lower half counts.
fn low(word: u64) -> u64 {
    word & u64::from(u32::MAX)
}

/// Rows of entries, in the table's order.
struct Kept<'a>(&'a [u64]);

impl PartialEq for Kept<'_> {
    fn eq(&self, other: &Kept<'_>) -> bool {
        let rows = self.0.chunks_exact(ENTRY_WORDS).map(entry);
        rows.eq(other.0.chunks_exact(ENTRY_WORDS).map(entry))
    }
}

/// Id, flags, address and size; the row has where the range ends.
fn entry(row: &[u64]) -> [u64; ENTRY_WORDS] {
    let (gpa, end) = (row[2], row[3]);
    [low(row[0]), low(row[1]), gpa, end.saturating_sub(gpa)]
}

/// Rows of records, in the order of the packets.
struct Made<'a>(&'a [u64]);

impl PartialEq for Made<'_> {
    fn eq(&self, other: &Made<'_>) -> bool {
        let rows = self.0.chunks_exact(RECORD_WORDS).map(record);
        rows.eq(other.0.chunks_exact(RECORD_WORDS).map(record))
    }
}

/// Kind, handle, id, address and length.
fn record(row: &[u64]) -> [u64; RECORD_WORDS] {
    [low(row[0]), low(row[1]), low(row[2]), row[3], row[4]]
}

/// Whether two tables have the same rows, in any order.
fn same_rows<const N: usize>(one: &[u64], other: &[u64], said: fn(&[u64]) -> [u64; N]) -> bool {
    let mut rows = one.chunks_exact(N).map(said);
    let others = other.chunks_exact(N).map(said);
    one.len() == other.len() && rows.all(|row| others.clone().any(|other| other == row))
}

/// Rows of tokens, as a map by token: their order says nothing.
struct Tokens<'a>(&'a [u64]);

impl PartialEq for Tokens<'_> {
    fn eq(&self, other: &Tokens<'_>) -> bool {
        same_rows(self.0, other.0, token)
    }
}

/// The lowest name of the resource that it is bound to, 0 if it is spent, and the token.
fn token(row: &[u64]) -> [u64; TOKEN_WORDS] {
    [low(row[0]), row[1]]
}

/// Rows of resources, as a map by name: their order says nothing.
struct Map<'a>(&'a [u64]);

impl PartialEq for Map<'_> {
    fn eq(&self, other: &Map<'_>) -> bool {
        same_rows(self.0, other.0, resource)
    }
}

/// Handle, whether it is a texture, bytes, the five numbers of a texture's shape, pitch, backing id and offset, and the lowest name of
/// the resource.
fn resource(row: &[u64]) -> [u64; RESOURCE_WORDS] {
    let texture = row[1] != 0;
    let shape = |word| if texture { low(word) } else { 0 };
    let mut said = [0; RESOURCE_WORDS];
    said[..3].copy_from_slice(&[low(row[0]), texture.into(), row[2]]);
    for (i, word) in row.iter().enumerate().skip(3) {
        said[i] = if i < 8 { shape(*word) } else { low(*word) };
    }
    said
}

#[cfg(test)]
mod tests {
    use super::*;
    use crate::front::{answer, make, record, run, save, write};
    use crate::numbers::Numbers;
    use crate::registers;
    use crate::saved::{Form, LONGEST_SAVED_DESK};

    const MEMORY_BYTES: usize = 4096;
    const SMALL: [usize; 10] = [
        RING_SIZE,
        IRQ_ENABLE,
        ERROR_CODE,
        ERROR_COUNT,
        ERROR_DETAIL,
        JOB_HEAD,
        TABLE_COUNT,
        TABLE_STRIDE,
        STREAM_SIZE,
        TARGET,
    ];
    const FLAGS: [usize; 9] = [
        ENABLED,
        FENCED,
        FAILED,
        DOORBELL,
        JOB_SILENT,
        SIDE,
        COPIED,
        TOKEN_SIDE,
        TOKENS_COPIED,
    ];
    const OF_THE_SUBMISSION: [usize; 6] = [HELD, MADE, COPIED, TARGET, HELD_TOKENS, TOKENS_COPIED];

    /// Whether a word says something while so much is in work.
    fn says_something(tag: u64, i: usize) -> bool {
        let of_the_job = (JOB_RING..=JOB_SILENT).contains(&i);
        let in_work = match tag {
            NOTHING => false,
            ENTRIES => (JOB_RING..=STREAM_SIZE).contains(&i) || i == KEPT,
            PACKETS => {
                let read = (STREAM_GPA..=KEPT).contains(&i);
                of_the_job || read || OF_THE_SUBMISSION.contains(&i)
            }
            _ => of_the_job || i == KEPT || OF_THE_SUBMISSION.contains(&i),
        };
        in_work || i <= TAG || [LIVE, SIDE, ERROR_DETAIL, TOKENS, TOKEN_SIDE].contains(&i)
    }

    /// A state in which every flag is set and no row is like another.
    fn busy(tag: u64) -> Box<State> {
        let mut state = make(7);
        let State {
            words,
            entries,
            first,
            second,
            first_tokens,
            second_tokens,
            records,
        } = &mut *state;
        let tables = entries.iter_mut().chain(records).chain(first).chain(second);
        let tokens = first_tokens.iter_mut().chain(second_tokens);
        for (word, number) in words.iter_mut().chain(tables).chain(tokens).zip(3..) {
            *word = number;
        }
        words[TAG] = tag;
        state
    }

    #[test]
    fn every_word_counts_that_says_something_and_no_other_does() {
        for tag in [NOTHING, ENTRIES, PACKETS, 3] {
            let state = busy(tag);
            for i in 0..state.words.len() {
                let mut other = state.clone();
                other.words[i] = if FLAGS.contains(&i) {
                    0
                } else {
                    state.words[i] + 1
                };
                // Any tag from 3 on waits.
                let expected = says_something(tag, i) && !(tag == 3 && i == TAG);
                assert_eq!(state != other, expected, "word {} of tag {}", i, tag);
            }
        }
    }

    #[test]
    fn every_live_row_counts_and_no_other_does() {
        let state = busy(PACKETS);
        // The second table is the device's, and the first the submission's.
        for i in 0..state.first.len() {
            let changed = |word: u64| if i % RESOURCE_WORDS == 1 { 0 } else { word + 1 };
            let [live, held] = [LIVE, HELD].map(|count| RESOURCE_WORDS * state.rows(count));
            let mut other = state.clone();
            other.second[i] = changed(other.second[i]);
            assert_eq!(state != other, i < live, "second {}", i);
            let mut other = state.clone();
            other.first[i] = changed(other.first[i]);
            assert_eq!(state != other, i < held, "first {}", i);
        }
        for i in 0..state.entries.len() {
            let mut other = state.clone();
            other.entries[i] += 1;
            let live = ENTRY_WORDS * state.rows(KEPT);
            assert_eq!(state != other, i < live, "entry {}", i);
        }
        for i in 0..state.records.len() {
            let mut other = state.clone();
            other.records[i] += 1;
            let live = RECORD_WORDS * state.rows(MADE);
            assert_eq!(state != other, i < live, "record {}", i);
        }
    }

    #[test]
    fn every_token_counts_that_was_used_and_no_other_does() {
        let state = busy(PACKETS);
        // The second table is the device's, and the first the submission's.
        let [used, held] = [TOKENS, HELD_TOKENS].map(|count| TOKEN_WORDS * state.token_rows(count));
        for i in 0..state.first_tokens.len() {
            let mut other = state.clone();
            other.second_tokens[i] += 1;
            assert_eq!(state != other, i < used, "second {}", i);
            let mut other = state.clone();
            other.first_tokens[i] += 1;
            assert_eq!(state != other, i < held, "first {}", i);
        }
    }

    #[test]
    fn names_and_tokens_are_listed_in_rising_order() {
        let mut state = make(7);
        assert_eq!((state.names(), state.tokens()), (vec![], vec![]));
        for (row, (name, lowest)) in [(9, 4), (4, 4), (7, 7)].into_iter().enumerate() {
            state.first[RESOURCE_WORDS * row] = name;
            state.first[RESOURCE_WORDS * row + 11] = lowest;
        }
        state.words[LIVE] = 3;
        assert_eq!(state.names(), [(4, 4), (7, 7), (9, 4)]);
        let rows = [[4, 1 << 40], [0, 5], [7, u64::MAX], [4, 6]];
        for (row, token) in state.first_tokens.chunks_exact_mut(TOKEN_WORDS).zip(rows) {
            row.copy_from_slice(&token);
        }
        state.words[TOKENS] = 3;
        let expected = [(5, None), (1 << 40, Some(4)), (u64::MAX, Some(7))];
        assert_eq!(state.tokens(), expected);
        state.words[TOKEN_SIDE] = 1;
        assert_eq!(state.tokens(), [(0, None); 3]);
    }

    #[test]
    fn a_buffer_has_no_shape() {
        let mut state = busy(NOTHING);
        state.second[1] = 0;
        for i in 0..RESOURCE_WORDS {
            let mut other = state.clone();
            other.second[i] += 1;
            assert_eq!(state != other, !(3..8).contains(&i), "word {}", i);
        }
    }

    #[test]
    fn resources_and_tokens_stand_in_any_order_and_the_rest_does_not() {
        let state = busy(3);
        let mut other = state.clone();
        other.second[..RESOURCE_WORDS * state.rows(LIVE)].rotate_right(RESOURCE_WORDS);
        other.first[..RESOURCE_WORDS * state.rows(HELD)].rotate_left(RESOURCE_WORDS);
        let [used, held] = [TOKENS, HELD_TOKENS].map(|count| TOKEN_WORDS * state.token_rows(count));
        other.second_tokens[..used].rotate_right(TOKEN_WORDS);
        other.first_tokens[..held].rotate_left(TOKEN_WORDS);
        assert!(state == other);
        let mut entries = state.clone();
        entries.entries[..2 * ENTRY_WORDS].rotate_right(ENTRY_WORDS);
        assert!(state != entries);
        let mut records = state.clone();
        records.records[..2 * RECORD_WORDS].rotate_right(RECORD_WORDS);
        assert!(state != records);
    }

    /// The same state in other words: whatever says nothing is drawn anew.
    fn in_other_words(state: &State, numbers: &mut Numbers) -> Box<State> {
        let mut other = numbers.state(MEMORY_BYTES);
        let tag = state.words[TAG];
        for i in (0..state.words.len()).filter(|&i| says_something(tag, i)) {
            other.words[i] = state.words[i];
        }
        for i in SMALL {
            other.words[i] = low(other.words[i]) | numbers.next() << 32;
        }
        for i in FLAGS {
            other.words[i] = u64::from(other.is_set(i)) * (numbers.next() | 1);
        }
        if tag > PACKETS {
            other.words[TAG] = numbers.next() | 3;
        }
        copy_rows(state, &mut other);
        if numbers.next() % 2 == 0 {
            let State { first, second, .. } = &mut *other;
            std::mem::swap(first, second);
            other.words[SIDE] = (!other.is_set(SIDE)).into();
        }
        if numbers.next() % 2 == 0 {
            let State {
                first_tokens,
                second_tokens,
                ..
            } = &mut *other;
            std::mem::swap(first_tokens, second_tokens);
            other.words[TOKEN_SIDE] = (!other.is_set(TOKEN_SIDE)).into();
        }
        other
    }

    /// The rows that mean something.
    fn copy_rows(state: &State, other: &mut State) {
        let copy = |from: &[u64], to: &mut [u64], words: usize, count| {
            let live = words * state.rows(count);
            to[..live].copy_from_slice(&from[..live]);
        };
        copy(&state.entries, &mut other.entries, ENTRY_WORDS, KEPT);
        copy(&state.records, &mut other.records, RECORD_WORDS, MADE);
        // As many rows as either count says: of the one that says more, rows behind the other's are live too.
        let most = if state.rows(LIVE) < state.rows(HELD) {
            HELD
        } else {
            LIVE
        };
        copy(&state.first, &mut other.first, RESOURCE_WORDS, most);
        copy(&state.second, &mut other.second, RESOURCE_WORDS, most);
        let [used, held] = [TOKENS, HELD_TOKENS].map(|count| TOKEN_WORDS * state.token_rows(count));
        let most = used.max(held);
        other.first_tokens[..most].copy_from_slice(&state.first_tokens[..most]);
        other.second_tokens[..most].copy_from_slice(&state.second_tokens[..most]);
    }

    /// What a save in each form says, and the buffer after it.
    fn saved(state: &State) -> [((u32, u32), Vec<u8>); 2] {
        Form::ALL.map(|form| {
            let mut buffer = vec![0; LONGEST_SAVED_DESK];
            (save(state, form, &mut buffer), buffer)
        })
    }

    /// Calls of all kinds on two states that are the same in other words: they say the same, and leave what is the same.
    #[test]
    fn what_is_equal_is_the_same_to_every_call() {
        let mut numbers = Numbers(5);
        let mut met = [0; 4];
        for _ in 0..1_000 {
            let mut one = numbers.state(MEMORY_BYTES);
            one.words[TAG] = numbers.next() % 4;
            met[one.words[TAG] as usize] += 1;
            let mut other = in_other_words(&one, &mut numbers);
            assert!(*one == *other);
            let mut memory = numbers.memory(MEMORY_BYTES);
            let mut beside = memory.clone();
            let [i, value] = [(); 2].map(|()| numbers.next() as u32);
            assert_eq!(record(&one, i), record(&other, i));
            assert_eq!(saved(&one), saved(&other));
            let offset = registers::WRITABLE[value as usize % 9];
            let (good, allowance) = (value % 2 == 0, numbers.next() as u16);
            for which in [numbers.next() % 3, numbers.next() % 3] {
                let said = |state: &mut State, memory: &mut [u8]| match which {
                    0 => (write(state, offset, value), 0, 0),
                    1 => run(state, memory, allowance),
                    _ => answer(state, memory, good, allowance),
                };
                let told = said(&mut one, &mut memory);
                assert_eq!(told, said(&mut other, &mut beside));
                assert_eq!(memory, beside);
                assert!(*one == *other);
            }
        }
        assert!(met.iter().all(|&times| times > 100), "{:?}", met);
    }
}
