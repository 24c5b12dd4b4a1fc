//! The boundary for the difference of two streams. No call keeps anything, and none takes more of the streams than to read them.
use super::check_layout;

/// The places of a packet in the first stream and in the second. Any numbers are good ones.
pub(crate) type Cursor = [u64; 2];

/// The class of two packets, then place and size of the first one, and of the second.
pub(crate) type SaidOfPair = [u64; 5];

mod library {
    use super::{Cursor, SaidOfPair};

    extern "sysv64" {
        /// The answer; which of the streams is refused, or 0.
        pub fn zelezmut_difference_check(
            first: *const u8,
            first_len: usize,
            second: *const u8,
            second_len: usize,
            said: &mut u64,
        ) -> u32;
        /// The answer; an index, or which of the streams is refused.
        pub fn zelezmut_difference_parts(
            first: *const u8,
            first_len: usize,
            second: *const u8,
            second_len: usize,
            said: &mut u64,
        ) -> u32;
        /// The answer; a class, or which of the streams is refused.
        pub fn zelezmut_difference_class(
            first: *const u8,
            first_len: usize,
            second: *const u8,
            second_len: usize,
            index: u64,
            said: &mut u64,
        ) -> u32;
        /// The answer; an offset, or which of the streams is refused.
        pub fn zelezmut_difference_next(
            first: *const u8,
            first_len: usize,
            second: *const u8,
            second_len: usize,
            index: u64,
            from: u64,
            said: &mut u64,
        ) -> u32;
        /// The answer; which of the streams is refused, or 0. A cursor beside a refusal stays as it was.
        pub fn zelezmut_difference_start(
            first: *const u8,
            first_len: usize,
            second: *const u8,
            second_len: usize,
            cursor: &mut Cursor,
            said: &mut u64,
        ) -> u32;
        pub fn zelezmut_difference_pair(
            first: *const u8,
            first_len: usize,
            second: *const u8,
            second_len: usize,
            cursor: &Cursor,
            said: &mut SaidOfPair,
        );
        /// The answer; an offset.
        pub fn zelezmut_difference_pair_next(
            first: *const u8,
            first_len: usize,
            second: *const u8,
            second_len: usize,
            cursor: &Cursor,
            from: u64,
            said: &mut u64,
        ) -> u32;
        #[cfg(test)]
        pub fn zelezmut_difference_onward(
            first: *const u8,
            first_len: usize,
            second: *const u8,
            second_len: usize,
            cursor: &mut Cursor,
        );
    }
}

/// Two streams that are lent together.
#[derive(Clone, Copy, Debug)]
pub(crate) struct Streams<'s> {
    pub(crate) first: &'s [u8],
    pub(crate) second: &'s [u8],
}

/// Calls an export: pointers and lengths of both streams, then its other arguments.
macro_rules! lend {
    ($export:ident, $streams:expr $(, $argument:expr)*) => {{
        let Streams { first, second } = $streams;
        // SAFETY: pointers and lengths of the slices themselves, which are only read; references, and numbers.
        unsafe {
            library::$export(
                first.as_ptr(),
                first.len(),
                second.as_ptr(),
                second.len()
                $(, $argument)*
            )
        }
    }};
}

/// The answer, and which of the streams is refused, 0 for none.
#[inline]
pub(crate) fn check(streams: Streams<'_>) -> (u32, u64) {
    check_layout();
    let mut said = 0;
    let answer = lend!(zelezmut_difference_check, streams, &mut said);
    (answer, said)
}

/// The answer, and the first index whose packets are not equal.
#[inline]
pub(crate) fn parts(streams: Streams<'_>) -> (u32, u64) {
    let mut said = 0;
    let answer = lend!(zelezmut_difference_parts, streams, &mut said);
    (answer, said)
}

/// The answer, and the class of the packets at an index.
#[inline]
pub(crate) fn class(streams: Streams<'_>, index: u64) -> (u32, u64) {
    let mut said = 0;
    let answer = lend!(zelezmut_difference_class, streams, index, &mut said);
    (answer, said)
}

/// The answer, and the next differing offset in the packets at an index.
#[inline]
pub(crate) fn next(streams: Streams<'_>, index: u64, from: u64) -> (u32, u64) {
    let mut said = 0;
    let answer = lend!(zelezmut_difference_next, streams, index, from, &mut said);
    (answer, said)
}

/// The answer, which of the streams is refused, and a cursor at index 0 unless one is.
#[inline]
pub(crate) fn start(streams: Streams<'_>) -> (u32, u64, Cursor) {
    check_layout();
    let (mut cursor, mut said) = ([0; 2], 0);
    let answer = lend!(zelezmut_difference_start, streams, &mut cursor, &mut said);
    (answer, said, cursor)
}

/// The packets at a cursor.
#[inline]
pub(crate) fn pair(streams: Streams<'_>, cursor: &Cursor) -> SaidOfPair {
    let mut said = [0; 5];
    lend!(zelezmut_difference_pair, streams, cursor, &mut said);
    said
}

/// The answer, and the next differing offset in the packets at a cursor.
#[inline]
pub(crate) fn pair_next(streams: Streams<'_>, cursor: &Cursor, from: u64) -> (u32, u64) {
    let mut said = 0;
    let answer = lend!(
        zelezmut_difference_pair_next,
        streams,
        cursor,
        from,
        &mut said
    );
    (answer, said)
}

/// Moves a cursor to the next index. A walk in Rust does so by the sizes that [`pair`] says, which the tests hold against this.
#[cfg(test)]
pub(crate) fn onward(streams: Streams<'_>, cursor: &mut Cursor) {
    lend!(zelezmut_difference_onward, streams, cursor);
}

#[cfg(test)]
mod tests {
    use super::*;
    use crate::guest::{self, Packet};
    use crate::numbers::Numbers;

    /// A good stream of a few packets.
    fn some_stream(numbers: &mut Numbers) -> Vec<u8> {
        let packets: Vec<Packet> = (0..numbers.next() % 5)
            .map(|_| match numbers.next() % 3 {
                0 => Packet::Destroy { handle: 7 },
                1 => Packet::Release { token: 9 },
                _ => Packet::Unknown {
                    opcode: 3,
                    size: 8 + 4 * (numbers.next() % 3) as u32,
                },
            })
            .collect();
        guest::stream(&packets)
    }

    /// Two streams, equal ones as often as not; then some bits are turned.
    fn some_streams(numbers: &mut Numbers) -> [Vec<u8>; 2] {
        let first = some_stream(numbers);
        let second = match numbers.next() % 2 {
            0 => first.clone(),
            _ => some_stream(numbers),
        };
        [first, second].map(|mut stream| {
            for _ in 0..numbers.next() % 3 {
                let at = numbers.next() as usize % stream.len();
                stream[at] ^= 1 << (numbers.next() % 8);
            }
            stream
        })
    }

    /// Where the first packet is, where another may be, or anywhere.
    fn some_place(numbers: &mut Numbers) -> u64 {
        match numbers.next() % 8 {
            0 | 1 | 4 => 24,
            2 | 5 => 24 + 4 * (numbers.next() % 10),
            6 => u64::MAX - numbers.next() % 64,
            _ => numbers.next(),
        }
    }

    /// Both are good, or every question has the same refusal.
    fn questions_agree(streams: Streams<'_>, index: u64, from: u64) -> bool {
        let refusal = check(streams);
        if refusal == (0, 0) {
            assert_eq!(start(streams), (0, 0, [24, 24]));
            assert!(parts(streams).0 <= 1 && next(streams, index, from).0 <= 1);
            assert!(matches!(class(streams, index), (0, 0..=5)));
            return true;
        }
        assert!(matches!(refusal, (16 | 17, 1 | 2)));
        assert_eq!(start(streams), (refusal.0, refusal.1, [0, 0]));
        assert_eq!(parts(streams), refusal);
        assert_eq!(class(streams, index), refusal);
        assert_eq!(next(streams, index, from), refusal);
        false
    }

    /// What is said of the packets at a cursor lies within the streams, and the cursor moves by it. Gives the class.
    fn cursor_agrees(streams: Streams<'_>, mut cursor: Cursor, from: u64) -> u64 {
        let [class, first, size, second, other] = pair(streams, &cursor);
        assert_eq!([first, second], cursor);
        assert!(size == 0 || first + size <= streams.first.len() as u64);
        assert!(other == 0 || second + other <= streams.second.len() as u64);
        assert!(match class {
            0 => size == other && size > 0,
            1 | 2 => size > 0 && other > 0,
            3 => size > 0 && other == 0,
            4 => size == 0 && other > 0,
            _ => class == 5 && size == 0 && other == 0,
        });
        assert!(match pair_next(streams, &cursor, from) {
            (0, offset) => class == 1 && offset >= from && offset < size.max(other),
            said => said == (1, 0),
        });
        onward(streams, &mut cursor);
        let moved = [first, second].map(|place| place as u128);
        let moved = [moved[0] + u128::from(size), moved[1] + u128::from(other)];
        assert_eq!(cursor.map(u128::from), moved);
        class
    }

    #[test]
    fn calls_return_whatever_the_cursor_is() {
        let mut numbers = Numbers(8);
        let (mut good, mut met) = (0, [0; 6]);
        for _ in 0..20_000 {
            let [first, second] = some_streams(&mut numbers);
            let streams = Streams {
                first: &first,
                second: &second,
            };
            let [index, from, one, other] = [(); 4].map(|()| some_place(&mut numbers));
            good += u32::from(questions_agree(streams, index, from));
            met[cursor_agrees(streams, [one, other], from) as usize] += 1;
        }
        assert!((5_000..15_000).contains(&good), "{}", good);
        assert!(met.iter().all(|&times| times > 100), "{:?}", met);
    }
}
