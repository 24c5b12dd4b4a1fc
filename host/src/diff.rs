//! What differs between two command streams, such as two dumps of one night.
//!
//! Packets are paired by their index. [`Difference::pairs`] goes through all pairs once; [`Pair::offsets`] are the bytes of a pair that
//! differ. [`Difference::parts`], [`Difference::class`] and [`Difference::next`] ask for one thing alone.
//!
//! Bytes that a rule ignores count as any byte: unnamed and appended ones, and those of packets that the front does not know. The
//! headers of the streams never count, nor do bytes behind a stream's own size.
//!
//! ```
//! use zelezmut::diff::{Class, Difference};
//! use zelezmut::guest::{self, Packet};
//!
//! let destroy = |handle| Packet::Destroy { handle };
//! let first = guest::stream(&[destroy(1), destroy(2), destroy(3)]);
//! let second = guest::stream(&[destroy(1), destroy(0x0102), Packet::Target { handle: 3 }, destroy(4)]);
//!
//! let difference = Difference::of(&first, &second)?;
//! assert_eq!(difference.parts(), Some(1));
//! let classes: Vec<Class> = difference.pairs().map(|pair| pair.class).collect();
//! assert_eq!(classes, [Class::Equal, Class::SameOpcode, Class::OtherOpcode, Class::OnlySecond]);
//!
//! let pair = difference.pairs().nth(1).expect("a second pair");
//! assert_eq!(pair.first, Some(40..56));
//! // The handle is at byte 8 of the packet, and only its second byte differs.
//! assert_eq!(pair.offsets().collect::<Vec<u64>>(), [9]);
//! # Ok::<(), zelezmut::diff::Refused>(())
//! ```
use crate::answers::{none_of_ours, DeviceError};
use crate::front::difference::{self, Cursor, Streams};
use std::error::Error;
use std::fmt;
use std::iter::FusedIterator;
use std::ops::Range;

/// One of two streams.
#[derive(Clone, Copy, Debug, PartialEq, Eq, Hash)]
pub enum Which {
    /// The first.
    First,
    /// The second.
    Second,
}

impl Which {
    /// 1 or 2.
    pub fn number(self) -> u32 {
        match self {
            Which::First => 1,
            Which::Second => 2,
        }
    }

    fn from_front(number: u64) -> Which {
        match number {
            1 => Which::First,
            2 => Which::Second,
            _ => none_of_ours("stream", number),
        }
    }
}

impl fmt::Display for Which {
    fn fmt(&self, f: &mut fmt::Formatter<'_>) -> fmt::Result {
        f.write_str(match self {
            Which::First => "first",
            Which::Second => "second",
        })
    }
}

/// Why no question about two streams is answered: one of them breaks a rule.
#[derive(Clone, Copy, Debug, PartialEq, Eq, Hash)]
pub struct Refused {
    /// [`DeviceError::BadStream`] or [`DeviceError::BadPacket`].
    pub error: DeviceError,
    /// The stream that breaks it: the first if both break a rule.
    pub stream: Which,
}

impl Refused {
    /// What a call that checks the streams says: answers 0 and 1 are no refusal, and 1 is `None`.
    #[inline]
    fn from_front((answer, said): (u32, u64)) -> Result<Option<u64>, Refused> {
        match answer {
            0 => Ok(Some(said)),
            1 => Ok(None),
            _ => Err(Refused::of(answer, said)),
        }
    }

    #[cold]
    fn of(answer: u32, which: u64) -> Refused {
        match answer {
            16 | 17 => Refused {
                error: if answer == 16 {
                    DeviceError::BadStream
                } else {
                    DeviceError::BadPacket
                },
                stream: Which::from_front(which),
            },
            _ => none_of_ours("answer about two streams", answer.into()),
        }
    }
}

impl fmt::Display for Refused {
    fn fmt(&self, f: &mut fmt::Formatter<'_>) -> fmt::Result {
        let Refused { error, stream } = self;
        write!(
            f,
            "error {} in the {} stream: {}",
            error.number(),
            stream,
            error
        )
    }
}

impl Error for Refused {}

/// How the packets at one index of two streams compare.
#[derive(Clone, Copy, Debug, PartialEq, Eq, Hash)]
#[repr(u32)]
pub enum Class {
    /// All bytes are equal.
    Equal = 0,
    /// The opcodes are equal, and some other bytes are not.
    SameOpcode = 1,
    /// The opcodes differ.
    OtherOpcode = 2,
    /// Only the first stream has a packet there.
    OnlyFirst = 3,
    /// Only the second stream has a packet there.
    OnlySecond = 4,
    /// Neither stream has a packet there.
    Neither = 5,
}

impl Class {
    /// Every class, by rising number.
    pub const ALL: [Class; 6] = [
        Class::Equal,
        Class::SameOpcode,
        Class::OtherOpcode,
        Class::OnlyFirst,
        Class::OnlySecond,
        Class::Neither,
    ];

    /// The number that the library's calls have for it, 0 to 5.
    #[inline]
    pub fn number(self) -> u32 {
        self as u32
    }

    #[inline]
    fn from_front(number: u64) -> Class {
        match number {
            0 => Class::Equal,
            1 => Class::SameOpcode,
            2 => Class::OtherOpcode,
            3 => Class::OnlyFirst,
            4 => Class::OnlySecond,
            5 => Class::Neither,
            _ => none_of_ours("class", number),
        }
    }
}

/// The word that reports have for it.
impl fmt::Display for Class {
    fn fmt(&self, f: &mut fmt::Formatter<'_>) -> fmt::Result {
        f.pad(match self {
            Class::Equal => "equal",
            Class::SameOpcode => "same_opcode",
            Class::OtherOpcode => "other_opcode",
            Class::OnlyFirst => "only_first",
            Class::OnlySecond => "only_second",
            Class::Neither => "neither",
        })
    }
}

/// Whether both streams are good ones, each slice's length standing for the command size: no more than the question that
/// [`Difference::of`] asks first.
///
/// # Errors
/// [`Refused`] if one of them breaks rule 16 or 17.
pub fn check(first: &[u8], second: &[u8]) -> Result<(), Refused> {
    Refused::from_front(difference::check(Streams { first, second })).map(drop)
}

/// Two good streams, and what differs between them.
#[derive(Clone, Copy, Debug)]
pub struct Difference<'s> {
    streams: Streams<'s>,
    /// Where both streams' first packets are.
    start: Cursor,
}

impl<'s> Difference<'s> {
    /// Checks both streams from start to end. Each slice's length stands for the command size; it may be any.
    ///
    /// # Errors
    /// [`Refused`] if one of them breaks rule 16 or 17.
    pub fn of(first: &'s [u8], second: &'s [u8]) -> Result<Difference<'s>, Refused> {
        let streams = Streams { first, second };
        let (answer, which, start) = difference::start(streams);
        Refused::from_front((answer, which))?;
        Ok(Difference { streams, start })
    }

    /// The first index, from 0, at which the packets are not equal; `None` if all are.
    ///
    /// It goes through both streams. So do [`class`](Difference::class) and [`next`](Difference::next): to ask about every packet,
    /// take [`pairs`](Difference::pairs).
    pub fn parts(&self) -> Option<u64> {
        self.known(difference::parts(self.streams))
    }

    /// How the packets at an index compare: [`Class::Neither`] behind the end of both streams.
    pub fn class(&self, index: u64) -> Class {
        match self.known(difference::class(self.streams, index)) {
            Some(number) => Class::from_front(number),
            None => none_of_ours("answer about a class", 1),
        }
    }

    /// The least offset in the packets at an index that is not below `from` and at which they differ. The packet's 8 header bytes count,
    /// and every offset behind the end of the shorter one differs. There are such offsets for [`Class::SameOpcode`] alone.
    ///
    /// ```
    /// use zelezmut::diff::Difference;
    /// use zelezmut::guest::{self, Packet};
    ///
    /// let destroy = Packet::Destroy { handle: 1 };
    /// let (first, second) = (guest::stream(&[destroy]), guest::stream_of(&[destroy.grown(&[0])]));
    /// let difference = Difference::of(&first, &second)?;
    /// // The low byte of the size, and four bytes that only the second packet has.
    /// assert_eq!(difference.next(0, 0), Some(4));
    /// assert_eq!(difference.next(0, 5), Some(16));
    /// assert_eq!(difference.next(0, 20), None);
    /// assert_eq!(difference.next(1, 0), None);
    /// # Ok::<(), zelezmut::diff::Refused>(())
    /// ```
    pub fn next(&self, index: u64, from: u64) -> Option<u64> {
        self.known(difference::next(self.streams, index, from))
    }

    /// All pairs, from index 0 to the end of the longer stream. The whole walk, with the offsets of every pair, takes time linear in the
    /// streams' bytes.
    pub fn pairs(&self) -> Pairs<'s> {
        Pairs {
            streams: self.streams,
            cursor: self.start,
            index: 0,
        }
    }

    /// What is said of streams that were checked, and that nobody can have changed since.
    fn known(&self, said: (u32, u64)) -> Option<u64> {
        match Refused::from_front(said) {
            Ok(known) => known,
            Err(refused) => none_of_ours("refusal", refused.error.number().into()),
        }
    }
}

/// The pairs of packets of two streams, by rising index. [`Difference::pairs`] gives it.
#[derive(Clone, Debug)]
pub struct Pairs<'s> {
    streams: Streams<'s>,
    cursor: Cursor,
    index: u64,
}

impl<'s> Iterator for Pairs<'s> {
    type Item = Pair<'s>;

    #[inline]
    fn next(&mut self) -> Option<Pair<'s>> {
        let (streams, cursor, index) = (self.streams, self.cursor, self.index);
        let [class, first, first_size, second, second_size] = difference::pair(streams, &cursor);
        let class = Class::from_front(class);
        if class == Class::Neither {
            return None;
        }
        // As `difference::onward` does: to ask it would be to find both packets again.
        self.cursor = [first + first_size, second + second_size];
        self.index += 1;
        Some(Pair {
            index,
            class,
            first: range(first, first_size),
            second: range(second, second_size),
            streams,
            cursor,
        })
    }
}

impl FusedIterator for Pairs<'_> {}

/// A packet's bytes in its stream; one of size 0 is none.
#[inline]
fn range(place: u64, size: u64) -> Option<Range<usize>> {
    let start = place as usize;
    Some(start..start + size as usize).filter(|_| size > 0)
}

/// The packets at one index of two streams.
#[derive(Clone, Debug)]
pub struct Pair<'s> {
    /// Their index, from 0.
    pub index: u64,
    /// How they compare: never [`Class::Neither`].
    pub class: Class,
    /// The bytes of the first stream that are its packet.
    pub first: Option<Range<usize>>,
    /// The bytes of the second stream that are its packet.
    pub second: Option<Range<usize>>,
    streams: Streams<'s>,
    cursor: Cursor,
}

impl<'s> Pair<'s> {
    /// The packet of one of the streams, if it has one there.
    pub fn packet(&self, which: Which) -> Option<&'s [u8]> {
        let Streams { first, second } = self.streams;
        match which {
            Which::First => first.get(self.first.clone()?),
            Which::Second => second.get(self.second.clone()?),
        }
    }

    /// The offsets in the packet at which the two differ, by rising number. All of those behind the end of the shorter one are among them.
    /// There are none unless the class is [`Class::SameOpcode`].
    #[inline]
    pub fn offsets(&self) -> Offsets<'s> {
        Offsets {
            streams: self.streams,
            cursor: self.cursor,
            from: Some(0).filter(|_| self.class == Class::SameOpcode),
        }
    }
}

/// The offsets at which two packets differ, by rising number. [`Pair::offsets`] gives it.
#[derive(Clone, Debug)]
pub struct Offsets<'s> {
    streams: Streams<'s>,
    cursor: Cursor,
    /// None behind the last.
    from: Option<u64>,
}

impl Iterator for Offsets<'_> {
    type Item = u64;

    #[inline]
    fn next(&mut self) -> Option<u64> {
        match difference::pair_next(self.streams, &self.cursor, self.from?) {
            (0, offset) => {
                self.from = offset.checked_add(1);
                Some(offset)
            }
            (1, _) => {
                self.from = None;
                None
            }
            (answer, _) => none_of_ours("answer about an offset", answer.into()),
        }
    }
}

impl FusedIterator for Offsets<'_> {}

#[cfg(test)]
mod tests {
    use super::*;
    use std::collections::HashSet;

    #[test]
    fn classes_have_the_numbers_of_the_exports_and_words_of_their_own() {
        for (class, number) in Class::ALL.into_iter().zip(0..) {
            assert_eq!(u64::from(class.number()), number);
            assert_eq!(Class::from_front(number), class);
        }
        let words: HashSet<String> = Class::ALL.iter().map(Class::to_string).collect();
        assert_eq!(words.len(), Class::ALL.len());
        assert_eq!(format!("{:<6}|", Class::Equal), "equal |");
    }

    #[test]
    fn refusals_are_16_and_17_beside_a_stream() {
        assert_eq!(Refused::from_front((0, 7)), Ok(Some(7)));
        assert_eq!(Refused::from_front((1, 0)), Ok(None));
        for (answer, error) in [(16, DeviceError::BadStream), (17, DeviceError::BadPacket)] {
            for stream in [Which::First, Which::Second] {
                let refused = Refused { error, stream };
                assert_eq!(error.number(), answer);
                let said = (answer, stream.number().into());
                assert_eq!(Refused::from_front(said), Err(refused));
            }
        }
        let refused = Refused::of(17, 2);
        assert_eq!(
            refused.to_string(),
            "error 17 in the second stream: a packet's size breaks a rule, or bytes are left over"
        );
    }

    #[test]
    #[should_panic(expected = "no class of number 6")]
    fn another_class_is_another_library() {
        Class::from_front(6);
    }

    #[test]
    #[should_panic(expected = "no answer about two streams of number 2")]
    fn another_answer_is_another_library() {
        let _ = Refused::from_front((2, 0));
    }

    #[test]
    #[should_panic(expected = "no stream of number 3")]
    fn a_third_stream_is_another_library() {
        let _ = Refused::from_front((16, 3));
    }
}
