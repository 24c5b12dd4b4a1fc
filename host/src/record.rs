//! Records: what a checked submission asks of the host, each kind with what it says.
use crate::answers::{none_of_ours, RecordKind};
use std::fmt;

/// What a checked packet asks of the host: to work on a range of guest memory, or to draw in a part of the target only.
///
/// What else the submission asks of the host is in its stream alone, which [`decode`](crate::guest::decode) reads:
///
/// - where within the resource a range is. A create's record, [`Record::Backs`], has the whole resource: a later range's `gpa`
///   less that one's is the offset, as long as the resource's entry has not moved since;
/// - what a copy reads: the source, be it backed or not, has no record, and a copy without writeback has none at all;
/// - a resource that lives with the host: neither its create nor what is done with it makes a record; nor does any destroy, nor a
///   dirty range or a copy of no bytes;
/// - a texture's shape; which texture is the target; viewports and clears; and packets that the front does not know;
/// - exports, imports and releases, which make no record: that two names are one surface a host learns from the stream alone.
///
/// ```
/// use zelezmut::{Range, Record, RecordKind, Rectangle};
///
/// let reads = Record::Reads(Range { handle: 1, id: 5, gpa: 8272, length: 32 });
/// assert_eq!((reads.kind(), reads.rectangle()), (RecordKind::Reads, None));
/// assert_eq!(reads.range().map(|range| range.gpa), Some(8272));
/// assert_eq!(reads.numbers(), [2, 1, 5, 8272, 32]);
/// assert_eq!(reads.to_string(), "reads 32 bytes at 8272: resource 1, table entry 5");
///
/// let clips = Record::Clips(Rectangle { left: 0, top: 4, width: 16, height: 12 });
/// assert_eq!(clips.range(), None);
/// assert_eq!(clips.to_string(), "clips to 16 by 12 pixels at 0, 4");
/// ```
#[derive(Clone, Copy, Debug, PartialEq, Eq, Hash)]
pub enum Record {
    /// Kind 1: the range is where a new resource lives in guest memory.
    Backs(Range),
    /// Kind 2: the guest changed the range: the host reads it.
    Reads(Range),
    /// Kind 3: the host writes the range: a copy's result goes back to guest memory.
    Writes(Range),
    /// Kind 4: a scissor's part of the target. From there on the host draws within it alone.
    Clips(Rectangle),
}

/// A checked range of guest memory, and its resource.
#[derive(Clone, Copy, Debug, PartialEq, Eq, Hash)]
pub struct Range {
    /// The resource's name in the packet, which is one of several if it was imported.
    pub handle: u32,
    /// The table entry's id.
    pub id: u32,
    /// Where the range starts in guest memory; all of it lies within.
    pub gpa: u64,
    /// The range's bytes.
    pub length: u64,
}

/// Pixels of a target's mip 0, all of which lie within it. The default, zeros, has none: it is what an empty clip comes to.
#[derive(Clone, Copy, Debug, Default, PartialEq, Eq, Hash)]
pub struct Rectangle {
    /// The first column.
    pub left: u32,
    /// The first row.
    pub top: u32,
    /// How many columns it has.
    pub width: u32,
    /// How many rows it has.
    pub height: u32,
}

impl Rectangle {
    /// Whether it has no pixel: then all of its numbers are 0.
    #[inline]
    pub fn is_empty(self) -> bool {
        self == Rectangle::default()
    }
}

impl Record {
    /// The record that the front's five words say.
    #[inline]
    pub(crate) fn from_front([kind, handle, id, gpa, length]: [u64; 5]) -> Record {
        let range = Range {
            handle: handle as u32,
            id: id as u32,
            gpa,
            length,
        };
        match RecordKind::from_front(kind as u32) {
            RecordKind::Backs => Record::Backs(range),
            RecordKind::Reads => Record::Reads(range),
            RecordKind::Writes => Record::Writes(range),
            RecordKind::Clips => Record::Clips(Rectangle {
                left: handle as u32,
                top: id as u32,
                width: side(gpa),
                height: side(length),
            }),
        }
    }

    /// Its kind, without what it says.
    #[inline]
    pub fn kind(self) -> RecordKind {
        match self {
            Record::Backs(_) => RecordKind::Backs,
            Record::Reads(_) => RecordKind::Reads,
            Record::Writes(_) => RecordKind::Writes,
            Record::Clips(_) => RecordKind::Clips,
        }
    }

    /// The range of guest memory, of kinds 1 to 3.
    #[inline]
    pub fn range(self) -> Option<Range> {
        match self {
            Record::Backs(range) | Record::Reads(range) | Record::Writes(range) => Some(range),
            Record::Clips(_) => None,
        }
    }

    /// The part of the target, of kind 4.
    #[inline]
    pub fn rectangle(self) -> Option<Rectangle> {
        match self {
            Record::Clips(rectangle) => Some(rectangle),
            Record::Backs(_) | Record::Reads(_) | Record::Writes(_) => None,
        }
    }

    /// Its five numbers, in the order of the exports and of desk scripts: the kind; handle, id, address and length of a range, or
    /// left, top, width and height of a rectangle.
    #[inline]
    pub fn numbers(self) -> [u64; 5] {
        let kind = self.kind().number().into();
        match self {
            Record::Backs(range) | Record::Reads(range) | Record::Writes(range) => [
                kind,
                range.handle.into(),
                range.id.into(),
                range.gpa,
                range.length,
            ],
            Record::Clips(rectangle) => [
                kind,
                rectangle.left.into(),
                rectangle.top.into(),
                rectangle.width.into(),
                rectangle.height.into(),
            ],
        }
    }
}

/// A rectangle's side: no texture's has more than 32 bits.
#[inline]
fn side(word: u64) -> u32 {
    u32::try_from(word).unwrap_or_else(|_| none_of_ours("side of a rectangle", word))
}

impl fmt::Display for Record {
    fn fmt(&self, f: &mut fmt::Formatter<'_>) -> fmt::Result {
        let kind = self.kind();
        match self {
            Record::Backs(range) | Record::Reads(range) | Record::Writes(range) => {
                write!(f, "{} {}", kind, range)
            }
            Record::Clips(rectangle) => write!(f, "{} to {}", kind, rectangle),
        }
    }
}

impl fmt::Display for Range {
    fn fmt(&self, f: &mut fmt::Formatter<'_>) -> fmt::Result {
        write!(
            f,
            "{} bytes at {}: resource {}, table entry {}",
            self.length, self.gpa, self.handle, self.id
        )
    }
}

impl fmt::Display for Rectangle {
    fn fmt(&self, f: &mut fmt::Formatter<'_>) -> fmt::Result {
        write!(
            f,
            "{} by {} pixels at {}, {}",
            self.width, self.height, self.left, self.top
        )
    }
}

#[cfg(test)]
mod tests {
    use super::*;

    #[test]
    fn every_kind_keeps_its_five_numbers() {
        for kind in 1..=4 {
            let said = [kind, 2, 3, 4, 5];
            let record = Record::from_front(said);
            assert_eq!(record.numbers(), said);
            assert_eq!(u64::from(record.kind().number()), kind);
            assert_eq!(record.range().is_some(), kind < 4);
            assert_eq!(record.rectangle().is_some(), kind == 4);
        }
        let said = [3, u32::MAX.into(), u32::MAX.into(), u64::MAX, u64::MAX];
        assert_eq!(Record::from_front(said).numbers(), said);
    }

    #[test]
    fn an_empty_clip_is_all_zeros() {
        let empty = Record::from_front([4, 0, 0, 0, 0]);
        assert_eq!(empty, Record::Clips(Rectangle::default()));
        assert_eq!(empty.to_string(), "clips to 0 by 0 pixels at 0, 0");
        assert_eq!(empty.rectangle().map(Rectangle::is_empty), Some(true));
        let pixel = Record::from_front([4, 0, 0, 1, 1]);
        assert_eq!(pixel.rectangle().map(Rectangle::is_empty), Some(false));
    }

    #[test]
    #[should_panic(expected = "no side of a rectangle of number 4294967296")]
    fn a_longer_side_is_another_library() {
        Record::from_front([4, 0, 0, 1 << 32, 1]);
    }

    #[test]
    #[should_panic(expected = "no record kind of number 5")]
    fn another_kind_is_another_library() {
        Record::from_front([5, 0, 0, 0, 0]);
    }
}
