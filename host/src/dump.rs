//! The listing of a stream: a line of text for each packet, written by the proved front.
//!
//! [`text`] gives the whole listing, and [`lines`] gives it line by line, each with its names and numbers. Both take any bytes, of any
//! length. `docs/DUMP.md` publishes the lines and has a full listing.
//!
//! - A packet is listed by its offset in the stream, its name, its size and its fields. Floats are the numbers of their bits.
//! - A packet of an opcode that the front does not know is `UNKNOWN`, and the listing goes on. In a strict listing it is
//!   `STOPPED`, and the listing ends there.
//! - A bad stream header, or a packet that is cut short, ends the listing with its error. Nothing else is judged: handles, shapes and
//!   floats may be any.
//!
//! ```
//! use zelezmut::dump::{self, Value};
//! use zelezmut::guest::{self, Packet};
//!
//! let packets = [Packet::Destroy { handle: 7 }, Packet::Unknown { opcode: 9, size: 12 }];
//! let stream = guest::stream(&packets);
//! assert_eq!(
//!     dump::text(&stream, false),
//!     "0x00000018 Destroy size_bytes=16 handle=7\n\
//!      0x00000028 UNKNOWN size_bytes=12 opcode=9\n"
//! );
//!
//! let destroy = dump::lines(&stream, false).next().expect("a line");
//! assert_eq!(destroy.offset(), 24);
//! assert_eq!(destroy.field("handle"), Some(Value::Unsigned(7)));
//!
//! // A stream that is cut short, in a file that was not written to its end.
//! assert_eq!(dump::text(&stream[..50], false), "error=16\n");
//! ```
mod line;

pub use line::{Field, Line, Value, What};

use crate::front;
use crate::{Place, Refused};
use std::iter::FusedIterator;

/// The listing of a stream, every line with its line feed. It is empty for a good stream that has no packets.
///
/// # Panics
/// If a `libzelezmut.a` of another version than this crate's is linked, as [`Desk::new`](crate::Desk::new) does.
pub fn text(stream: &[u8], strict: bool) -> String {
    let most = longest(stream.len());
    let mut listed = front::dump(stream, strict, first_room(stream.len()).min(most));
    if Refused::from_answer(listed.0) == Err(Refused::TooShort) {
        listed = front::dump(stream, strict, most);
    }
    let (answer, mut bytes) = listed;
    if let Err(refused) = Refused::from_answer(answer) {
        unreachable!("a dump into a buffer of {} bytes: {}", most, refused);
    }
    bytes.shrink_to_fit();
    String::from_utf8(bytes).unwrap_or_else(|_| unreachable!("a listing is ASCII"))
}

/// No listing of a stream of this many bytes is longer: that is proved.
fn longest(stream: usize) -> usize {
    stream.saturating_mul(10).saturating_add(90)
}

/// Streams up to this length get the room of the longest listing at once, and so are listed by one call.
const SHORT: usize = 100 * 1024;

/// The room to try first: for a long stream twice what most packets take.
fn first_room(stream: usize) -> usize {
    match stream {
        0..=SHORT => longest(stream),
        _ => stream.saturating_mul(4),
    }
}

/// The lines of a listing, in the order of the packets. They are read from the text that [`text`] gives.
///
/// # Panics
/// As [`text`] does.
pub fn lines(stream: &[u8], strict: bool) -> Lines {
    Lines {
        text: text(stream, strict),
        at: 0,
        packet: line::FIRST_PACKET,
    }
}

/// The lines of a listing, as [`lines`] gives them.
#[derive(Clone, Debug)]
pub struct Lines {
    text: String,
    /// Where the next line begins in the text, and the next packet in the stream.
    at: usize,
    packet: u32,
}

impl Iterator for Lines {
    type Item = Line;

    fn next(&mut self) -> Option<Line> {
        let (text, _) = self.text.get(self.at..)?.split_once('\n')?;
        self.at += text.len() + 1;
        let line = Line::read(text, self.packet);
        self.packet = line.end();
        Some(line)
    }
}

impl FusedIterator for Lines {}

/// What the line at a place begins with, and every other line.
const ARROW: &str = "-> ";
const NO_ARROW: &str = "   ";

/// The listing with an arrow at the packet of a place, as [`Desk::last_error`](crate::Desk::last_error) names one. The other lines begin with
/// three blanks; so do all lines where the place is no packet's, or the packet of no line.
///
/// ```
/// use zelezmut::guest::{self, Packet};
/// use zelezmut::{dump, Place};
///
/// let stream = guest::stream(&[Packet::Destroy { handle: 7 }, Packet::Target { handle: 0 }]);
/// assert_eq!(
///     dump::with_arrow(&stream, false, Place::Packet(40)),
///     "   0x00000018 Destroy size_bytes=16 handle=7\n-> 0x00000028 Target size_bytes=16 handle=0\n"
/// );
/// ```
///
/// # Panics
/// As [`text`] does.
pub fn with_arrow(stream: &[u8], strict: bool, place: Place) -> String {
    let mut listing = String::new();
    for line in lines(stream, strict) {
        let here = place == Place::Packet(line.offset());
        listing.push_str(if here { ARROW } else { NO_ARROW });
        listing.push_str(line.as_str());
        listing.push('\n');
    }
    listing
}
