//! The month in numbers: exact totals over finished submissions.
use crate::answers::{none_of_ours, DeviceError, HostAnswer};
use crate::desk::Desk;
use crate::front;
use crate::record::Record;
use crate::state::{Records, TotalsWords, MOST, RECORD_WORDS};
use std::error::Error;
use std::fmt;

// The places of the totals, after accepted and the errors 10 to 30.
const ACCEPTED: u32 = 0;
const BEFORE_ERROR: u32 = 9;
const UNITS: u32 = 22;
const BYTES_READ: u32 = 23;
const BYTES_WRITTEN: u32 = 24;
const LARGEST_WRITE: u32 = 25;

/// Exact totals over finished submissions: accepted, refused with each error, units, bytes read and written, and the largest single write.
///
/// A finished submission is fed as its error, its units and its records: [`feed`](Month::feed). What waits at a desk is fed with the host's
/// answer: [`feed_waiting`](Month::feed_waiting). Months of several desks, or of several days, are [merged](Month::merge). The totals are
/// the sums over exactly the submissions that were counted, in whatever parts they were fed; that is proved.
///
/// Displayed it is 26 lines in the published order, `docs/MONTH.md`, as the program `program_month` prints them.
///
/// ```
/// use zelezmut::{DeviceError, Month, NotCounted, Range, Record};
///
/// let range = Range { handle: 1, id: 5, gpa: 8192, length: 64 };
/// let mut month = Month::new();
/// month.feed(None, 9, &[Record::Reads(range), Record::Writes(range)])?;
/// month.feed(Some(DeviceError::TwiceInTable), 3, &[])?;
/// assert_eq!((month.accepted(), month.refused(DeviceError::TwiceInTable)), (1, 1));
/// assert_eq!((month.units(), month.bytes_read(), month.largest_write()), (12, 64, 64));
///
/// // Records beside an error are no finished submission's, and nothing of them is counted.
/// let before = month.clone();
/// let refused = month.feed(Some(DeviceError::HostFailed), 3, &[Record::Reads(range)]);
/// assert_eq!((refused, month), (Err(NotCounted::BadFeed), before));
/// # Ok::<(), NotCounted>(())
/// ```
#[derive(Clone, Debug, PartialEq, Eq, Hash)]
pub struct Month {
    words: TotalsWords,
}

/// Why a submission, or a part of a month, was not counted. Then every total is as it was.
#[derive(Clone, Copy, Debug, PartialEq, Eq, Hash)]
pub enum NotCounted {
    /// A total would reach 2^64: answer 9.
    TooMuch,
    /// It is no finished submission: an error or a record kind that is not listed, more than 64 records, or records beside an error.
    /// Answer 10, which comes before 9.
    BadFeed,
}

impl NotCounted {
    /// The call answer of document 02: 9 or 10.
    #[inline]
    pub fn number(self) -> u32 {
        match self {
            NotCounted::TooMuch => 9,
            NotCounted::BadFeed => 10,
        }
    }

    /// A call answer: 0 is done.
    fn from_answer(answer: u32) -> Result<(), NotCounted> {
        match answer {
            0 => Ok(()),
            9 => Err(NotCounted::TooMuch),
            10 => Err(NotCounted::BadFeed),
            _ => none_of_ours("month's answer", answer.into()),
        }
    }
}

impl fmt::Display for NotCounted {
    fn fmt(&self, f: &mut fmt::Formatter<'_>) -> fmt::Result {
        f.write_str(match self {
            NotCounted::TooMuch => "a total would reach 2^64",
            NotCounted::BadFeed => {
                "an unlisted error or record kind, more than 64 records, or records beside an error"
            }
        })
    }
}

impl Error for NotCounted {}

impl Month {
    /// The totals of no submissions.
    ///
    /// # Panics
    /// As [`Desk::new`] does.
    pub fn new() -> Month {
        let mut words = [0; 26];
        front::month_make(&mut words);
        Month { words }
    }

    /// Counts a finished submission: its error, if it was refused, the units that it took, and its records if it was not.
    ///
    /// A submission that the host failed is one with [`DeviceError::HostFailed`] and without records.
    ///
    /// # Errors
    /// [`NotCounted::BadFeed`] for records beside an error or more than 64 of them, else [`NotCounted::TooMuch`].
    pub fn feed(
        &mut self,
        error: Option<DeviceError>,
        units: u32,
        records: &[Record],
    ) -> Result<(), NotCounted> {
        let error = error.map_or(0, DeviceError::number);
        let rows = records.iter().map(|record| record.numbers());
        self.feed_rows(error, units, records.len(), rows)
    }

    /// Counts a finished submission that comes as plain numbers, such as from a log: error, units, and kind and length of each record.
    ///
    /// # Errors
    /// [`NotCounted::BadFeed`] if the error is neither 0 nor one of 10 to 30, a kind is not 1 to 4, there are more than 64 records, or
    /// records beside an error; else [`NotCounted::TooMuch`].
    pub fn feed_numbers(
        &mut self,
        error: u32,
        units: u32,
        records: &[(u32, u64)],
    ) -> Result<(), NotCounted> {
        let row = |&(kind, length): &(u32, u64)| [kind.into(), 0, 0, 0, length];
        self.feed_rows(error, units, records.len(), records.iter().map(row))
    }

    /// Counts the submission that waits at a desk, as it finishes by this answer: accepted with its records, or with
    /// [`DeviceError::HostFailed`] and none. The units are those that it took: its opening, its table entries and its packets.
    ///
    /// It is fed before it is answered, since its records are the desk's until then. Where none waits, nothing is counted.
    ///
    /// ```
    /// use zelezmut::{Desk, HostAnswer, Month, Ticket};
    ///
    /// /// Answers what waits, and counts it.
    /// fn settle(desk: &mut Desk, memory: &mut [u8], month: &mut Month, units: u32) {
    ///     let ticket = desk.waiting().map_or(Ticket::NONE, |waiting| waiting.ticket);
    ///     month.feed_waiting(desk, HostAnswer::Good, units).expect("a month below 2^64");
    ///     let _ = desk.answer(memory, ticket, HostAnswer::Good, 0);
    /// }
    ///
    /// let mut month = Month::new();
    /// settle(&mut Desk::new(4096), &mut [0; 4096], &mut month, 4);
    /// assert_eq!(month, Month::new());
    /// ```
    ///
    /// # Errors
    /// [`NotCounted::TooMuch`] if a total would reach 2^64.
    pub fn feed_waiting(
        &mut self,
        desk: &Desk,
        answer: HostAnswer,
        units: u32,
    ) -> Result<(), NotCounted> {
        let (count, records) = match desk.waiting_records() {
            Some(waiting) => waiting,
            None => return Ok(()),
        };
        let (error, count) = match answer {
            HostAnswer::Good => (0, count),
            HostAnswer::Failed => (DeviceError::HostFailed.number(), 0),
        };
        let answer = front::month_feed(&mut self.words, error, units, count, records);
        NotCounted::from_answer(answer)
    }

    /// Feeds rows; those after the 64th are counted and not looked at.
    fn feed_rows(
        &mut self,
        error: u32,
        units: u32,
        count: usize,
        rows: impl Iterator<Item = [u64; RECORD_WORDS]>,
    ) -> Result<(), NotCounted> {
        let mut records: Records = [0; MOST * RECORD_WORDS];
        for (place, row) in records.chunks_exact_mut(RECORD_WORDS).zip(rows) {
            place.copy_from_slice(&row);
        }
        let count = u32::try_from(count).unwrap_or(u32::MAX);
        let answer = front::month_feed(&mut self.words, error, units, count, &records);
        NotCounted::from_answer(answer)
    }

    /// Adds the totals of another part of the month; the largest write is the larger of both.
    ///
    /// # Errors
    /// [`NotCounted::TooMuch`] if a sum would reach 2^64.
    pub fn merge(&mut self, other: &Month) -> Result<(), NotCounted> {
        NotCounted::from_answer(front::month_merge(&mut self.words, &other.words))
    }

    /// Submissions without an error.
    pub fn accepted(&self) -> u64 {
        self.total(ACCEPTED)
    }

    /// Submissions with this error.
    pub fn refused(&self, error: DeviceError) -> u64 {
        self.total(error.number() - BEFORE_ERROR)
    }

    /// Units of all submissions, those with an error too.
    pub fn units(&self) -> u64 {
        self.total(UNITS)
    }

    /// The bytes of all [`Record::Reads`].
    pub fn bytes_read(&self) -> u64 {
        self.total(BYTES_READ)
    }

    /// The bytes of all [`Record::Writes`].
    pub fn bytes_written(&self) -> u64 {
        self.total(BYTES_WRITTEN)
    }

    /// The bytes of the longest [`Record::Writes`], 0 if there was none.
    pub fn largest_write(&self) -> u64 {
        self.total(LARGEST_WRITE)
    }

    /// All totals in the published order, to be kept: [`from_words`](Month::from_words) takes them back.
    pub fn words(&self) -> [u64; 26] {
        self.words
    }

    /// The month whose totals these are, in the published order. Any words are some month's.
    pub fn from_words(words: [u64; 26]) -> Month {
        Month { words }
    }

    fn total(&self, place: u32) -> u64 {
        front::month_total(&self.words, place)
    }
}

impl Default for Month {
    fn default() -> Month {
        Month::new()
    }
}

impl fmt::Display for Month {
    fn fmt(&self, f: &mut fmt::Formatter<'_>) -> fmt::Result {
        writeln!(f, "accepted={}", self.accepted())?;
        for error in DeviceError::ALL {
            writeln!(f, "refused_{}={}", error.number(), self.refused(error))?;
        }
        writeln!(f, "units={}", self.units())?;
        writeln!(f, "bytes_read={}", self.bytes_read())?;
        writeln!(f, "bytes_written={}", self.bytes_written())?;
        writeln!(f, "largest_write={}", self.largest_write())
    }
}
