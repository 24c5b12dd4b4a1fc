//! The numbers that the front gives, as enums: why a call was refused, how a run ended, kinds of record, errors.
use std::error::Error;
use std::fmt;

/// What becomes of a number that is none of the front's. By the rule book it gives no other, so a caller could not act on one:
/// it means that another library than this crate's was linked.
#[cold]
pub(crate) fn none_of_ours(what: &str, number: u64) -> ! {
    unreachable!(
        "the proved front gives no {} of number {}; was another libzelezmut.a linked?",
        what, number
    )
}

/// Why a call was refused. A refused call has changed no state and no byte of what it was lent.
///
/// A load is refused in words of its own: [`BadFile`](crate::BadFile), call answer 7; and so is a move: [`NotMoved`](crate::NotMoved).
#[derive(Clone, Copy, Debug, PartialEq, Eq, Hash)]
pub enum Refused {
    /// The lent memory has another length than the desk was made for.
    OtherMemory,
    /// There is no such register, or it is not readable or not writable.
    NoRegister,
    /// The host answered, but no submission waits for it.
    NothingWaits,
    /// No submission waits, or it has no record of this index.
    NoRecord,
    /// The desk cannot be saved now: a submission is in work, from its opening to its settling.
    InWork,
    /// The lent buffer is too short for the saved desk.
    TooShort,
    /// The device has what a saved desk of form 1 has no field for: a token, used since the last reset or come with a loaded file, a second
    /// name, or an error detail that is not 0.
    NotInForm,
    /// The host answered a submission that is over, and another one waits. This crate's own refusal, which has no number.
    StaleTicket,
}

impl Refused {
    /// Every reason, those with a number first, by rising number.
    pub const ALL: [Refused; 8] = [
        Refused::OtherMemory,
        Refused::NoRegister,
        Refused::NothingWaits,
        Refused::NoRecord,
        Refused::InWork,
        Refused::TooShort,
        Refused::NotInForm,
        Refused::StaleTicket,
    ];

    /// The call answer of documents 01 and 02, 1 to 6 or 8; `None` for [`Refused::StaleTicket`], which they do not know.
    #[inline]
    pub fn number(self) -> Option<u32> {
        match self {
            Refused::OtherMemory => Some(1),
            Refused::NoRegister => Some(2),
            Refused::NothingWaits => Some(3),
            Refused::NoRecord => Some(4),
            Refused::InWork => Some(5),
            Refused::TooShort => Some(6),
            Refused::NotInForm => Some(8),
            Refused::StaleTicket => None,
        }
    }

    /// A call answer: 0 is done.
    #[inline]
    pub(crate) fn from_answer(answer: u32) -> Result<(), Refused> {
        match answer {
            0 => Ok(()),
            _ => Err(Refused::from_number(answer)),
        }
    }

    /// By itself and cold, so that a call that is done only asks for 0.
    #[cold]
    fn from_number(answer: u32) -> Refused {
        match Refused::ALL.iter().find(|r| r.number() == Some(answer)) {
            Some(&refused) => refused,
            None => none_of_ours("call answer", answer.into()),
        }
    }
}

impl fmt::Display for Refused {
    fn fmt(&self, f: &mut fmt::Formatter<'_>) -> fmt::Result {
        f.write_str(match self {
            Refused::OtherMemory => "the memory has another length than the desk was made for",
            Refused::NoRegister => "no such register, or not readable or writable",
            Refused::NothingWaits => "no submission waits for the host's answer",
            Refused::NoRecord => "no such record, or no submission waits",
            Refused::InWork => "a submission is in work, and only a desk at rest is saved",
            Refused::TooShort => "the buffer is too short for the saved desk",
            Refused::NotInForm => {
                "form 1 has no field for a token that was used, a second name or an error's detail"
            }
            Refused::StaleTicket => "the submission answered is over, and another one waits",
        })
    }
}

impl Error for Refused {}

/// What a write to a register that there is did, as far as a host has to act on it.
#[derive(Clone, Copy, Debug, PartialEq, Eq, Hash)]
pub enum Written {
    /// The register has its new value, and that is all.
    Stored,
    /// The doorbell rang: there may be work, and it is time for a run.
    Rang,
    /// The device was reset: the submission in work was dropped, whether it waited or not, all resources are gone and all tokens are
    /// forgotten. What the host keeps for them can go too, and what it is doing for that submission is for nobody.
    Reset,
}

/// How a run ended, by itself or behind an answer.
#[derive(Clone, Copy, Debug, PartialEq, Eq, Hash)]
pub enum Ended {
    /// Disabled, or nothing to do until the doorbell rings.
    Idle,
    /// A submission waits for the host's answer.
    Waiting,
    /// The allowance is spent and there is more to do.
    Paused,
}

impl Ended {
    #[inline]
    pub(crate) fn from_number(number: u32) -> Ended {
        match number {
            0 => Ended::Idle,
            1 => Ended::Waiting,
            2 => Ended::Paused,
            _ => none_of_ours("ending", number.into()),
        }
    }
}

impl fmt::Display for Ended {
    fn fmt(&self, f: &mut fmt::Formatter<'_>) -> fmt::Result {
        f.write_str(match self {
            Ended::Idle => "idle",
            Ended::Waiting => "waiting",
            Ended::Paused => "paused",
        })
    }
}

/// What a record asks of the host; a [`Record`](crate::Record) has what it says too.
#[derive(Clone, Copy, Debug, PartialEq, Eq, Hash)]
#[repr(u32)]
pub enum RecordKind {
    /// The range is where a new resource lives in guest memory.
    Backs = 1,
    /// The guest changed the range: the host reads it.
    Reads = 2,
    /// The host writes the range: a copy's result goes back to guest memory.
    Writes = 3,
    /// The host draws within this part of the target alone: what a scissor leaves of it.
    Clips = 4,
}

impl RecordKind {
    /// The kind's number in documents 01 and 02, 1 to 4.
    #[inline]
    pub fn number(self) -> u32 {
        self as u32
    }

    #[inline]
    pub(crate) fn from_front(number: u32) -> RecordKind {
        match RecordKind::try_from(number) {
            Ok(kind) => kind,
            Err(UnknownKind(number)) => none_of_ours("record kind", number.into()),
        }
    }
}

/// A number that is no record kind's.
#[derive(Clone, Copy, Debug, PartialEq, Eq, Hash)]
pub struct UnknownKind(pub u32);

impl fmt::Display for UnknownKind {
    fn fmt(&self, f: &mut fmt::Formatter<'_>) -> fmt::Result {
        write!(f, "no record has kind {}", self.0)
    }
}

impl Error for UnknownKind {}

impl TryFrom<u32> for RecordKind {
    type Error = UnknownKind;

    #[inline]
    fn try_from(number: u32) -> Result<RecordKind, UnknownKind> {
        match number {
            1 => Ok(RecordKind::Backs),
            2 => Ok(RecordKind::Reads),
            3 => Ok(RecordKind::Writes),
            4 => Ok(RecordKind::Clips),
            _ => Err(UnknownKind(number)),
        }
    }
}

impl fmt::Display for RecordKind {
    fn fmt(&self, f: &mut fmt::Formatter<'_>) -> fmt::Result {
        f.write_str(match self {
            RecordKind::Backs => "backs",
            RecordKind::Reads => "reads",
            RecordKind::Writes => "writes",
            RecordKind::Clips => "clips",
        })
    }
}

/// What the host says of a waiting submission.
#[derive(Clone, Copy, Debug, PartialEq, Eq, Hash)]
pub enum HostAnswer {
    /// All records were carried out: the submission's resources and tokens become the device's.
    Good,
    /// Something failed: the submission ends with error 27, and the resources and tokens before it stay.
    Failed,
}

/// Whether all went well.
impl From<bool> for HostAnswer {
    #[inline]
    fn from(good: bool) -> HostAnswer {
        if good {
            HostAnswer::Good
        } else {
            HostAnswer::Failed
        }
    }
}

/// Why a submission was refused or failed, as the error register tells the guest.
#[derive(Clone, Copy, Debug, PartialEq, Eq, Hash)]
#[repr(u32)]
pub enum DeviceError {
    /// The ring's place, header, slots or indices break a rule.
    BadRing = 10,
    /// A descriptor's size, or its ranges' addresses and sizes, break a rule.
    BadDescriptor = 11,
    /// The stream's or the table's range leaves guest memory.
    OutsideMemory = 12,
    /// The table's header breaks a rule.
    BadTable = 13,
    /// A table entry has id 0, size 0 or leaves guest memory.
    BadEntry = 14,
    /// A table entry has an earlier entry's id.
    TwiceInTable = 15,
    /// The stream's header breaks a rule.
    BadStream = 16,
    /// A packet's size breaks a rule, or bytes are left over.
    BadPacket = 17,
    /// A handle is 0, live when created or imported, or not live when used; or a copy's is no buffer, a target's no texture.
    BadHandle = 18,
    /// More than 64 table entries, names of resources or records, or more than 256 tokens.
    TooMany = 19,
    /// No resource has this shape, or what is exported is no texture of one mip and one layer.
    BadShape = 20,
    /// The backing id is not in the submission's table.
    NotInTable = 21,
    /// The range leaves its table entry.
    PastEntry = 22,
    /// The copy would write back to a read-only entry.
    ReadOnly = 23,
    /// The range leaves its resource.
    PastResource = 24,
    /// The resource has no guest memory behind it.
    HostBacked = 25,
    /// The copy names one buffer twice, or has unknown flags.
    BadCopy = 26,
    /// The host said that it failed.
    HostFailed = 27,
    /// The token of an export is 0, was used for another resource, or is spent.
    BadToken = 28,
    /// The token of an import or a release is bound to no live resource.
    UnboundToken = 29,
    /// A viewport, clear or scissor breaks a rule, or there is no target for the scissor.
    BadState = 30,
}

impl DeviceError {
    /// Every error, by rising number.
    pub const ALL: [DeviceError; 21] = [
        DeviceError::BadRing,
        DeviceError::BadDescriptor,
        DeviceError::OutsideMemory,
        DeviceError::BadTable,
        DeviceError::BadEntry,
        DeviceError::TwiceInTable,
        DeviceError::BadStream,
        DeviceError::BadPacket,
        DeviceError::BadHandle,
        DeviceError::TooMany,
        DeviceError::BadShape,
        DeviceError::NotInTable,
        DeviceError::PastEntry,
        DeviceError::ReadOnly,
        DeviceError::PastResource,
        DeviceError::HostBacked,
        DeviceError::BadCopy,
        DeviceError::HostFailed,
        DeviceError::BadToken,
        DeviceError::UnboundToken,
        DeviceError::BadState,
    ];

    /// The error's number in documents 01 and 02: 10 to 30.
    #[inline]
    pub fn number(self) -> u32 {
        self as u32
    }

    /// The error of this number; `None` for 0, which is no error, and for a number that is none of ours.
    pub fn from_number(number: u32) -> Option<DeviceError> {
        DeviceError::ALL
            .iter()
            .copied()
            .find(|e| e.number() == number)
    }

    /// An error number of the front's own, where 0 is none.
    #[inline]
    pub(crate) fn from_front(number: u32) -> Option<DeviceError> {
        if number == 0 {
            return None;
        }
        match DeviceError::from_number(number) {
            Some(error) => Some(error),
            None => none_of_ours("error", number.into()),
        }
    }
}

impl fmt::Display for DeviceError {
    fn fmt(&self, f: &mut fmt::Formatter<'_>) -> fmt::Result {
        f.write_str(match self {
            DeviceError::BadRing => "the ring breaks a rule",
            DeviceError::BadDescriptor => "the descriptor breaks a rule",
            DeviceError::OutsideMemory => "the stream or the table leaves guest memory",
            DeviceError::BadTable => "the table's header breaks a rule",
            DeviceError::BadEntry => "a table entry has id 0 or size 0, or it leaves guest memory",
            DeviceError::TwiceInTable => "two table entries have one id",
            DeviceError::BadStream => "the stream's header breaks a rule",
            DeviceError::BadPacket => "a packet's size breaks a rule, or bytes are left over",
            DeviceError::BadHandle => "a handle is 0, taken, or not a live resource of the kind",
            DeviceError::TooMany => "more than 64 table entries, names or records, or 256 tokens",
            DeviceError::BadShape => {
                "no resource has this shape, or it is none that can be exported"
            }
            DeviceError::NotInTable => "the backing id is not in the table",
            DeviceError::PastEntry => "the range leaves its table entry",
            DeviceError::ReadOnly => "the table entry is read-only",
            DeviceError::PastResource => "the range leaves its resource",
            DeviceError::HostBacked => "the resource has no guest memory behind it",
            DeviceError::BadCopy => "a copy within one buffer, or with unknown flags",
            DeviceError::HostFailed => "the host failed",
            DeviceError::BadToken => "the token is 0, was used for another resource, or is spent",
            DeviceError::UnboundToken => "the token is bound to no live resource",
            DeviceError::BadState => {
                "a viewport, clear or scissor breaks a rule, or a scissor has no target"
            }
        })
    }
}

impl Error for DeviceError {}

#[cfg(test)]
mod tests {
    use super::*;
    use std::collections::HashSet;

    #[test]
    fn call_answers_are_1_to_6_and_8() {
        let numbers: Vec<u32> = Refused::ALL.iter().filter_map(|r| r.number()).collect();
        assert_eq!(numbers, [1, 2, 3, 4, 5, 6, 8]);
        assert_eq!(Refused::StaleTicket.number(), None);
        assert_eq!(Refused::ALL.len(), numbers.len() + 1);
        assert_eq!(Refused::from_answer(0), Ok(()));
        for refused in Refused::ALL {
            if let Some(number) = refused.number() {
                assert_eq!(Refused::from_answer(number), Err(refused));
            }
        }
    }

    #[test]
    fn errors_are_10_to_30() {
        let numbers: Vec<u32> = DeviceError::ALL.iter().map(|e| e.number()).collect();
        assert_eq!(numbers, (10..=30).collect::<Vec<u32>>());
        for number in 0..100 {
            let error = DeviceError::from_number(number);
            assert_eq!(error.is_some(), numbers.contains(&number));
            assert_eq!(error.map_or(number, DeviceError::number), number);
        }
        assert_eq!(DeviceError::from_front(0), None);
        assert_eq!(DeviceError::from_front(18), Some(DeviceError::BadHandle));
    }

    #[test]
    fn every_error_has_words_of_its_own() {
        let words: HashSet<String> = DeviceError::ALL.iter().map(|e| e.to_string()).collect();
        assert_eq!(words.len(), DeviceError::ALL.len());
        let words: HashSet<String> = Refused::ALL.iter().map(|r| r.to_string()).collect();
        assert_eq!(words.len(), Refused::ALL.len());
    }

    #[test]
    fn endings_and_kinds_have_the_numbers_of_the_exports() {
        assert_eq!(Ended::from_number(0), Ended::Idle);
        assert_eq!(Ended::from_number(1), Ended::Waiting);
        assert_eq!(Ended::from_number(2), Ended::Paused);
        for number in 0..10 {
            match RecordKind::try_from(number) {
                Ok(kind) => assert_eq!(kind.number(), number),
                Err(unknown) => assert_eq!(unknown, UnknownKind(number)),
            }
            let known = (1..=4).contains(&number);
            assert_eq!(RecordKind::try_from(number).is_ok(), known);
        }
        assert_eq!(UnknownKind(5).to_string(), "no record has kind 5");
        assert_eq!(HostAnswer::from(true), HostAnswer::Good);
        assert_eq!(HostAnswer::from(false), HostAnswer::Failed);
    }

    #[test]
    #[should_panic(expected = "no call answer of number 9")]
    fn another_call_answer_is_another_library() {
        let _ = Refused::from_answer(9);
    }

    #[test]
    #[should_panic(expected = "no ending of number 3")]
    fn another_ending_is_another_library() {
        Ended::from_number(3);
    }
}
