//! Desk scripts, version 2: a night at the desk as a file, the same on every front that plays it.
//!
//! A script is "DSK2", the memory's length, a word that says which wishes its writer knew, and operations to the end of the file.
//! [`decode`] reads one, [`encode`] writes one, and [`transcript`] plays one on a [`Desk`](crate::Desk) and gives a line for each
//! operation.
//!
//! ```
//! use zelezmut::script::{self, Operation};
//! use zelezmut::{registers, HostAnswer};
//!
//! let bytes = script::encode(4096, &[
//!     Operation::Read { offset: registers::VERSION },
//!     Operation::Run { allowance: 16 },
//!     Operation::Answer { answer: HostAnswer::Good, allowance: 16 },
//! ]);
//! let lines = script::transcript(&script::decode(&bytes));
//! assert_eq!(lines, "read 0 65539\nrun 0 0 idle\nanswer 3 0 idle\n");
//! ```
mod player;
mod submissions;

pub use player::{transcript, Player};
pub use submissions::{submissions, Outcome, Submission, Submissions, Watch};

use crate::{Form, HostAnswer};
use std::error::Error;
use std::fmt;

const MAGIC: [u8; 4] = *b"DSK2";

/// What [`encode`] says of itself: bit N for wish N. Nobody who plays a script asks for it.
const WISHES: u32 = 1 << 1 | 1 << 2 | 1 << 5 | 1 << 6 | 1 << 7 | 1 << 9 | 1 << 11;

/// The most bytes that a script has.
pub const LONGEST_SCRIPT: usize = 1 << 20;

/// The most bytes that a script's memories have.
pub const LONGEST_MEMORY: u32 = 1 << 16;

/// The most bytes of a buffer that a script has a desk saved into, or a file moved into.
pub const LONGEST_BUFFER: u32 = 1 << 16;

const POKE: u8 = 1;
const WRITE: u8 = 2;
const READ: u8 = 3;
const RUN: u8 = 4;
const RECORD: u8 = 5;
const ANSWER: u8 = 6;
const STATE: u8 = 7;
const RUN_ELSEWHERE: u8 = 8;
const ANSWER_ELSEWHERE: u8 = 9;
const SAVE: u8 = 10;
const LOAD: u8 = 11;
const SAVE_FORM_2: u8 = 12;
const MOVE: u8 = 13;

/// One operation of a script.
#[derive(Clone, Debug, PartialEq, Eq)]
pub enum Operation {
    /// The guest writes bytes into its memory; those that fall outside are dropped.
    Poke {
        /// Where the first byte goes.
        address: u32,
        /// The bytes.
        bytes: Vec<u8>,
    },
    /// The guest writes a register.
    Write {
        /// The register's offset.
        offset: u32,
        /// What is written.
        value: u32,
    },
    /// The guest reads a register.
    Read {
        /// The register's offset.
        offset: u32,
    },
    /// The front runs.
    Run {
        /// The most units that it may spend.
        allowance: u16,
    },
    /// The host asks for a record.
    Record {
        /// The record's index.
        index: u32,
    },
    /// The host answers, and the front runs.
    Answer {
        /// What it says.
        answer: HostAnswer,
        /// The most units that the run may spend.
        allowance: u16,
    },
    /// All readable registers, and the memory's hash.
    State,
    /// The front runs and is lent another memory: zeros, dropped afterwards.
    RunElsewhere {
        /// The most units that it may spend.
        allowance: u16,
        /// The other memory's bytes.
        length: u32,
    },
    /// The host answers, the front runs, and is lent another memory: zeros, dropped afterwards.
    AnswerElsewhere {
        /// What it says.
        answer: HostAnswer,
        /// The most units that the run may spend.
        allowance: u16,
        /// The other memory's bytes.
        length: u32,
    },
    /// The host saves the desk, into a buffer in which every byte is AA (hex) before.
    Save {
        /// The form that it is saved in.
        form: Form,
        /// The buffer's bytes.
        length: u32,
    },
    /// The host loads a desk. It may be one for another memory length than the script's memory has: nothing runs then.
    Load {
        /// What is to be a saved desk.
        file: Vec<u8>,
    },
    /// The host moves a saved desk to the other form, into a buffer in which every byte is AA (hex) before. The desk is not asked.
    Move {
        /// The buffer's bytes.
        length: u32,
        /// What is to be a saved desk.
        file: Vec<u8>,
    },
}

/// Why a script cannot be played on. It ends the transcript with a line of its own.
#[derive(Clone, Copy, Debug, PartialEq, Eq, Hash)]
pub enum Fault {
    /// It is longer than [`LONGEST_SCRIPT`].
    LongScript,
    /// It does not begin with "DSK2". Version 1 began with "DESK"; it is no longer played.
    NoMagic,
    /// A memory of so many bytes is asked for, more than [`LONGEST_MEMORY`].
    LongMemory(u32),
    /// A buffer of so many bytes is asked for, more than [`LONGEST_BUFFER`].
    LongBuffer(u32),
    /// It ends within its header or within an operation.
    Truncated,
    /// No operation has this tag.
    UnknownTag(u8),
}

impl Fault {
    /// The transcript's last line.
    pub fn line(self) -> String {
        match self {
            Fault::LongScript | Fault::NoMagic | Fault::LongMemory(_) | Fault::LongBuffer(_) => {
                "bad script".to_string()
            }
            Fault::Truncated => "truncated".to_string(),
            Fault::UnknownTag(tag) => format!("unknown tag {}", tag),
        }
    }
}

impl fmt::Display for Fault {
    fn fmt(&self, f: &mut fmt::Formatter<'_>) -> fmt::Result {
        match self {
            Fault::LongScript => write!(
                f,
                "longer than the {} bytes of a desk script",
                LONGEST_SCRIPT
            ),
            Fault::NoMagic => write!(
                f,
                "no desk script of version 2: it does not begin with \"DSK2\""
            ),
            Fault::LongMemory(length) => write!(
                f,
                "a memory of {} bytes is asked for, more than {}",
                length, LONGEST_MEMORY
            ),
            Fault::LongBuffer(length) => write!(
                f,
                "a buffer of {} bytes is asked for, more than {}",
                length, LONGEST_BUFFER
            ),
            Fault::Truncated => write!(f, "the script is cut short"),
            Fault::UnknownTag(tag) => write!(f, "no operation has tag {}", tag),
        }
    }
}

impl Error for Fault {}

/// A script, as far as it could be read.
#[derive(Clone, Debug, PartialEq, Eq)]
pub struct Script {
    /// The bytes of the memory that the desk is made for.
    pub memory: u32,
    /// The operations before the fault, or all.
    pub operations: Vec<Operation>,
    /// What stands in the way of the rest.
    pub fault: Option<Fault>,
}

/// Reads a script. One that goes wrong half way is played up to there, so what could be read comes back beside the fault.
pub fn decode(bytes: &[u8]) -> Script {
    let mut script = Script {
        memory: 0,
        operations: Vec::new(),
        fault: None,
    };
    let mut rest = Reader { bytes };
    script.fault = read_script(&mut rest, &mut script).err();
    script
}

fn read_script(rest: &mut Reader<'_>, script: &mut Script) -> Result<(), Fault> {
    if rest.bytes.len() > LONGEST_SCRIPT {
        return Err(Fault::LongScript);
    }
    script.memory = read_head(rest)?;
    while let Some((&tag, after)) = rest.bytes.split_first() {
        rest.bytes = after;
        script.operations.push(operation(tag, rest)?);
    }
    Ok(())
}

/// The memory's length. The magic is judged once the length is read, and the length once the head is.
fn read_head(rest: &mut Reader<'_>) -> Result<u32, Fault> {
    let magic: [u8; 4] = rest.field()?;
    let length = rest.u32()?;
    if magic != MAGIC {
        return Err(Fault::NoMagic);
    }
    rest.u32()?;
    memory_length(length)
}

fn memory_length(length: u32) -> Result<u32, Fault> {
    if length > LONGEST_MEMORY {
        return Err(Fault::LongMemory(length));
    }
    Ok(length)
}

fn buffer_length(length: u32) -> Result<u32, Fault> {
    if length > LONGEST_BUFFER {
        return Err(Fault::LongBuffer(length));
    }
    Ok(length)
}

/// The operation of this tag, whose fields stand at the front of the rest.
fn operation(tag: u8, rest: &mut Reader<'_>) -> Result<Operation, Fault> {
    Ok(match tag {
        POKE => Operation::Poke {
            address: rest.u32()?,
            bytes: rest.counted()?,
        },
        WRITE => Operation::Write {
            offset: rest.u32()?,
            value: rest.u32()?,
        },
        READ => Operation::Read {
            offset: rest.u32()?,
        },
        RUN => Operation::Run {
            allowance: rest.u16()?,
        },
        RECORD => Operation::Record { index: rest.u32()? },
        ANSWER => Operation::Answer {
            answer: rest.answer()?,
            allowance: rest.u16()?,
        },
        STATE => Operation::State,
        RUN_ELSEWHERE => Operation::RunElsewhere {
            allowance: rest.u16()?,
            length: memory_length(rest.u32()?)?,
        },
        ANSWER_ELSEWHERE => Operation::AnswerElsewhere {
            answer: rest.answer()?,
            allowance: rest.u16()?,
            length: memory_length(rest.u32()?)?,
        },
        _ => saving_operation(tag, rest)?,
    })
}

/// Likewise, of the operations that came with saved desks.
fn saving_operation(tag: u8, rest: &mut Reader<'_>) -> Result<Operation, Fault> {
    Ok(match tag {
        SAVE => Operation::Save {
            form: Form::One,
            length: buffer_length(rest.u32()?)?,
        },
        LOAD => Operation::Load {
            file: rest.counted()?,
        },
        SAVE_FORM_2 => Operation::Save {
            form: Form::Two,
            length: buffer_length(rest.u32()?)?,
        },
        // The length is judged once the file is read, too.
        MOVE => {
            let (length, file) = (rest.u32()?, rest.counted()?);
            let length = buffer_length(length)?;
            Operation::Move { length, file }
        }
        _ => return Err(Fault::UnknownTag(tag)),
    })
}

/// What is still to be read. A field that is cut short is a fault.
struct Reader<'a> {
    bytes: &'a [u8],
}

impl<'a> Reader<'a> {
    fn take(&mut self, count: usize) -> Result<&'a [u8], Fault> {
        if count > self.bytes.len() {
            return Err(Fault::Truncated);
        }
        let (taken, rest) = self.bytes.split_at(count);
        self.bytes = rest;
        Ok(taken)
    }

    fn field<const N: usize>(&mut self) -> Result<[u8; N], Fault> {
        let mut field = [0; N];
        field.copy_from_slice(self.take(N)?);
        Ok(field)
    }

    fn u16(&mut self) -> Result<u16, Fault> {
        self.field().map(u16::from_le_bytes)
    }

    fn u32(&mut self) -> Result<u32, Fault> {
        self.field().map(u32::from_le_bytes)
    }

    /// A count, and so many bytes.
    fn counted(&mut self) -> Result<Vec<u8>, Fault> {
        let count = self.u32()?;
        self.take(count as usize).map(<[u8]>::to_vec)
    }

    fn answer(&mut self) -> Result<HostAnswer, Fault> {
        let [told] = self.field()?;
        Ok(if told == 1 {
            HostAnswer::Good
        } else {
            HostAnswer::Failed
        })
    }
}

/// Writes a script. What is longer than a script may be is written all the same, and is refused by whoever plays it.
///
/// # Panics
/// If a poke or a file to be loaded or moved has 4 GiB or more, which no script can say.
pub fn encode(memory: u32, operations: &[Operation]) -> Vec<u8> {
    let mut script = MAGIC.to_vec();
    script.extend(memory.to_le_bytes());
    script.extend(WISHES.to_le_bytes());
    for operation in operations {
        encode_operation(&mut script, operation);
    }
    script
}

fn encode_operation(script: &mut Vec<u8>, operation: &Operation) {
    match operation {
        Operation::Poke { address, bytes } => {
            put(
                script,
                POKE,
                &[&address.to_le_bytes(), &count(bytes), bytes],
            );
        }
        Operation::Write { offset, value } => {
            put(
                script,
                WRITE,
                &[&offset.to_le_bytes(), &value.to_le_bytes()],
            );
        }
        Operation::Read { offset } => put(script, READ, &[&offset.to_le_bytes()]),
        Operation::Run { allowance } => put(script, RUN, &[&allowance.to_le_bytes()]),
        Operation::Record { index } => put(script, RECORD, &[&index.to_le_bytes()]),
        Operation::Answer { answer, allowance } => {
            put(script, ANSWER, &[&told(*answer), &allowance.to_le_bytes()]);
        }
        Operation::State => put(script, STATE, &[]),
        Operation::RunElsewhere { allowance, length } => {
            let fields = [&allowance.to_le_bytes()[..], &length.to_le_bytes()];
            put(script, RUN_ELSEWHERE, &fields);
        }
        Operation::AnswerElsewhere {
            answer,
            allowance,
            length,
        } => {
            let run = [&allowance.to_le_bytes()[..], &length.to_le_bytes()].concat();
            put(script, ANSWER_ELSEWHERE, &[&told(*answer), &run]);
        }
        saving => encode_saving(script, saving),
    }
}

/// Those that came with saved desks.
fn encode_saving(script: &mut Vec<u8>, operation: &Operation) {
    match operation {
        Operation::Save { form, length } => {
            let tag = match form {
                Form::One => SAVE,
                Form::Two => SAVE_FORM_2,
            };
            put(script, tag, &[&length.to_le_bytes()]);
        }
        Operation::Load { file } => put(script, LOAD, &[&count(file), file]),
        Operation::Move { length, file } => {
            put(script, MOVE, &[&length.to_le_bytes(), &count(file), file]);
        }
        _ => unreachable!("it is about no saved desk: {:?}", operation),
    }
}

/// A tag and the fields behind it.
fn put(script: &mut Vec<u8>, tag: u8, fields: &[&[u8]]) {
    script.push(tag);
    script.extend(fields.concat());
}

fn count(bytes: &[u8]) -> [u8; 4] {
    let count = u32::try_from(bytes.len()).expect("a poke or a file of less than 4 GiB");
    count.to_le_bytes()
}

fn told(answer: HostAnswer) -> [u8; 1] {
    match answer {
        HostAnswer::Good => [1],
        HostAnswer::Failed => [0],
    }
}

#[cfg(test)]
mod tests {
    use super::*;

    /// One of each.
    fn every_operation() -> Vec<Operation> {
        [first_operations(), saving_operations()].concat()
    }

    /// One of each that there was before desks were saved.
    fn first_operations() -> Vec<Operation> {
        vec![
            Operation::Poke {
                address: 70_000,
                bytes: vec![1, 2, 3],
            },
            Operation::Write {
                offset: 0x10C,
                value: u32::MAX,
            },
            Operation::Read { offset: 4 },
            Operation::Run { allowance: 65_535 },
            Operation::Record { index: 63 },
            Operation::Answer {
                answer: HostAnswer::Good,
                allowance: 0,
            },
            Operation::Answer {
                answer: HostAnswer::Failed,
                allowance: 65_535,
            },
            Operation::State,
            Operation::RunElsewhere {
                allowance: 5,
                length: LONGEST_MEMORY,
            },
            Operation::AnswerElsewhere {
                answer: HostAnswer::Good,
                allowance: 258,
                length: 0,
            },
        ]
    }

    /// One of each that came with saved desks.
    fn saving_operations() -> Vec<Operation> {
        vec![
            Operation::Save {
                form: Form::One,
                length: LONGEST_BUFFER,
            },
            Operation::Load {
                file: vec![21, 0, 0, 0, 65],
            },
            Operation::Save {
                form: Form::Two,
                length: 0,
            },
            Operation::Move {
                length: LONGEST_BUFFER,
                file: vec![2, 0, 0, 0, 22, 0],
            },
        ]
    }

    const HEAD: usize = 12;

    fn bad(fault: Fault) -> Script {
        Script {
            memory: 0,
            operations: Vec::new(),
            fault: Some(fault),
        }
    }

    #[test]
    fn what_is_written_is_read_back() {
        let operations = every_operation();
        assert_eq!(
            decode(&encode(4096, &operations)),
            Script {
                memory: 4096,
                operations,
                fault: None
            }
        );
    }

    #[test]
    fn the_bytes_are_the_formats() {
        let allowance = 0x0506;
        let answer = HostAnswer::Good;
        let operations = [
            Operation::Run { allowance },
            Operation::Answer { answer, allowance },
            Operation::AnswerElsewhere {
                answer,
                allowance,
                length: 0x1234,
            },
            Operation::Save {
                form: Form::One,
                length: 0x1234,
            },
            Operation::Load {
                file: b"AGP".to_vec(),
            },
            Operation::Save {
                form: Form::Two,
                length: 0x1234,
            },
            Operation::Move {
                length: 0x1234,
                file: b"AGP".to_vec(),
            },
        ];
        let bytes = encode(0x1234, &operations);
        assert_eq!(bytes[..HEAD], *b"DSK2\x34\x12\x00\x00\xE6\x0A\x00\x00");
        assert_eq!(
            bytes[HEAD..],
            *b"\x04\x06\x05\x06\x01\x06\x05\x09\x01\x06\x05\x34\x12\x00\x00\x0A\x34\x12\x00\x00\x0B\x03\x00\x00\x00AGP\
               \x0C\x34\x12\x00\x00\x0D\x34\x12\x00\x00\x03\x00\x00\x00AGP"
        );
    }

    #[test]
    fn nobody_asks_which_wishes_the_writer_knew() {
        let written = encode(4096, &every_operation());
        for wishes in [0, 1, 4, 1 << 31, u32::MAX] {
            let mut other = written.clone();
            other[8..12].copy_from_slice(&wishes.to_le_bytes());
            assert_eq!(decode(&other), decode(&written));
        }
    }

    #[test]
    fn a_script_that_is_cut_anywhere_keeps_what_stands_before() {
        let operations = every_operation();
        let whole = encode(4096, &operations);
        let mut ends = vec![HEAD];
        for operation in &operations {
            let size = encode(0, std::slice::from_ref(operation)).len() - HEAD;
            ends.push(ends[ends.len() - 1] + size);
        }
        for cut in 0..whole.len() {
            let script = decode(&whole[..cut]);
            let kept = ends.iter().filter(|&&end| end <= cut).count();
            assert_eq!(script.operations[..], operations[..kept.saturating_sub(1)]);
            let fault = if ends.contains(&cut) {
                None
            } else {
                Some(Fault::Truncated)
            };
            assert_eq!(script.fault, fault, "cut at {}", cut);
        }
    }

    #[test]
    fn a_head_is_read_whole_before_it_is_judged() {
        let head = encode(u32::MAX, &[]);
        for cut in 0..head.len() {
            assert_eq!(
                decode(&head[..cut]),
                bad(Fault::Truncated),
                "cut at {}",
                cut
            );
        }
        assert_eq!(decode(&head), bad(Fault::LongMemory(u32::MAX)));
        // A wrong magic is told from 8 bytes on.
        for magic in [*b"DSK3", *b"DESK"] {
            for cut in 0..head.len() {
                let mut other = head.clone();
                other[..4].copy_from_slice(&magic);
                other.truncate(cut);
                let fault = if cut < 8 {
                    Fault::Truncated
                } else {
                    Fault::NoMagic
                };
                assert_eq!(decode(&other), bad(fault), "cut at {}", cut);
            }
        }
    }

    #[test]
    fn a_file_that_is_no_script_is_bad() {
        assert_eq!(decode(b"DUSK\x00\x00\x00\x00"), bad(Fault::NoMagic));
        // Version 1: a head without the last word, and a state line.
        assert_eq!(decode(b"DESK\x10\x00\x00\x00\x07"), bad(Fault::NoMagic));
        assert_eq!(
            decode(b"DSK1\x00\x00\x00\x00\x00\x00\x00\x00"),
            bad(Fault::NoMagic)
        );
        assert_eq!(decode(b"DES"), bad(Fault::Truncated));
        assert_eq!(decode(b"not a script"), bad(Fault::NoMagic));
        assert_eq!(Fault::NoMagic.line(), "bad script");
        assert_eq!(Fault::Truncated.line(), "truncated");
    }

    #[test]
    fn memories_have_at_most_64_kib() {
        assert_eq!(decode(&encode(65_536, &[])).fault, None);
        assert_eq!(decode(&encode(65_537, &[])), bad(Fault::LongMemory(65_537)));
        let run = |length| Operation::RunElsewhere {
            allowance: 1,
            length,
        };
        let answer = |length| Operation::AnswerElsewhere {
            answer: HostAnswer::Good,
            allowance: 1,
            length,
        };
        for [longest, longer] in [[65_536, 65_537].map(run), [65_536, 65_537].map(answer)] {
            let script = decode(&encode(16, &[longest.clone(), longer]));
            assert_eq!(script.operations, [longest]);
            assert_eq!(script.fault, Some(Fault::LongMemory(65_537)));
        }
        assert_eq!(Fault::LongMemory(65_537).line(), "bad script");
    }

    #[test]
    fn buffers_have_at_most_64_kib() {
        let save = |form| [65_536, 65_537].map(|length| Operation::Save { form, length });
        let moves = [65_536, 65_537].map(|length| Operation::Move {
            length,
            file: vec![1, 2, 3],
        });
        for [longest, longer] in [save(Form::One), save(Form::Two), moves] {
            let bytes = encode(16, &[longest.clone(), longer]);
            let longest = [longest];
            let size = (bytes.len() - HEAD) / 2;
            let script = decode(&bytes);
            assert_eq!(script.operations, longest);
            assert_eq!(script.fault, Some(Fault::LongBuffer(65_537)));
            // The length is judged once the operation is read.
            for cut in 1..size {
                let script = decode(&bytes[..bytes.len() - cut]);
                assert_eq!(script.operations, longest);
                assert_eq!(script.fault, Some(Fault::Truncated));
            }
        }
        assert_eq!(Fault::LongBuffer(65_537).line(), "bad script");
    }

    #[test]
    fn files_have_what_the_script_has() {
        let file = vec![7; 100_000];
        let operations = [
            Operation::Load { file: file.clone() },
            Operation::Move { length: 5, file },
        ];
        assert_eq!(decode(&encode(16, &operations)).operations, operations);
        for tag in [&[LOAD][..], &[MOVE, 1, 0, 0, 0]] {
            let mut promised = encode(16, &[]);
            promised.extend([tag, &[0xFF, 0xFF, 0xFF, 0xFF, 1, 2]].concat());
            assert_eq!(decode(&promised).fault, Some(Fault::Truncated));
        }
    }

    #[test]
    fn a_script_has_at_most_1_mib() {
        let fill = |length: usize| {
            let header = encode(
                16,
                &[Operation::Poke {
                    address: 0,
                    bytes: Vec::new(),
                }],
            );
            let bytes = vec![0; length - header.len()];
            encode(16, &[Operation::Poke { address: 0, bytes }])
        };
        assert_eq!(decode(&fill(LONGEST_SCRIPT)).fault, None);
        assert_eq!(decode(&fill(LONGEST_SCRIPT + 1)), bad(Fault::LongScript));
        assert_eq!(Fault::LongScript.line(), "bad script");
    }

    #[test]
    fn an_unknown_tag_ends_the_script() {
        for tag in (0..=255).filter(|tag| !(1..=13).contains(tag)) {
            let mut bytes = encode(16, &[Operation::State]);
            bytes.extend([tag, STATE]);
            let script = decode(&bytes);
            assert_eq!(script.operations, [Operation::State]);
            assert_eq!(script.fault, Some(Fault::UnknownTag(tag)));
        }
        assert_eq!(Fault::UnknownTag(14).line(), "unknown tag 14");
    }

    #[test]
    fn any_answer_byte_but_1_says_failed() {
        for told in 0..=255 {
            let mut bytes = encode(0, &[]);
            bytes.extend([ANSWER, told, 0, 0]);
            let answer = if told == 1 {
                HostAnswer::Good
            } else {
                HostAnswer::Failed
            };
            let allowance = 0;
            let expected = Operation::Answer { answer, allowance };
            assert_eq!(decode(&bytes).operations, [expected]);
        }
    }
}
