//! Plays a desk through two fronts at once. After every operation all that can be seen of them must be equal: what the call said,
//! every readable register, every record, every name, every token, the desk as a saved file, and every byte of memory.

use crate::front::{Front, Ran, Record};
use std::fmt;
use zelezmut::registers::READABLE;
use zelezmut::script::Operation;
use zelezmut::{Form, HostAnswer};

/// What every byte of a buffer is before a desk is saved into it, as in a desk script.
const UNWRITTEN: u8 = 0xaa;

/// What an operation said, call answers included.
#[derive(Clone, Debug, PartialEq, Eq)]
pub enum Said {
    Nothing,
    Wrote(u32),
    Read(u32, u32),
    Ran(Ran),
    Recorded(u32, Record),
    Answered(Ran),
    /// Beside what was said, what became of the other memory.
    RanElsewhere(Ran, Vec<u8>),
    AnsweredElsewhere(Ran, Vec<u8>),
    /// In which form, the answer, the length, and what became of the whole buffer.
    Saved(Form, u32, usize, Vec<u8>),
    /// Likewise, of a file that was moved.
    Moved(u32, usize, Vec<u8>),
    /// The place.
    Loaded(u32, usize),
}

/// Where two fronts part.
#[derive(Clone, Debug)]
pub struct Difference {
    /// The operation after which they do.
    pub at: usize,
    /// Of the first front, of the second, and what they are of.
    pub left: String,
    pub right: String,
    pub of: String,
}

impl Difference {
    pub fn between(of: String, left: impl fmt::Debug, right: impl fmt::Debug) -> Difference {
        Difference {
            at: 0,
            left: format!("{:?}", left),
            right: format!("{:?}", right),
            of,
        }
    }

    /// The same after this operation.
    pub fn at(self, at: usize) -> Difference {
        Difference { at, ..self }
    }
}

/// A front with the memory that it is lent.
pub struct Seat<F> {
    pub front: F,
    pub memory: Vec<u8>,
}

impl<F: Front> Seat<F> {
    pub fn new(memory: u32) -> Seat<F> {
        let memory = vec![0; memory as usize];
        Seat {
            front: F::made_for(memory.len()),
            memory,
        }
    }

    pub fn play(&mut self, operation: &Operation) -> Said {
        match operation {
            Operation::Poke { address, bytes } => self.poke(*address, bytes),
            Operation::Write { offset, value } => Said::Wrote(self.front.write(*offset, *value)),
            Operation::Read { offset } => {
                let (answer, value) = self.front.read(*offset);
                Said::Read(answer, value)
            }
            Operation::Run { allowance } => Said::Ran(self.front.run(&mut self.memory, *allowance)),
            Operation::Record { index } => {
                let (answer, record) = self.front.record(*index);
                Said::Recorded(answer, record)
            }
            Operation::Answer { answer, allowance } => {
                let good = *answer == HostAnswer::Good;
                Said::Answered(self.front.answer(&mut self.memory, good, *allowance))
            }
            Operation::State => Said::Nothing,
            Operation::RunElsewhere { allowance, length } => {
                let mut other = vec![0; *length as usize];
                let ran = self.front.run(&mut other, *allowance);
                Said::RanElsewhere(ran, other)
            }
            Operation::AnswerElsewhere {
                answer,
                allowance,
                length,
            } => {
                let mut other = vec![0; *length as usize];
                let good = *answer == HostAnswer::Good;
                let ran = self.front.answer(&mut other, good, *allowance);
                Said::AnsweredElsewhere(ran, other)
            }
            Operation::Save { form, length } => self.save(*form, *length),
            Operation::Load { file } => self.load(file),
            Operation::Move { length, file } => moved::<F>(file, *length as usize),
        }
    }

    fn poke(&mut self, address: u32, bytes: &[u8]) -> Said {
        let from = (address as usize).min(self.memory.len());
        let to = from.saturating_add(bytes.len()).min(self.memory.len());
        self.memory[from..to].copy_from_slice(&bytes[..to - from]);
        Said::Nothing
    }

    fn save(&self, form: Form, length: u32) -> Said {
        let (answer, length, buffer) = saved(&self.front, form, length as usize);
        Said::Saved(form, answer, length, buffer)
    }

    fn load(&mut self, file: &[u8]) -> Said {
        let (answer, place) = self.front.load(file);
        Said::Loaded(answer, place)
    }
}

/// Saves into a buffer of so many bytes: what the call says, and the buffer.
pub fn saved<F: Front>(front: &F, form: Form, length: usize) -> (u32, usize, Vec<u8>) {
    let mut buffer = vec![UNWRITTEN; length];
    let (answer, length) = front.save(form, &mut buffer);
    (answer, length, buffer)
}

/// Moves a file into a buffer of so many bytes.
fn moved<F: Front>(file: &[u8], length: usize) -> Said {
    let mut buffer = vec![UNWRITTEN; length];
    let (answer, length) = F::move_form(file, &mut buffer);
    Said::Moved(answer, length, buffer)
}

/// Plays one operation on both and compares all that can be seen.
pub fn step<L: Front, R: Front>(
    left: &mut Seat<L>,
    right: &mut Seat<R>,
    operation: &Operation,
) -> Result<Said, Difference> {
    let (said, other) = (left.play(operation), right.play(operation));
    if said != other {
        return Err(Difference::between(
            "what the call said".to_string(),
            said,
            other,
        ));
    }
    match said {
        // The fronts were not asked.
        Said::Nothing | Said::Moved(..) => equal_memory(&left.memory, &right.memory)?,
        Said::Saved(..) | Said::Loaded(..) | Said::Answered(_) => equal(left, right)?,
        // Form 2 has all that there is of a desk at rest.
        _ => equal_in(&[Form::Two], left, right)?,
    }
    Ok(said)
}

/// Registers, records, names, tokens, the desk as a saved file of each form, and memory.
pub fn equal<L: Front, R: Front>(left: &Seat<L>, right: &Seat<R>) -> Result<(), Difference> {
    equal_in(&Form::ALL, left, right)
}

/// The same, saved in these forms alone.
fn equal_in<L: Front, R: Front>(
    forms: &[Form],
    left: &Seat<L>,
    right: &Seat<R>,
) -> Result<(), Difference> {
    equal_fronts(forms, &left.front, &right.front)?;
    equal_memory(&left.memory, &right.memory)
}

/// The same but for memory.
pub(crate) fn equal_fronts<L: Front, R: Front>(
    forms: &[Form],
    one: &L,
    other: &R,
) -> Result<(), Difference> {
    for offset in READABLE {
        let of = || format!("register {:03x}", offset);
        same(of, one.read(offset), other.read(offset))?;
    }
    for i in 0.. {
        let record = one.record(i);
        same(|| format!("record {}", i), record, other.record(i))?;
        if record.0 != 0 {
            break;
        }
    }
    let (names, tokens) = (one.names(), one.tokens());
    let longer = FEWEST + MOST_OF_A_NAME * names.len() + OF_A_TOKEN * tokens.len() + 1;
    same(|| "the names".to_string(), names, other.names())?;
    same(|| "the tokens".to_string(), tokens, other.tokens())?;
    for &form in forms {
        let of = || format!("the desk saved in {}", form);
        let files = (saved(one, form, longer), saved(other, form, longer));
        same(of, files.0, files.1)?;
    }
    Ok(())
}

/// The bytes of a file of form 2 without names and tokens, of a name at most, and of a token: a file has no more in either form.
const FEWEST: usize = 108;
const MOST_OF_A_NAME: usize = 48;
const OF_A_TOKEN: usize = 12;

pub(crate) fn same<T: PartialEq + fmt::Debug>(
    of: impl FnOnce() -> String,
    left: T,
    right: T,
) -> Result<(), Difference> {
    if left == right {
        Ok(())
    } else {
        Err(Difference::between(of(), left, right))
    }
}

fn equal_memory(left: &[u8], right: &[u8]) -> Result<(), Difference> {
    if left == right {
        return Ok(());
    }
    let pairs = left.iter().zip(right);
    let at = pairs.take_while(|(one, other)| one == other).count();
    same(|| format!("byte {}", at), left[at], right[at])
}

/// Plays operations on both, telling the watcher of each that came out equal.
pub fn play<L: Front, R: Front>(
    memory: u32,
    operations: &[Operation],
    mut watch: impl FnMut(&Operation, &Said, &Seat<L>),
) -> Result<(), Difference> {
    let (mut left, mut right) = (Seat::<L>::new(memory), Seat::<R>::new(memory));
    for (at, operation) in operations.iter().enumerate() {
        match step(&mut left, &mut right, operation) {
            Ok(said) => watch(operation, &said, &left),
            Err(difference) => return Err(difference.at(at)),
        }
    }
    Ok(())
}
