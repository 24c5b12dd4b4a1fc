//! The desk: the proved front with its state, as a Rust value with safe methods.
mod saving;

use crate::answers::{DeviceError, Ended, HostAnswer, Refused, Written};
use crate::place::{write_error_at, Place};
use crate::record::Record;
use crate::state::{Records, State};
use crate::ticket::{Ticket, Waiting};
use crate::{front, registers};
use std::error::Error;
use std::fmt;

/// An adapter's front for one guest memory.
///
/// It owns its state, some 25 KB in a box: it moves cheaply, and no call of the front allocates. A clone goes its own way from there, and
/// has its own tickets: what was begun for the original is not answered at the clone.
///
/// Two desks are equal if every call that comes does the same at both: registers, doorbell flag, the memory's length, resources by their
/// names, tokens, and the submission in work with all that was kept of it. How they came there says nothing, nor in how many slices; and tickets are
/// left out, so a clone is equal.
pub struct Desk {
    state: Box<State>,
    /// Of the submission that waits, else of the next that will.
    ticket: Ticket,
}

impl Clone for Desk {
    fn clone(&self) -> Desk {
        Desk {
            state: self.state.clone(),
            ticket: Ticket::first(),
        }
    }
}

impl PartialEq for Desk {
    fn eq(&self, other: &Desk) -> bool {
        self.state == other.state
    }
}

impl Eq for Desk {}

/// What a run did, by itself or behind an answer.
#[derive(Clone, Copy, Debug, PartialEq, Eq, Hash)]
pub struct Ran {
    /// The units it spent: openings, table entries and packets. Never more than the allowance; settling costs none.
    pub units: u16,
    /// How it ended.
    pub ended: Ended,
}

impl Ran {
    #[inline]
    fn from_front((answer, ended, units): front::Ran) -> Result<Ran, Refused> {
        Refused::from_answer(answer)?;
        Ok(Ran {
            units,
            ended: Ended::from_number(ended),
        })
    }
}

/// What the error registers say.
///
/// Displayed it is a line for a log: `error 18 at byte 40 of the stream, fence 3: ..`, with the error's own words behind.
#[derive(Clone, Copy, Debug, PartialEq, Eq, Hash)]
pub struct ErrorReport {
    /// The last error.
    pub error: DeviceError,
    /// Where it arose: at which table entry or packet.
    pub place: Place,
    /// The signal fence of the submission that it ended, 0 for a bad ring.
    pub fence: u64,
    /// How many errors there were.
    pub count: u32,
}

impl fmt::Display for ErrorReport {
    fn fmt(&self, f: &mut fmt::Formatter<'_>) -> fmt::Result {
        write_error_at(f, self.error, self.place)?;
        if self.error != DeviceError::BadRing {
            write!(f, ", fence {}", self.fence)?;
        }
        write!(f, ": {}", self.error)
    }
}

/// The first error of an allocation table, as [`table_error`] finds it.
///
/// Displayed it is a line for a log: `error 15 at table entry 1: ..`, with the error's own words behind.
#[derive(Clone, Copy, Debug, PartialEq, Eq, Hash)]
pub struct TableError {
    /// The rule that is broken.
    pub error: DeviceError,
    /// The index of the entry that breaks it, from 0; `None` if it is the header that does.
    pub entry: Option<u32>,
}

impl fmt::Display for TableError {
    fn fmt(&self, f: &mut fmt::Formatter<'_>) -> fmt::Result {
        let place = self.entry.map_or(Place::Nowhere, Place::Entry);
        write_error_at(f, self.error, place)?;
        write!(f, ": {}", self.error)
    }
}

impl Error for TableError {}

impl Desk {
    /// A new desk for a guest memory of so many bytes, disabled, with all registers as after power-on.
    ///
    /// # Panics
    /// If a `libzelezmut.a` of another version than this crate's is linked: the first call asks for the number of its layout. A
    /// library from before there was one cannot be linked at all, and the linker misses `zelezmut_layout`.
    pub fn new(memory: usize) -> Desk {
        Desk {
            state: front::make(memory as u64),
            ticket: Ticket::first(),
        }
    }

    /// The bytes of the guest memory that the desk was made for, or that a loaded file said.
    #[inline]
    pub fn memory_len(&self) -> usize {
        self.state.memory() as usize
    }

    /// The guest writes a register. What comes back says whether a host has more to do than to go on.
    ///
    /// A reset ([`CONTROL_RESET`](registers::CONTROL_RESET)) drops the submission that waits: its ticket is used up.
    ///
    /// # Errors
    /// [`Refused::NoRegister`] if no register that can be written has this offset.
    #[inline]
    pub fn write(&mut self, offset: u32, value: u32) -> Result<Written, Refused> {
        let waited = self.state.waits();
        Refused::from_answer(front::write(&mut self.state, offset, value))?;
        if waited && !self.state.waits() {
            self.ticket.use_up();
        }
        Ok(match offset {
            registers::DOORBELL => Written::Rang,
            registers::CONTROL if value & registers::CONTROL_RESET != 0 => Written::Reset,
            _ => Written::Stored,
        })
    }

    /// The guest reads a register.
    ///
    /// # Errors
    /// [`Refused::NoRegister`] if no register that can be read has this offset.
    #[inline]
    pub fn read(&self, offset: u32) -> Result<u32, Refused> {
        let (answer, value) = front::read(&self.state, offset);
        Refused::from_answer(answer)?;
        Ok(value)
    }

    /// Works until the allowance of units is spent, nothing is left to do, or a submission waits for the host.
    ///
    /// A submission that breaks a rule ends within the run: the error registers tell, its fence is finished, and the run goes
    /// on.
    ///
    /// # The memory
    /// It is lent exclusively, for the length of the call: nobody else reads or writes it meanwhile, and a virtual processor of the
    /// guest that runs is somebody else. So an emulator calls while its virtual processors stand still, or on a thread that holds them
    /// off that memory. Nothing is kept of the slice: before and after the call the guest does what it likes there. It is one slice,
    /// guest address 0 first. Where guest memory is in several regions, with holes between, one range of the host's addresses is
    /// reserved for all of it and the regions are mapped into that.
    ///
    /// # Errors
    /// [`Refused::OtherMemory`] if the memory has another length than the desk was made for.
    #[inline]
    pub fn run(&mut self, memory: &mut [u8], allowance: u16) -> Result<Ran, Refused> {
        Ran::from_front(front::run(&mut self.state, memory, allowance))
    }

    /// The waiting submission's record of this index; they count from 0, in the order of the packets.
    ///
    /// # Errors
    /// [`Refused::NoRecord`] if there is none of this index, or no submission waits.
    #[inline]
    pub fn record(&self, i: u32) -> Result<Record, Refused> {
        let (answer, said) = front::record(&self.state, i);
        Refused::from_answer(answer)?;
        Ok(Record::from_front(said))
    }

    /// All records of the waiting submission, in the order of its packets; none if no submission waits.
    #[inline]
    pub fn records(&self) -> impl Iterator<Item = Record> + '_ {
        (0..).map_while(move |i| self.record(i).ok())
    }

    /// The submission that waits for the host's answer, if one does.
    #[inline]
    pub fn waiting(&self) -> Option<Waiting> {
        if !self.state.waits() {
            return None;
        }
        let (fence, records) = self.state.waiting();
        Some(Waiting {
            ticket: self.ticket,
            fence,
            records,
        })
    }

    /// Whether a submission is in work, from its opening to its settling. A desk is saved only while none is.
    #[inline]
    pub fn is_in_work(&self) -> bool {
        self.state.is_in_work()
    }

    /// The number of records of the submission that waits, and the table whose first rows they are.
    pub(crate) fn waiting_records(&self) -> Option<(u32, &Records)> {
        if !self.state.waits() {
            return None;
        }
        let (_, count) = self.state.waiting();
        Some((count, &self.state.records))
    }

    /// The host answers the waiting submission and carries on, in one call.
    ///
    /// The ticket, which [`waiting`](Desk::waiting) gave, says which submission the host has carried out. If the guest has reset the
    /// device since, and another submission waits by now, the answer is not for that one and is refused.
    ///
    /// The answer settles the submission: ring head, fence page and fence registers follow. Then the desk works on as
    /// [`run`](Desk::run) does, over the same memory and with this allowance, and what it did comes back. With an allowance of 0
    /// the call only settles. The answer is for the submission that waits when the call begins; the next one to wait ends the
    /// run, and asks for an answer of its own.
    ///
    /// The memory is lent as to [`run`](Desk::run): exclusively, for the length of the call, all of it as one slice. What the host did
    /// for the records it did before, while the memory was its own.
    ///
    /// # Errors
    /// [`Refused::OtherMemory`] if the memory has another length than the desk was made for, else [`Refused::NothingWaits`] if no
    /// submission waits, else [`Refused::StaleTicket`] if the one that waits has another ticket. Then nothing is run either.
    ///
    /// ```
    /// use zelezmut::{Desk, Ended, HostAnswer, Record, Refused, Ticket};
    ///
    /// const SLICE: u16 = 1000;
    ///
    /// /// Works off all that the ring has, a slice at a time.
    /// fn serve(desk: &mut Desk, memory: &mut [u8], mut carry_out: impl FnMut(Record)) -> Result<(), Refused> {
    ///     let mut ran = desk.run(memory, SLICE)?;
    ///     loop {
    ///         ran = match ran.ended {
    ///             Ended::Idle => return Ok(()),
    ///             Ended::Paused => desk.run(memory, SLICE)?,
    ///             Ended::Waiting => {
    ///                 let ticket = desk.waiting().map_or(Ticket::NONE, |waiting| waiting.ticket);
    ///                 desk.records().for_each(&mut carry_out);
    ///                 desk.answer(memory, ticket, HostAnswer::Good, SLICE)?
    ///             }
    ///         };
    ///     }
    /// }
    ///
    /// serve(&mut Desk::new(4096), &mut [0; 4096], |record| println!("{:?}", record))?;
    /// # Ok::<(), Refused>(())
    /// ```
    // It lends so much that the compiler, left alone, makes it a call of its own: 41 instructions more.
    #[inline(always)]
    pub fn answer(
        &mut self,
        memory: &mut [u8],
        ticket: Ticket,
        answer: HostAnswer,
        allowance: u16,
    ) -> Result<Ran, Refused> {
        if self.state.waits() && ticket != self.ticket {
            return Err(self.refused_for_ticket(memory));
        }
        let good = answer == HostAnswer::Good;
        let ran = Ran::from_front(front::answer(&mut self.state, memory, good, allowance))?;
        self.ticket.use_up();
        Ok(ran)
    }

    /// Where the submission that waits has another ticket; the memory's length is told first, as the front does.
    #[cold]
    fn refused_for_ticket(&self, memory: &[u8]) -> Refused {
        if memory.len() == self.memory_len() {
            Refused::StaleTicket
        } else {
            Refused::OtherMemory
        }
    }

    /// The names of the device's resources, each beside the lowest name of its resource, in rising order: names with the same lowest name
    /// are one resource. A submission in work has changed nothing here; a good answer makes its names the device's.
    ///
    /// A host needs no such list to carry submissions out. It is for one that shows what is there, or that compares it with its own.
    ///
    /// ```
    /// # use zelezmut::Desk;
    /// assert!(Desk::new(4096).names().is_empty());
    /// ```
    pub fn names(&self) -> Vec<(u32, u32)> {
        self.state.names()
    }

    /// The tokens that were used since the last reset, those of a loaded file among them, in rising order, each beside the lowest name of the
    /// resource that it is bound to; `None` if it is spent: released, or its resource is gone. A submission in work has changed nothing
    /// here.
    pub fn tokens(&self) -> Vec<(u64, Option<u32>)> {
        self.state.tokens()
    }

    /// The completed fence, both halves.
    pub fn completed_fence(&self) -> u64 {
        self.long(registers::COMPLETED_FENCE_LO, registers::COMPLETED_FENCE_HI)
    }

    /// Whether the interrupt line is up: a status bit stands that the guest has enabled.
    pub fn interrupts(&self) -> bool {
        self.known(registers::IRQ_STATUS) & self.known(registers::IRQ_ENABLE) != 0
    }

    /// The last error since the desk was made; a reset keeps it, and a loaded file has its own, of form 1 without the place.
    pub fn last_error(&self) -> Option<ErrorReport> {
        let error = DeviceError::from_front(self.known(registers::ERROR_CODE))?;
        Some(ErrorReport {
            error,
            place: Place::of(error, self.known(registers::ERROR_DETAIL)),
            fence: self.long(registers::ERROR_FENCE_LO, registers::ERROR_FENCE_HI),
            count: self.known(registers::ERROR_COUNT),
        })
    }

    /// A register that can be read.
    fn known(&self, offset: u32) -> u32 {
        self.read(offset)
            .unwrap_or_else(|refused| unreachable!("register {:x}: {}", offset, refused))
    }

    fn long(&self, low: u32, high: u32) -> u64 {
        u64::from(self.known(high)) << 32 | u64::from(self.known(low))
    }
}

/// Shows the registers by name, what waits, and the memory's length: the rest of the state has no meaning outside the library.
impl fmt::Debug for Desk {
    fn fmt(&self, f: &mut fmt::Formatter<'_>) -> fmt::Result {
        let mut shown = f.debug_struct("Desk");
        for offset in registers::READABLE {
            let name = registers::name(offset).unwrap_or("a register");
            shown.field(name, &format_args!("{:#x}", self.known(offset)));
        }
        shown.field("waiting", &self.waiting());
        shown.field("memory_len", &self.memory_len());
        shown.finish()
    }
}

/// The bytes that a texture takes in guest memory, its mips and layers packed; `None` if no texture has this shape.
///
/// The shape is judged as a backed texture's, so `pitch` must be enough for a row of mip 0.
///
/// ```
/// // 5 by 3 pixels of 4 bytes, in three mips: 60 + 8 + 4 bytes.
/// assert_eq!(zelezmut::packed_size(1, 5, 3, 3, 1, 20), Some(72));
/// assert_eq!(zelezmut::packed_size(1, 5, 3, 3, 1, 19), None);
/// ```
///
/// # Panics
/// As [`Desk::new`] does.
#[inline]
pub fn packed_size(
    format: u32,
    width: u32,
    height: u32,
    mips: u32,
    layers: u32,
    pitch: u32,
) -> Option<u64> {
    match front::packed_size(format, width, height, mips, layers, pitch) {
        0 => None,
        size => Some(size),
    }
}

/// The first error of an allocation table, for a guest memory of so many bytes; `None` if it breaks no rule.
///
/// The table is judged as a submission's steps judge it: [`DeviceError::BadTable`] and [`DeviceError::TooMany`] of its header,
/// [`DeviceError::BadEntry`] and [`DeviceError::TwiceInTable`] of its entries in order, each with the entry's index. A good table
/// is gone through once, one with an error twice.
///
/// ```
/// use zelezmut::{guest, DeviceError, TableError};
///
/// let entry = |id, gpa| guest::Entry { id, gpa, size: 4096, read_only: false };
/// let table = guest::table(&[entry(5, 0), entry(6, 1)]);
/// assert_eq!(zelezmut::table_error(&table, 4097), None);
/// assert_eq!(
///     zelezmut::table_error(&table, 4096),
///     Some(TableError { error: DeviceError::BadEntry, entry: Some(1) })
/// );
/// ```
///
/// # Panics
/// As [`Desk::new`] does.
#[inline]
pub fn table_error(table: &[u8], memory: u64) -> Option<TableError> {
    let error = DeviceError::from_front(front::table_error(table, memory))?;
    let entry = match Place::of(error, front::table_place(table, memory)) {
        Place::Entry(index) => Some(index),
        Place::Nowhere | Place::Packet(_) => None,
    };
    Some(TableError { error, entry })
}
