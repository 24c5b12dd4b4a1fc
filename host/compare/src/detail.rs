//! What there is to see of the error detail in a desk, for the count of what was reached.

use crate::front::Front;
use crate::numbers::error::LIMIT;
use crate::numbers::{MOST_ENTRIES, STREAM_HEADER};
use zelezmut::registers::{
    CONTROL, CONTROL_RESET, ERROR_CODE, ERROR_COUNT, ERROR_DETAIL, IRQ_ACK, IRQ_ERROR,
};
use zelezmut::script::Operation;
use zelezmut::{DeviceError, Place};

#[derive(Clone, Copy, Debug, PartialEq, Eq, PartialOrd, Ord)]
pub enum Detail {
    /// An entry's index, which is 0, more, or that of a full table's last.
    FirstEntry,
    LaterEntry,
    LastEntry,
    /// A packet's offset, which is that of the first, or more.
    FirstPacket,
    LaterPacket,
    NoPlace,
    /// Error 19 is a packet's, or of a table's count.
    LimitOfAPacket,
    LimitOfATable,
    /// The detail was not 0, and a later error put another one there, or 0.
    Overwritten,
    OverwrittenByZero,
    /// The detail was not 0, and a reset or an ack of the error left it.
    KeptOverReset,
    KeptOverAck,
}

pub const DETAILS: [Detail; 12] = [
    Detail::FirstEntry,
    Detail::LaterEntry,
    Detail::LastEntry,
    Detail::FirstPacket,
    Detail::LaterPacket,
    Detail::NoPlace,
    Detail::LimitOfAPacket,
    Detail::LimitOfATable,
    Detail::Overwritten,
    Detail::OverwrittenByZero,
    Detail::KeptOverReset,
    Detail::KeptOverAck,
];

/// What the error registers show, but for the fence.
#[derive(Clone, Copy, Debug, Default, PartialEq, Eq)]
pub struct Errors {
    pub count: u32,
    pub code: u32,
    pub detail: u32,
}

impl Errors {
    pub fn of<F: Front>(front: &F) -> Errors {
        let value = |offset| front.read(offset).1;
        Errors {
            count: value(ERROR_COUNT),
            code: value(ERROR_CODE),
            detail: value(ERROR_DETAIL),
        }
    }
}

/// What an operation shows that finds one of these and leaves the other. Of several errors in one operation only the last can be
/// seen.
pub fn seen(operation: &Operation, before: Errors, after: Errors) -> Vec<Detail> {
    if before.count != after.count {
        return placed(after)
            .into_iter()
            .chain(limited(after))
            .chain(overwritten(before, after))
            .collect();
    }
    kept_over(operation)
        .filter(|_| before.detail != 0 && before == after)
        .into_iter()
        .collect()
}

fn place(errors: Errors) -> Option<Place> {
    let error = DeviceError::from_number(errors.code)?;
    Some(Place::of(error, errors.detail))
}

fn placed(errors: Errors) -> Option<Detail> {
    const LAST: u32 = MOST_ENTRIES as u32 - 1;
    match place(errors)? {
        Place::Nowhere if errors.detail == 0 => Some(Detail::NoPlace),
        Place::Entry(0) => Some(Detail::FirstEntry),
        Place::Entry(LAST) => Some(Detail::LastEntry),
        Place::Entry(_) => Some(Detail::LaterEntry),
        Place::Packet(STREAM_HEADER) => Some(Detail::FirstPacket),
        Place::Packet(offset) if offset > STREAM_HEADER => Some(Detail::LaterPacket),
        _ => None,
    }
}

fn limited(errors: Errors) -> Option<Detail> {
    match place(errors)? {
        _ if errors.code != LIMIT => None,
        Place::Packet(_) => Some(Detail::LimitOfAPacket),
        _ => Some(Detail::LimitOfATable),
    }
}

fn overwritten(before: Errors, after: Errors) -> Option<Detail> {
    match (before.detail, after.detail) {
        (0, _) => None,
        (_, 0) => Some(Detail::OverwrittenByZero),
        (one, other) => Some(Detail::Overwritten).filter(|_| one != other),
    }
}

fn kept_over(operation: &Operation) -> Option<Detail> {
    match *operation {
        Operation::Write {
            offset: CONTROL,
            value,
        } if value & CONTROL_RESET != 0 => Some(Detail::KeptOverReset),
        Operation::Write {
            offset: IRQ_ACK,
            value,
        } if value & IRQ_ERROR != 0 => Some(Detail::KeptOverAck),
        _ => None,
    }
}
