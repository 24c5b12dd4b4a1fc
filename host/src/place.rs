//! Where an error arose, told from the error and the detail that the front gives beside it.
use crate::answers::DeviceError;
use std::fmt;

/// Where a submission broke: what the register [`ERROR_DETAIL`](crate::registers::ERROR_DETAIL) means beside its error.
///
/// ```
/// use zelezmut::{DeviceError, Place};
///
/// assert_eq!(Place::of(DeviceError::TwiceInTable, 1), Place::Entry(1));
/// assert_eq!(Place::of(DeviceError::BadHandle, 40), Place::Packet(40));
/// assert_eq!(Place::of(DeviceError::HostFailed, 0), Place::Nowhere);
/// assert_eq!(Place::Packet(40).to_string(), "at byte 40 of the stream");
/// ```
#[derive(Clone, Copy, Debug, PartialEq, Eq, Hash)]
pub enum Place {
    /// At no entry and no packet: it was the ring, the descriptor, a header, the table's count of entries, or the host. Or it is not
    /// known: a loaded file may have a packet's error, and form 1 has no field for its place.
    Nowhere,
    /// At the table entry of this index; they count from 0.
    Entry(u32),
    /// At the packet that starts so many bytes into the stream, or at the first of the bytes left over there. The first packet
    /// stands at 24, behind the stream's header.
    Packet(u32),
}

impl Place {
    /// The place that an error and its detail tell of. The detail alone does not say: 0 is the first entry's too.
    ///
    /// No packet stands at 0. [`DeviceError::TooMany`] has two sources, a packet and the table's count of entries, and the second has no
    /// place; beside the other errors of packets a desk has detail 0 only if a file said so.
    pub fn of(error: DeviceError, detail: u32) -> Place {
        match error {
            DeviceError::BadRing
            | DeviceError::BadDescriptor
            | DeviceError::OutsideMemory
            | DeviceError::BadTable
            | DeviceError::BadStream
            | DeviceError::HostFailed => Place::Nowhere,
            DeviceError::BadEntry | DeviceError::TwiceInTable => Place::Entry(detail),
            _ if detail == 0 => Place::Nowhere,
            DeviceError::BadPacket
            | DeviceError::BadHandle
            | DeviceError::TooMany
            | DeviceError::BadShape
            | DeviceError::NotInTable
            | DeviceError::PastEntry
            | DeviceError::ReadOnly
            | DeviceError::PastResource
            | DeviceError::HostBacked
            | DeviceError::BadCopy
            | DeviceError::BadToken
            | DeviceError::UnboundToken
            | DeviceError::BadState => Place::Packet(detail),
        }
    }
}

impl fmt::Display for Place {
    fn fmt(&self, f: &mut fmt::Formatter<'_>) -> fmt::Result {
        match self {
            Place::Nowhere => f.write_str("at no entry and no packet"),
            Place::Entry(index) => write!(f, "at table entry {}", index),
            Place::Packet(offset) => write!(f, "at byte {} of the stream", offset),
        }
    }
}

/// What a line for a log begins with: the error's number, and its place if it has one.
pub(crate) fn write_error_at(
    f: &mut fmt::Formatter<'_>,
    error: DeviceError,
    place: Place,
) -> fmt::Result {
    write!(f, "error {}", error.number())?;
    match place {
        Place::Nowhere => Ok(()),
        Place::Entry(_) | Place::Packet(_) => write!(f, " {}", place),
    }
}

#[cfg(test)]
mod tests {
    use super::*;

    #[test]
    fn every_error_has_its_kind_of_place() {
        for error in DeviceError::ALL {
            for detail in [0, 1, 24, 40, u32::MAX] {
                let expected = match (error.number(), detail) {
                    (14 | 15, _) => Place::Entry(detail),
                    (10 | 11 | 12 | 13 | 16 | 27, _) | (_, 0) => Place::Nowhere,
                    _ => Place::Packet(detail),
                };
                assert_eq!(Place::of(error, detail), expected, "{:?}", error);
            }
        }
    }

    #[test]
    fn places_are_told_in_words() {
        assert_eq!(Place::Nowhere.to_string(), "at no entry and no packet");
        assert_eq!(Place::Entry(0).to_string(), "at table entry 0");
        assert_eq!(Place::Packet(24).to_string(), "at byte 24 of the stream");
    }
}
