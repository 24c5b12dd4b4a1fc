//! The error codes a submission, or the ring, can end with, and the places
//! that go with them.

/// What went wrong; [`Error::code`] gives the number of the error register.
#[derive(Clone, Copy, Debug, PartialEq, Eq)]
pub(crate) enum Error {
    /// Bad ring.
    Ring = 10,
    /// Bad descriptor.
    Descriptor = 11,
    /// Command or table range not within memory.
    Range = 12,
    /// Bad table header.
    Table = 13,
    /// Bad table entry.
    Entry = 14,
    /// Entry id used by an earlier entry.
    Duplicate = 15,
    /// Bad stream header.
    Stream = 16,
    /// Bad packet header.
    Packet = 17,
    /// Handle is zero, live, or not live, where it may not be.
    Handle = 18,
    /// No room: entries, names, records or tokens.
    Full = 19,
    /// Bad shape.
    Shape = 20,
    /// Backing id not in the table.
    Backing = 21,
    /// Range beyond the table entry.
    BeyondEntry = 22,
    /// Table entry is read-only.
    ReadOnly = 23,
    /// Range beyond the resource.
    BeyondResource = 24,
    /// Resource is host-backed.
    HostBacked = 25,
    /// Copy onto the same handle, or unknown copy flags.
    Copy = 26,
    /// The host answered "failed".
    Host = 27,
    /// Token is zero, or was used for another resource, or is spent.
    TokenTaken = 28,
    /// Token is not bound to a live resource.
    TokenUnbound = 29,
    /// Bad viewport, clear or scissor, or a scissor without a target.
    State = 30,
}

impl Error {
    /// The number of the error register.
    pub(crate) fn code(self) -> u32 {
        self as u32
    }

    /// Whether it is the number of an error.
    pub(crate) fn is_code(code: u32) -> bool {
        (Error::Ring.code()..=Error::State.code()).contains(&code)
    }

    /// This error, raised by the step of the entry or packet at `place`.
    pub(crate) fn at(self, place: u32) -> Fault {
        Fault { error: self, place }
    }

    /// This error, raised by no entry's or packet's step.
    pub(crate) fn nowhere(self) -> Fault {
        self.at(0)
    }
}

/// An error and where it arose: what the error registers tell of it.
#[derive(Clone, Copy, Debug, PartialEq, Eq)]
pub(crate) struct Fault {
    pub(crate) error: Error,
    /// The index of the entry, or the offset in the stream of the packet,
    /// whose step raised the error; 0 if no such step did.
    pub(crate) place: u32,
}
