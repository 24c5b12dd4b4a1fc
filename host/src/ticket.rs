//! Tickets: which submission an answer is for.
//!
//! A host carries out a submission while the guest goes on, and the guest may reset the device meanwhile and submit another. What was
//! done for the first must not settle the second, though both waited at the same desk.
use std::sync::atomic::{AtomicU64, Ordering};

/// Names one submission that waits, or waited, at one desk. [`Desk::waiting`](crate::Desk::waiting) gives it, and
/// [`Desk::answer`](crate::Desk::answer) asks for it.
///
/// A ticket is used up by the answer, by a reset and by a load. No other submission ever has it: not at this desk, not at another one of this
/// program, and not at a clone, which gives a ticket of its own to what waits there.
#[derive(Clone, Copy, Debug, PartialEq, Eq, Hash)]
pub struct Ticket {
    desk: u64,
    wait: u64,
}

/// The number of the next desk. They count from 1.
static NEXT_DESK: AtomicU64 = AtomicU64::new(1);

impl Ticket {
    /// A ticket that no submission has: for a caller who only wants to see what an answer is refused with.
    pub const NONE: Ticket = Ticket { desk: 0, wait: 0 };

    /// The first ticket of a new desk.
    pub(crate) fn first() -> Ticket {
        Ticket {
            desk: NEXT_DESK.fetch_add(1, Ordering::Relaxed),
            wait: 0,
        }
    }

    /// What waited is over: the next that waits has another ticket.
    #[inline]
    pub(crate) fn use_up(&mut self) {
        self.wait += 1;
    }
}

/// A submission that waits for the host's answer.
#[derive(Clone, Copy, Debug, PartialEq, Eq, Hash)]
pub struct Waiting {
    /// Which one it is, for the answer.
    pub ticket: Ticket,
    /// The fence that it signals when it settles.
    pub fence: u64,
    /// How many records it has: [`Desk::record`](crate::Desk::record) gives those of index 0 to before this.
    pub records: u32,
}
