//! For tests that answer whatever waits.
use zelezmut::{Desk, Ticket};

/// The ticket of the submission that waits; where none does, one that is nobody's.
pub fn ticket(desk: &Desk) -> Ticket {
    desk.waiting()
        .map_or(Ticket::NONE, |waiting| waiting.ticket)
}
