//! A plain device front: registers, ring, table and packet checks, records
//! for the host, fences, the device saved and loaded in two forms; the bytes
//! that can sway a submission ([`listed`]); and tools: the dump of a stream
//! ([`dump`]), the difference of two ([`diff`]), the totals of a month
//! ([`month`]). Written from `01-scope.md` alone, then amended from
//! `02-change-requests.md`, `WISHES.md` and `TOOLS.md` alone, wish by wish; see
//! `NOTES.md` for the wishes in it and for the points where those pages were
//! read one way out of several.

#![forbid(unsafe_code)]
#![warn(missing_docs)]

mod answers;
mod bytes;
mod desk;
pub mod diff;
pub mod dump;
mod errors;
mod fence;
mod fields;
pub mod listed;
mod loaded;
pub mod month;
mod packets;
mod reader;
mod registers;
mod resources;
mod ring;
mod saved;
mod shapes;
mod share;
mod state;
mod stream;
mod submission;
mod table;
mod tokens;

pub use desk::{Desk, Ended, Ran};
pub use packets::Record;
pub use saved::move_form;
pub use shapes::packed_size;
pub use table::{table_error, table_place};
