//! The front of an emulated graphics adapter, for emulators in Rust.
//!
//! A [`Desk`] keeps the adapter's registers, takes submissions from a ring in guest memory, checks their tables and packets
//! one unit at a time, hands the ranges they name, and their clipped scissors, to the host as [`Record`]s, and finishes fences. What a
//! resource holds, shaders and scanout are the host's own business.
//!
//! The rules are not in this crate. They are in `libzelezmut.a`, written in Rattle and proved to meet the rule book, which
//! states document 01 as definitions; this crate lends it state and memory, and gives its numbers names. Its one module with
//! `unsafe` is the C boundary.
//!
//! # A submission, from ring to fence
//!
//! ```
//! use zelezmut::guest::{self, Backing, Descriptor, Entry, Packet, Part};
//! use zelezmut::{registers, Desk, Ended, HostAnswer, Range, Record};
//!
//! // What the guest's driver has written: a table of one entry, a stream of two packets, and a ring that names them.
//! let mut memory = vec![0; 16_384];
//! let table = guest::table(&[Entry { id: 5, gpa: 8192, size: 4096, read_only: false }]);
//! let stream = guest::stream(&[
//!     Packet::CreateBuffer { handle: 1, size: 256, backing: Some(Backing { id: 5, offset: 64 }) },
//!     Packet::DirtyRange { handle: 1, offset: 16, size: 32 },
//! ]);
//! let submission = Descriptor {
//!     commands: Part::of(2048, &stream),
//!     table: Part::of(1024, &table),
//!     fence: 1,
//!     silent: false,
//! };
//! guest::put(&mut memory, 0, &guest::ring(8, 0, 1));
//! guest::put(&mut memory, guest::slot_offset(0), &submission.to_bytes());
//! guest::put(&mut memory, 1024, &table);
//! guest::put(&mut memory, 2048, &stream);
//!
//! // Its register writes arrive at the desk.
//! let mut desk = Desk::new(memory.len());
//! desk.write(registers::RING_GPA_LO, 0)?;
//! desk.write(registers::RING_SIZE, guest::ring_size(8))?;
//! desk.write(registers::CONTROL, registers::CONTROL_ENABLE)?;
//! desk.write(registers::DOORBELL, 1)?;
//!
//! // The opening, one entry and two packets: four units, then the host's turn.
//! let ran = desk.run(&mut memory, 100)?;
//! assert_eq!((ran.units, ran.ended), (4, Ended::Waiting));
//! let waiting = desk.waiting().expect("a run that ended so leaves a submission that waits");
//! assert_eq!((waiting.fence, waiting.records), (1, 2));
//! let records: Vec<Record> = desk.records().collect();
//! assert_eq!(
//!     records,
//!     [
//!         Record::Backs(Range { handle: 1, id: 5, gpa: 8256, length: 256 }),
//!         Record::Reads(Range { handle: 1, id: 5, gpa: 8272, length: 32 }),
//!     ]
//! );
//!
//! // The host has done what the records ask, says so and carries on: the fence is finished, and a unit finds no more work.
//! let ran = desk.answer(&mut memory, waiting.ticket, HostAnswer::Good, 100)?;
//! assert_eq!(desk.completed_fence(), 1);
//! assert_eq!((ran.units, ran.ended), (1, Ended::Idle));
//! # Ok::<(), zelezmut::Refused>(())
//! ```
//!
//! # How a host carries a submission out
//!
//! When a run ends [waiting](Ended::Waiting), all of the submission was checked. Each range of guest memory that the host is to read or
//! write is a [`Record`], and so is what each scissor leaves of its target; what a record does not say (the source of a copy, where
//! within a resource a range is, resources that live with the host, names and tokens, viewports and clears) stands in the submission's
//! stream. So a host
//!
//! 1. takes the ticket from [`Desk::waiting`] and the records from [`Desk::records`];
//! 2. finds the stream by [`guest::at_head`], and reads its packets by [`guest::decode`], once, from a copy;
//! 3. does what each packet says, with the next record where the packet names guest memory or is a scissor: the records come in the
//!    packets' order;
//! 4. answers with the ticket: [`Good`](HostAnswer::Good), or [`Failed`](HostAnswer::Failed) if something did not fit.
//!
//! **Guest memory may have changed since it was checked**: the guest runs between the slices of a run, and while the host works. What
//! the front gives (records, registers) is not touched by that; what a host reads from guest memory by itself is. It judges every handle,
//! offset and size of a packet by what it keeps of its own, and takes addresses from records alone. `examples/emulator.rs` is a small
//! emulator that does all this: `cargo run --example emulator`.
//!
//! # Surfaces that programs share
//!
//! A program [exports](guest::Packet::Export) a texture of one mip and one layer by a token, a number of 64 bits that the programs agree
//! on; another one [imports](guest::Packet::Import) it, and has a name of its own for the same resource. What the host sees of that:
//!
//! - A record made under a second name carries that name, not the first one. All names of a resource have its one backing.
//! - Exports, imports and releases make no record, nor do destroys. So a host that keeps a picture for each resource reads the stream: an
//!   import is another name for a picture that there is, a destroy takes one name away, and the picture goes with its last name.
//! - A [`Target`](guest::Packet::Target) is a name, too: it ends when that name is destroyed, though the texture may live on.
//! - A submission that is refused, or answered [`Failed`](HostAnswer::Failed), leaves names and tokens as they were before it. A reset
//!   forgets all of them.
//! - [`Desk::names`] and [`Desk::tokens`] list what the device has, for a host that shows it or holds its own lists against it.
//!
//! # A desk that moves
//!
//! [`Desk::save_as`] gives a desk at rest as a file of at most [`LONGEST_SAVED_DESK`] bytes, and [`Desk::from_saved`] makes a desk of one, in
//! another program or on another machine; [`Desk::load`] does so in a desk that there is. `docs/SAVED-DESK.md` publishes the forms.
//!
//! ```
//! use zelezmut::{Desk, Form, Refused};
//!
//! let desk = Desk::new(4096);
//! let file = match desk.save_as(Form::Two) {
//!     Ok(file) => file,
//!     Err(Refused::InWork) => todo!("run on, carry out and answer what waits, and save then"),
//!     Err(refused) => panic!("it cannot be saved: {}", refused),
//! };
//! // Elsewhere: the file, and guest memory, which is not in it.
//! let moved = Desk::from_saved(&file).unwrap_or_else(|bad| panic!("no saved desk: {}", bad));
//! assert_eq!(moved, desk);
//! ```
//!
//! - Guest memory is the host's to move, and so is what it keeps for resources. The loaded desk is for a memory of the length that it had.
//! - A submission in work is not saved: [`Refused::InWork`]. What waits is answered first. What is only pending in the ring is guest memory.
//! - [`Form::Two`] has all that a desk at rest has. [`Form::One`], which [`Desk::save`] writes, has no fields for tokens, second names and the
//!   error detail: [`Refused::NotInForm`] while there are any.
//! - A file begins with the number of its form. One load takes both forms, and old files that have no number; [`saved::move_form`] makes
//!   of a file of one form one of the other.
//! - A file is judged field by field, and a [`BadFile`] says which is wrong. It comes from outside: no file makes a load panic.
//! - A [`SavedDesk`] is what a file says, in values and in words; the program `show_desk FILE` prints it.
//! - A load ends what was before: tickets are used up, what was in work is gone, and nothing of it settles.
//!
//! `examples/saved_desk.rs` plays a night of which one half is played by another program: `cargo run --example saved_desk`.
//!
//! # A stream in words
//!
//! [`dump::text`] lists any stream, a line for each packet, and [`dump::lines`] gives the same lines with their names and numbers. The text is
//! the front's own, and proved. [`dump::with_arrow`] points at the packet that [`Desk::last_error`] names. The program
//! `dump_stream FILE` prints the listing of a file; `report_night` plays the sample night of `play` with listings of what was refused.
//!
//! # What differs between two dumps
//!
//! [`diff`] takes two command streams and says, packet by packet, what differs. The program `diff_streams FILE FILE` prints it, with the
//! names of packets and fields.
//!
//! # The month in numbers
//!
//! A [`Month`] has exact totals over finished submissions: accepted, refused with each error, units, bytes read and written, and the largest
//! single write. A host feeds it each submission as it finishes, and prints it; `docs/MONTH.md` publishes the order.
//! `report_night` ends with the totals of its night, and `examples/saved_month.rs` merges those of two halves, played by two programs:
//! `cargo run --example saved_month`.
//!
//! # What a host has to know
//!
//! - Memory is lent to [`Desk::run`] and [`Desk::answer`] as `&mut [u8]`: nobody else, no virtual processor either, may touch
//!   it during such a call. Between calls the guest may write anywhere; what was checked is kept, not read again. Guest memory in
//!   several regions is lent as one slice: [`Desk::run`] has more.
//! - A [`Record`] is a range and its resource, or a part of the target, no more: its documentation says what a host finds in the stream
//!   alone.
//! - No rule bounds a buffer that lives with the host: a guest may ask for 2^64 - 1 bytes. The host's own limit is an answer
//!   [`Failed`](HostAnswer::Failed).
//! - [`Desk::write`] says when the doorbell rang and when the device was reset.
//! - An answer carries the [`Ticket`] of the submission that was carried out. A guest may reset the device while the host works for
//!   a submission, and have another one waiting when the host is done: the late answer is refused, and settles nothing.
//! - To answer and to run again is one call, [`Desk::answer`]: from one submission that waits to the next. Its documentation has
//!   a host's loop.
//! - A submission that breaks a rule ends within the run. [`Desk::last_error`] says which rule, and at which table entry or packet.
//! - A call ends. One unit is one step (an opening, a table entry or a packet), and a run, behind an answer or by itself, takes no
//!   more than its allowance.
//! - No call panics on what a guest wrote, and none allocates once the desk is made, but for those that give lists, [`Desk::names`],
//!   [`Desk::tokens`], [`Desk::save`] and [`Desk::save_as`]; [`Desk::save_into`] and [`Desk::save_as_into`] take a lent buffer.
//! - Desks compare by meaning: `==` of two that came to the same by different slices holds.
//! - The static library is code for 64-bit Linux on x86-64, and a build for anything else is refused. `host/library` in
//!   the project's root builds it, and so does `./play` there; the build script warns if it is missing. Checking and documentation
//!   need no library, linking does.
//! - The library is looked for in `target/staticlib` of the project, or in the folder that the environment variable
//!   `ZELEZMUT_LIB_DIR` names while cargo builds. A relative folder counts from where cargo was started; an empty name is none.
//! - Before its first call the crate asks the library for the number of its layout. One of another version is a panic that names both
//!   numbers, before any state is lent to it; one from before there was such a number does not link, for want of `zelezmut_layout`.
#![deny(unsafe_code)]
#![warn(missing_docs)]

mod answers;
mod desk;
pub mod diff;
pub mod dump;
mod front;
pub mod guest;
mod meaning;
mod month;
#[cfg(test)]
mod numbers;
mod place;
mod record;
pub mod registers;
pub mod saved;
pub mod script;
mod state;
mod ticket;

pub use answers::{DeviceError, Ended, HostAnswer, RecordKind, Refused, UnknownKind, Written};
pub use desk::{packed_size, table_error, Desk, ErrorReport, Ran, TableError};
pub use month::{Month, NotCounted};
pub use place::Place;
pub use record::{Range, Record, Rectangle};
pub use saved::{BadFile, FileField, FileLayout, Form, NameField, NotMoved, ResourceField};
pub use saved::{SavedDesk, SavedKind, SavedResource, SavedShape, TokenField, LONGEST_SAVED_DESK};
pub use ticket::{Ticket, Waiting};
