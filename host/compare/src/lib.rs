//! Holds the proved front, [`zelezmut::Desk`], against a plain program of the same rules, [`plain::Desk`].
//!
//! - Random desks ([`generator`]) are played through both ([`player`]): every answer, value, register, record,
//!   name, token, saved desk and byte is equal.
//! - Random files ([`files`]) of both forms and old ones, good and bad, are loaded into both, and moved by both: the answer, the place, what is
//!   written, and all that is seen of a desk are equal.
//! - One desk's runs, those behind answers too, cut into random slices come to the same ([`slicing`]).
//! - One desk on two memories that agree only on the bytes that are listed, through either front, comes to the same ([`scrambled`]).
//! - The small exports, about a shape or a table alone, give the same on random and boundary ones ([`exports`]).
//! - Random dumps ([`dumps`]) are listed by both: the text is equal, byte by byte.
//! - Random pairs of streams ([`differences`]), alike but for one place of every kind, differ alike by both.
//! - Random months ([`months`]) are fed to both and merged: every answer and every total is equal, and so is what the program prints.
//! - What the desks reach is counted ([`coverage`]), so that the generator cannot become empty.
//! - [`measures`] is what the benchmark measures: submissions ([`mod@bench`]) of its inputs ([`cases`]), single calls ([`calls`]), and
//!   listings ([`listings`]).
//!   The cost of a texture's layers is held against a sum over all of them too (`every_mip`).

#![forbid(unsafe_code)]

mod author;
pub mod bench;
pub mod calls;
mod carried;
pub mod cases;
pub mod chart;
mod contents;
pub mod coverage;
pub mod desks;
mod detail;
pub mod differences;
mod draft;
pub mod dumps;
pub mod event;
mod every_mip;
pub mod expected;
pub mod exports;
pub mod files;
mod floats;
mod floor;
pub mod front;
pub mod generator;
mod good_packets;
mod good_shares;
mod good_state;
mod held;
pub mod host;
mod image;
mod keeping;
pub mod listings;
pub mod measures;
mod meddling;
pub mod months;
pub mod numbers;
mod packet;
pub mod player;
pub mod random;
pub mod report;
mod saving;
mod schedule;
pub mod scrambled;
pub mod shape;
mod shares;
mod sharing;
pub mod slicing;
mod stream_pairs;
mod submission;
pub mod twists;
pub mod verify;
mod world;
