//! The inputs of the benchmark: what is in the stream and the table, and what lives before.

mod share;

use crate::image::Entry;
use crate::numbers::{MOST_ENTRIES, MOST_LAYERS, MOST_NAMES, MOST_RECORDS, WRITEBACK};
use crate::packet::{self, Backing, Clear, Copying, Scissor, Viewport};
use crate::random::Random;
use crate::shape::Shape;

/// The size of every buffer.
const BUFFER: u64 = 64;
const ENTRY_ID: u32 = 5;
const ENTRY_SIZE: u64 = 4096;

/// The mips of the longest chain.
pub const LONGEST_CHAIN: u32 = 15;

/// As flat a texture as has the longest chain; all of them take 4 bytes less than its entry.
const TEXTURE: Shape = Shape {
    format: 1,
    width: 16_384,
    height: 1,
    mips: 1,
    layers: 1,
    pitch: 4 * 16_384,
};
const TEXTURE_ENTRY_SIZE: u64 = 128 * 1024;

/// Such a texture with so many mips and layers.
pub fn texture(mips: u32, layers: u32) -> Shape {
    Shape {
        mips,
        layers,
        ..TEXTURE
    }
}

/// One of several mips and layers that a small entry still holds.
const SMALL_TEXTURE: Shape = Shape {
    format: 1,
    width: 5,
    height: 3,
    mips: 3,
    layers: 2,
    pitch: 20,
};

/// The smallest viewport and clear that pass every rule at its edge: -0 is as good as 0, and a denormal side is above it.
const VIEWPORT: Viewport = [0, 0, 1, 1, 0x8000_0000, 0x3f80_0000];
const CLEAR: Clear = Clear {
    flags: 7,
    colour: [0x3f80_0000; 4],
    depth: 0x3f80_0000,
    stencil: 0,
};

/// What it leaves is cut at two edges of the target.
const SCISSOR: Scissor = Scissor {
    x: -8,
    y: 0,
    width: 24,
    height: 100,
};

const SCISSORS: &str =
    "a target, host-backed, and 64 scissors that are cut at two of its edges (as many records as there may be); no table";

/// The units of a slice.
pub const SLICE: u16 = 16;

#[derive(Clone, Copy, Debug, PartialEq, Eq)]
pub enum Case {
    /// Packets of an unknown opcode, as many as fit.
    Unknown,
    /// One packet of an unknown opcode, beside host-backed buffers.
    OneUnknown {
        live: usize,
    },
    /// Dirty ranges of size 0 of the backed buffer in this row; the entry behind it is the table's last.
    Dirty {
        live: usize,
        row: usize,
        entries: usize,
    },
    /// Dirty ranges of size 0 of a backed texture that lives alone.
    DirtyTexture {
        mips: u32,
    },
    /// A host-backed buffer is created and destroyed again, beside others.
    Create {
        live: usize,
    },
    /// A backed texture of 15 mips is created and destroyed again, as often as there may be records.
    CreateTexture {
        layers: u32,
    },
    /// Copies with writeback between the backed buffers in two rows.
    Copy {
        live: usize,
        from: usize,
        to: usize,
    },
    /// The texture in this row becomes the target, again and again, beside others.
    Target {
        live: usize,
        row: usize,
    },
    /// Viewports, and clears, that pass.
    Viewport,
    Clear,
    /// A target and scissors, as many as there may be records.
    Scissor,
    /// Tokens are exported, imported and released, beside many of them. The host says that it failed.
    Share,
    /// As many resources as there may be, of both kinds, half of them backed; nothing is played beside them.
    Mixed,
    /// A table and no stream.
    Table {
        entries: usize,
    },
}

/// A published case: what command lines and what readers call it.
#[derive(Clone, Copy, Debug)]
pub struct Published {
    pub key: &'static str,
    pub title: &'static str,
    pub case: Case,
}

pub const PUBLISHED: [Published; 7] = [
    Published {
        key: "unknown",
        title: "unknown packets of 8 bytes",
        case: Case::Unknown,
    },
    Published {
        key: "target",
        title: "targets of 16 bytes, 1 live",
        case: Case::Target { live: 1, row: 0 },
    },
    Published {
        key: "dirty",
        title: "dirty of size 0, row 40 of 64",
        case: Case::Dirty {
            live: MOST_NAMES,
            row: 40,
            entries: 1,
        },
    },
    Published {
        key: "create",
        title: "create and destroy, 33 live",
        case: Case::Create { live: 33 },
    },
    Published {
        key: "copy",
        title: "copies with writeback",
        case: COPY,
    },
    Published {
        key: "share",
        title: "export, import and release",
        case: Case::Share,
    },
    Published {
        key: "table",
        title: "full table of 64 entries",
        case: Case::Table {
            entries: MOST_ENTRIES,
        },
    },
];

/// The published copies: they leave as many records as there may be.
pub const COPY: Case = Case::Copy {
    live: MOST_NAMES,
    from: 20,
    to: 40,
};

impl Case {
    /// What exactly is played.
    pub fn input(self) -> String {
        match self {
            Case::OneUnknown { live } => format!(
                "one packet of an unknown opcode, 8 bytes, beside {} live host-backed buffers; no table",
                live
            ),
            Case::Dirty { live, row, entries } => format!(
                "1,919 dirty ranges of size 0, all of the buffer in row {} of {} backed ones; a table of {}, the last of which backs them",
                row,
                live,
                counted(entries, "entry", "entries")
            ),
            Case::DirtyTexture { mips } => format!(
                "1,919 dirty ranges of size 0 of the only resource, a backed texture of format 1, 16,384 by 1, with {}; a table of one entry",
                counted(mips as usize, "mip", "mips")
            ),
            Case::Create { live } => format!(
                "1,096 times create a host-backed buffer and destroy it again, beside {} live ones; no table",
                live
            ),
            Case::CreateTexture { layers } => format!(
                "64 times create a backed texture of format 1, 16,384 by 1, with 15 mips and {}, and destroy it again; a table of one entry",
                counted(layers as usize, "layer", "layers")
            ),
            Case::Copy { live, from, to } => format!(
                "1,279 copies with writeback from row {} to row {} of {} backed buffers, the first 64 of 16 bytes (as many records as \
                 there may be), the rest of size 0; a table of one entry",
                from, to, live
            ),
            Case::Target { live, row } => format!(
                "3,838 target packets, 16 bytes each, all of the texture in row {} of {} host-backed ones; no table",
                row, live
            ),
            Case::Table { entries } => format!("a table of {}, no stream", counted(entries, "entry", "entries")),
            _ => self.only_input().to_string(),
        }
    }

    /// What is played of a case that has no numbers of its own.
    fn only_input(self) -> &'static str {
        match self {
            Case::Viewport => "1,919 viewports that pass; no table",
            Case::Clear => "1,706 clears that pass; no table",
            Case::Scissor => SCISSORS,
            Case::Share => share::INPUT,
            Case::Mixed => "nothing, beside 64 resources of both kinds",
            _ => "7,677 packets of an unknown opcode, 8 bytes each; no table",
        }
    }

    /// Whether the submission is so small that a number of all of it says more than one of a unit.
    pub fn is_small(self) -> bool {
        matches!(self, Case::OneUnknown { .. })
    }

    /// The bytes of guest memory.
    pub fn memory(self) -> usize {
        match self {
            Case::DirtyTexture { .. } => 256 * 1024,
            Case::CreateTexture { .. } => self.entry_size() as usize,
            _ => 64 * 1024,
        }
    }

    /// Whether the host says good to a submission.
    pub fn is_answered_good(self) -> bool {
        self != Case::Share
    }

    /// The packets of a submission before, which makes what is there when the measured one comes.
    pub fn before(self, random: &mut Random) -> Vec<Vec<u8>> {
        let mut packets: Vec<Vec<u8>> = (0..self.live())
            .map(|row| self.created(random, row))
            .collect();
        if self == Case::Share {
            packets.extend(share::tokens_and_names(random));
        }
        packets
    }

    /// The resources that live before.
    fn live(self) -> usize {
        match self {
            Case::Unknown | Case::Table { .. } | Case::CreateTexture { .. } => 0,
            Case::Viewport | Case::Clear => 0,
            Case::DirtyTexture { .. } | Case::Scissor => 1,
            Case::Share => share::TEXTURES,
            Case::Mixed => MOST_NAMES,
            Case::OneUnknown { live }
            | Case::Dirty { live, .. }
            | Case::Create { live }
            | Case::Copy { live, .. }
            | Case::Target { live, .. } => live,
        }
    }

    /// The packet that creates the resource of this row.
    fn created(self, random: &mut Random, row: usize) -> Vec<u8> {
        let (handle, backing) = (handle_of_row(row), self.backing());
        match self {
            Case::Mixed => mixed(random, row),
            Case::DirtyTexture { mips } => {
                packet::create_texture(random, handle, texture(mips, 1), backing)
            }
            Case::CreateTexture { layers } => {
                packet::create_texture(random, handle, texture(LONGEST_CHAIN, layers), backing)
            }
            Case::Target { .. } | Case::Scissor | Case::Share => {
                packet::create_texture(random, handle, texture(1, 1), backing)
            }
            _ => packet::create_buffer(random, handle, BUFFER, backing),
        }
    }

    fn backing(self) -> Backing {
        let id = match self {
            Case::OneUnknown { .. } | Case::Create { .. } => 0,
            Case::Target { .. } | Case::Scissor | Case::Share => 0,
            Case::Dirty { entries, .. } => entry_id(entries - 1),
            _ => entry_id(0),
        };
        Backing { id, offset: 0 }
    }

    pub fn entries(self) -> Vec<Entry> {
        let count = match self {
            Case::Unknown | Case::OneUnknown { .. } | Case::Create { .. } => 0,
            Case::Target { .. } | Case::Viewport | Case::Clear | Case::Scissor | Case::Share => 0,
            Case::Copy { .. } | Case::DirtyTexture { .. } | Case::CreateTexture { .. } => 1,
            Case::Mixed => 1,
            Case::Dirty { entries, .. } | Case::Table { entries } => entries,
        };
        (0..count)
            .map(|i| Entry {
                id: entry_id(i),
                flags: 0,
                gpa: i as u64 * 64,
                size: self.entry_size(),
            })
            .collect()
    }

    fn entry_size(self) -> u64 {
        match self {
            Case::DirtyTexture { .. } => TEXTURE_ENTRY_SIZE,
            // The same memory for one layer as for all.
            Case::CreateTexture { .. } => TEXTURE_ENTRY_SIZE * u64::from(MOST_LAYERS),
            _ => ENTRY_SIZE,
        }
    }

    /// The packet at this place of the stream.
    pub fn packet(self, random: &mut Random, i: usize) -> Option<Vec<u8>> {
        match self {
            Case::OneUnknown { .. } if i > 0 => None,
            Case::Unknown | Case::OneUnknown { .. } => Some(packet::any(random, 4_000, 8)),
            Case::Dirty { row, .. } => Some(packet::dirty(random, handle_of_row(row), 0, 0)),
            Case::DirtyTexture { .. } => Some(packet::dirty(random, handle_of_row(0), 0, 0)),
            Case::Create { live } if i % 2 == 0 => Some(self.created(random, live)),
            Case::Create { live } => Some(packet::destroy(random, handle_of_row(live))),
            Case::CreateTexture { .. } if i >= 2 * MOST_RECORDS => None,
            Case::CreateTexture { .. } if i % 2 == 0 => Some(self.created(random, 0)),
            Case::CreateTexture { .. } => Some(packet::destroy(random, handle_of_row(0))),
            Case::Copy { from, to, .. } => Some(copy(random, i, from, to)),
            Case::Target { row, .. } => Some(packet::target(random, handle_of_row(row))),
            Case::Viewport => Some(packet::viewport(random, VIEWPORT)),
            Case::Clear => Some(packet::clear(random, CLEAR)),
            Case::Scissor if i == 0 => Some(packet::target(random, handle_of_row(0))),
            Case::Scissor if i > MOST_RECORDS => None,
            Case::Scissor => Some(packet::scissor(random, SCISSOR)),
            Case::Share => share::packet(random, i),
            Case::Table { .. } | Case::Mixed => None,
        }
    }

    /// Packets that belong together: a stream has a multiple of them, so that it leaves what it found.
    pub fn together(self) -> usize {
        match self {
            Case::Create { .. } | Case::CreateTexture { .. } => 2,
            _ => 1,
        }
    }
}

/// The packet that creates the resource of this row, beside those of the other rows: in no order of their handles.
fn mixed(random: &mut Random, row: usize) -> Vec<u8> {
    let handle = handle_of_row(row * 37 % MOST_NAMES);
    let id = if row % 4 < 2 { entry_id(0) } else { 0 };
    let backing = Backing { id, offset: 64 };
    if row % 2 == 0 {
        return packet::create_buffer(random, handle, BUFFER, backing);
    }
    packet::create_texture(random, handle, SMALL_TEXTURE, backing)
}

/// The first copies make a record each, as many as there may be.
fn copy(random: &mut Random, i: usize, from: usize, to: usize) -> Vec<u8> {
    let copying = Copying {
        to: handle_of_row(to),
        from: handle_of_row(from),
        to_offset: 0,
        from_offset: 0,
        size: if i < MOST_RECORDS { 16 } else { 0 },
        flags: WRITEBACK,
    };
    packet::copy(random, copying)
}

fn counted(count: usize, one: &str, more: &str) -> String {
    match count {
        1 => format!("one {}", one),
        _ => format!("{} {}", count, more),
    }
}

fn entry_id(i: usize) -> u32 {
    ENTRY_ID + i as u32
}

/// Resources are created in the order of their rows.
fn handle_of_row(row: usize) -> u32 {
    row as u32 + 1
}

/// How a host goes from one submission to the next.
#[derive(Clone, Copy, Debug, PartialEq, Eq)]
pub enum Way {
    /// It answers and runs in one call.
    Joined,
    /// It answers, and then it runs.
    Apart,
}

#[derive(Clone, Copy, Debug, PartialEq, Eq)]
pub enum Mode {
    /// As many units a run as the submission has.
    Whole,
    /// 16 units a run.
    Slices,
}

pub const MODES: [Mode; 2] = [Mode::Whole, Mode::Slices];

impl Mode {
    pub fn key(self) -> &'static str {
        match self {
            Mode::Whole => "whole",
            Mode::Slices => "slices",
        }
    }

    pub fn allowance(self) -> u16 {
        match self {
            Mode::Whole => u16::MAX,
            Mode::Slices => SLICE,
        }
    }
}
