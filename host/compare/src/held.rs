//! What the guest believes that its device holds between submissions: resources under their names, and tokens.

use crate::files::good::shape_of;
use crate::files::{field, File, Row, TEXTURE};
use crate::packet::Backing;

/// A resource under one of its names.
#[derive(Clone, Copy, Debug)]
pub struct Resource {
    pub handle: u32,
    /// The same for all names of a resource, and no other's.
    pub surface: u64,
    pub texture: bool,
    /// It has one mip and one layer.
    pub one_image: bool,
    /// A texture's sides, in pixels of its first mip.
    pub width: u32,
    pub height: u32,
    /// Of a backed one; a host-backed texture's are never asked for and stand as 0.
    pub bytes: u64,
    pub backing: Backing,
}

impl Resource {
    pub fn backed(&self) -> bool {
        self.backing.id != 0
    }

    /// A texture that may be exported.
    pub fn exportable(&self) -> bool {
        self.texture && self.one_image
    }
}

/// A token that was used.
#[derive(Clone, Copy, Debug)]
pub struct Token {
    pub number: u64,
    /// The surface that it was bound to.
    pub surface: u64,
    pub released: bool,
}

#[derive(Clone, Debug, Default)]
pub struct Held {
    /// A row for each name.
    pub live: Vec<Resource>,
    /// In the order in which they were first used.
    pub tokens: Vec<Token>,
}

impl Held {
    /// What a device holds that was loaded with this good file.
    pub fn of(file: &File) -> Held {
        let rows = file.rows.iter().zip(1..);
        let mut live: Vec<Resource> = rows.map(|(row, surface)| resource(row, surface)).collect();
        let surface_of = |name| {
            let row = live.iter().find(|row| row.handle == name);
            row.map_or(NO_SURFACE, |row| row.surface)
        };
        let tokens = file.tokens.iter().map(|&[low, high, name]| Token {
            number: u64::from(low) | u64::from(high) << 32,
            surface: surface_of(name),
            released: name == 0,
        });
        let tokens = tokens.collect();
        for &[handle, lowest] in &file.names {
            let shared = live.iter().find(|row| row.handle == lowest);
            live.extend(shared.map(|&row| Resource { handle, ..row }));
        }
        Held { live, tokens }
    }

    /// Whether a submission between the two used a token or spent one.
    pub fn has_other_tokens(&self, before: &Held) -> bool {
        let state = |held: &Held| -> Vec<(u64, bool)> {
            let is_bound = |token: &Token| {
                let mut rows = held.live.iter();
                !token.released && rows.any(|row| row.surface == token.surface)
            };
            let tokens = held.tokens.iter();
            tokens
                .map(|token| (token.number, is_bound(token)))
                .collect()
        };
        state(self) != state(before)
    }
}

/// What a spent token of a file stands for.
const NO_SURFACE: u64 = 0;

/// A file's resource.
fn resource(row: &Row, surface: u64) -> Resource {
    let shape = shape_of(row);
    let texture = row[field::KIND] == TEXTURE;
    let id = row[field::BACKING_ID];
    let bytes = match (texture, id) {
        (false, _) => u64::from(row[field::SIZE_LO]) | u64::from(row[field::SIZE_HI]) << 32,
        (true, 0) => 0,
        (true, _) => shape.packed(),
    };
    Resource {
        handle: row[field::HANDLE],
        surface,
        texture,
        one_image: (shape.mips, shape.layers) == (1, 1),
        width: shape.width,
        height: shape.height,
        bytes,
        backing: Backing {
            id,
            offset: row[field::BACKING_OFFSET],
        },
    }
}
