//! The fields of a saved desk by name, and what has to hold of each.
use super::Form;
use crate::registers;
use crate::state::RESOURCE_WORDS;
use std::fmt;

/// A field of a saved desk. Where it stands is a [`FileLayout`](super::FileLayout)'s business, since that depends on the form and the
/// counts.
///
/// ```
/// use zelezmut::{registers, FileField, Form, NameField};
///
/// let control = FileField::Register(registers::CONTROL);
/// assert_eq!(control.to_string(), "register 10C (CONTROL)");
/// assert_eq!(control.rule(), "at most 1");
/// let name = FileField::Name { index: 2, field: NameField::Other };
/// assert_eq!(name.to_string(), "the other name of pair 2");
/// assert_eq!(FileField::NumberCount(Form::Two).rule(), "22");
/// ```
#[derive(Clone, Copy, Debug, PartialEq, Eq, Hash)]
pub enum FileField {
    /// The number of the form, which a file begins with. An old file has its count of section 1 there.
    FormNumber,
    /// The count of section 1, the device's numbers, in a file of this form.
    NumberCount(Form),
    /// The register of this offset: one of document 01's that can be read, and the error detail in form 2.
    Register(u32),
    /// The memory's length, low half.
    MemoryLo,
    /// The memory's length, high half.
    MemoryHi,
    /// The doorbell's flag.
    Doorbell,
    /// The count of section 2, the resources.
    ResourceCount,
    /// A field of a resource.
    Resource {
        /// Which resource; they count from 0.
        index: usize,
        /// Which of its fields.
        field: ResourceField,
    },
    /// The count of section 3, the other names.
    NameCount,
    /// A field of a pair: another name, with the lowest name of its resource.
    Name {
        /// Which pair; they count from 0.
        index: usize,
        /// Which of its fields.
        field: NameField,
    },
    /// The count of section 4, the tokens.
    TokenCount,
    /// A field of a token.
    Token {
        /// Which token; they count from 0.
        index: usize,
        /// Which of its fields.
        field: TokenField,
    },
}

/// A field of a resource in a saved desk.
#[derive(Clone, Copy, Debug, PartialEq, Eq, Hash)]
pub enum ResourceField {
    /// Its name.
    Handle,
    /// 1 for a buffer, 2 for a texture.
    Kind,
    /// A buffer's bytes, low half.
    SizeLo,
    /// A buffer's bytes, high half.
    SizeHi,
    /// A texture's format.
    Format,
    /// A texture's width.
    Width,
    /// A texture's height.
    Height,
    /// A texture's mips.
    Mips,
    /// A texture's layers.
    Layers,
    /// The pitch of a texture that guest memory backs.
    Pitch,
    /// The id of the table entry that backs it, 0 if it lives with the host.
    BackingId,
    /// Where in that entry it starts.
    BackingOffset,
}

impl ResourceField {
    /// Every field, in the file's order.
    pub const ALL: [ResourceField; RESOURCE_WORDS] = [
        ResourceField::Handle,
        ResourceField::Kind,
        ResourceField::SizeLo,
        ResourceField::SizeHi,
        ResourceField::Format,
        ResourceField::Width,
        ResourceField::Height,
        ResourceField::Mips,
        ResourceField::Layers,
        ResourceField::Pitch,
        ResourceField::BackingId,
        ResourceField::BackingOffset,
    ];

    /// What has to hold of it.
    fn rule(self) -> &'static str {
        match self {
            ResourceField::Handle => "not 0, and above the handle before it",
            ResourceField::Kind => "1 for a buffer, 2 for a texture",
            ResourceField::SizeLo => "0 for a texture",
            ResourceField::SizeHi => "0 for a texture; for a buffer, not both halves 0",
            ResourceField::Format => "0 for a buffer; for a texture 1, 2, 3, 64, 65 or 66",
            ResourceField::Width | ResourceField::Height => {
                "0 for a buffer; for a texture 1 to 16384"
            }
            ResourceField::Mips => "0 for a buffer; for a texture 1 to its full chain",
            ResourceField::Layers => "0 for a buffer; for a texture 1 to 256",
            ResourceField::Pitch => "0 for a buffer",
            ResourceField::BackingId => {
                "for a texture: with an id its pitch is enough for a row of mip 0, without one it is 0"
            }
            ResourceField::BackingOffset => "0 without a backing id",
        }
    }
}

impl fmt::Display for ResourceField {
    fn fmt(&self, f: &mut fmt::Formatter<'_>) -> fmt::Result {
        f.write_str(match self {
            ResourceField::Handle => "handle",
            ResourceField::Kind => "kind",
            ResourceField::SizeLo => "size LO",
            ResourceField::SizeHi => "size HI",
            ResourceField::Format => "format",
            ResourceField::Width => "width",
            ResourceField::Height => "height",
            ResourceField::Mips => "mips",
            ResourceField::Layers => "layers",
            ResourceField::Pitch => "pitch",
            ResourceField::BackingId => "backing id",
            ResourceField::BackingOffset => "backing offset",
        })
    }
}

/// A field of a pair in section 3 of a saved desk.
#[derive(Clone, Copy, Debug, PartialEq, Eq, Hash)]
pub enum NameField {
    /// A name that is not the lowest of its resource.
    Other,
    /// The lowest one.
    Lowest,
}

impl NameField {
    /// Both, in the file's order.
    pub const ALL: [NameField; 2] = [NameField::Other, NameField::Lowest];

    /// What has to hold of it.
    fn rule(self) -> &'static str {
        match self {
            NameField::Other => "not 0, above the other name before it, and no handle of section 2",
            NameField::Lowest => {
                "below the other name, and of section 2 a texture with one mip and one layer"
            }
        }
    }
}

impl fmt::Display for NameField {
    fn fmt(&self, f: &mut fmt::Formatter<'_>) -> fmt::Result {
        f.write_str(match self {
            NameField::Other => "other name",
            NameField::Lowest => "lowest name",
        })
    }
}

/// A field of a token in section 4 of a saved desk.
#[derive(Clone, Copy, Debug, PartialEq, Eq, Hash)]
pub enum TokenField {
    /// The token's number, low half.
    Lo,
    /// The token's number, high half.
    Hi,
    /// The lowest name of the resource that it is bound to, 0 if it is spent.
    Name,
}

impl TokenField {
    /// All three, in the file's order.
    pub const ALL: [TokenField; 3] = [TokenField::Lo, TokenField::Hi, TokenField::Name];

    /// What has to hold of it.
    fn rule(self) -> &'static str {
        match self {
            TokenField::Lo => ANY,
            TokenField::Hi => "with LO not 0, and above the token before it",
            TokenField::Name => {
                "0 for a spent token, else of section 2 a texture with one mip and one layer"
            }
        }
    }
}

impl fmt::Display for TokenField {
    fn fmt(&self, f: &mut fmt::Formatter<'_>) -> fmt::Result {
        f.write_str(match self {
            TokenField::Lo => "LO",
            TokenField::Hi => "HI",
            TokenField::Name => "name",
        })
    }
}

impl FileField {
    /// What has to hold of it, in words. A rule that ties several fields stands at the last of them, where a file that breaks it is told.
    pub fn rule(self) -> &'static str {
        match self {
            FileField::FormNumber => {
                "1 or 2, or 21 in an old file, whose count of section 1 this is"
            }
            FileField::NumberCount(Form::One) => "21",
            FileField::NumberCount(Form::Two) => "22",
            FileField::Register(offset) => register_rule(offset),
            FileField::MemoryLo | FileField::MemoryHi => ANY,
            FileField::Doorbell => "at most 1",
            FileField::ResourceCount => "at most 64",
            FileField::Resource { field, .. } => field.rule(),
            FileField::NameCount => "at most 64 together with the count of section 2",
            FileField::Name { field, .. } => field.rule(),
            FileField::TokenCount => "at most 256",
            FileField::Token { field, .. } => field.rule(),
        }
    }
}

const ANY: &str = "any number";

fn register_rule(offset: u32) -> &'static str {
    match offset {
        registers::MAGIC => "1431324481, the bytes AGPU",
        registers::VERSION => "65539",
        registers::FEATURES_LO => "7",
        registers::FEATURES_HI => "0",
        registers::CONTROL => "at most 1",
        registers::IRQ_STATUS => "at most 3",
        registers::ERROR_CODE => "0, or 10 to 30",
        registers::ERROR_COUNT => "0 exactly with error code 0, and then the error fence is 0",
        registers::ERROR_DETAIL => "0 with error code 0",
        _ => ANY,
    }
}

impl fmt::Display for FileField {
    fn fmt(&self, f: &mut fmt::Formatter<'_>) -> fmt::Result {
        match self {
            FileField::FormNumber => f.write_str("the form's number"),
            FileField::NumberCount(_) => f.write_str("the count of section 1"),
            FileField::Register(offset) => {
                let name = registers::name(*offset).unwrap_or("none of ours");
                write!(f, "register {:03X} ({})", offset, name)
            }
            FileField::MemoryLo => f.write_str("the memory length LO"),
            FileField::MemoryHi => f.write_str("the memory length HI"),
            FileField::Doorbell => f.write_str("the doorbell flag"),
            FileField::ResourceCount => f.write_str("the count of section 2"),
            FileField::Resource { index, field } => {
                write!(f, "the {} of resource {}", field, index)
            }
            FileField::NameCount => f.write_str("the count of section 3"),
            FileField::Name { index, field } => write!(f, "the {} of pair {}", field, index),
            FileField::TokenCount => f.write_str("the count of section 4"),
            FileField::Token { index, field } => write!(f, "the {} of token {}", field, index),
        }
    }
}
