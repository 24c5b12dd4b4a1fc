//! What a saved desk says, as values, and in words for a log or an engineer.
use super::{word, BadFile, FileField, FileLayout, Form, NameField, ResourceField, TokenField};
use crate::desk::ErrorReport;
use crate::{registers, Desk};
use std::fmt;

/// What a good file says.
///
/// Displayed it is a page: the form, the registers by name, the memory, the doorbell's flag, the last error in words, every resource with its
/// names and its shape, and every token.
///
/// ```
/// use zelezmut::{Desk, Form, SavedDesk};
///
/// let file = Desk::new(4096).save_as(Form::Two)?;
/// let saved = SavedDesk::read(&file)?;
/// assert_eq!((saved.form, saved.is_numbered), (Form::Two, true));
/// assert_eq!(saved.memory, 4096);
/// assert!(saved.to_string().contains("for a memory of 4096 bytes"));
/// # Ok::<(), Box<dyn std::error::Error>>(())
/// ```
#[derive(Clone, Debug, PartialEq, Eq)]
pub struct SavedDesk {
    /// The form.
    pub form: Form,
    /// Whether the file begins with its form's number: an old one does not.
    pub is_numbered: bool,
    /// How many bytes the file has.
    pub length: usize,
    /// Every register that can be read, by rising offset: offset and value. The error detail is 0 in form 1.
    pub registers: Vec<(u32, u32)>,
    /// What the error registers say together.
    pub last_error: Option<ErrorReport>,
    /// The bytes of the guest memory that the desk is for.
    pub memory: u64,
    /// Whether the guest has rung and the device has not looked yet.
    pub doorbell: bool,
    /// The resources, by rising lowest name.
    pub resources: Vec<SavedResource>,
    /// The tokens that were used, in rising order, each beside the lowest name of its resource; `None` if it is spent.
    pub tokens: Vec<(u64, Option<u32>)>,
}

/// A resource of a saved desk.
#[derive(Clone, Debug, PartialEq, Eq)]
pub struct SavedResource {
    /// Its names in rising order: the lowest, then the others. There is one at least.
    pub names: Vec<u32>,
    /// What it is.
    pub kind: SavedKind,
    /// The id of the table entry that backs it and the offset there; `None` if it lives with the host.
    pub backing: Option<(u32, u32)>,
}

/// What a resource of a saved desk is.
#[derive(Clone, Copy, Debug, PartialEq, Eq, Hash)]
pub enum SavedKind {
    /// A buffer of so many bytes.
    Buffer(u64),
    /// A texture.
    Texture(SavedShape),
}

/// A texture's shape in a saved desk.
#[derive(Clone, Copy, Debug, PartialEq, Eq, Hash)]
pub struct SavedShape {
    /// The format.
    pub format: u32,
    /// The width in pixels.
    pub width: u32,
    /// The height in pixels.
    pub height: u32,
    /// How many mips each layer has.
    pub mips: u32,
    /// How many layers it has.
    pub layers: u32,
    /// The bytes of a row of mip 0 in guest memory, 0 for a texture that lives with the host.
    pub pitch: u32,
}

impl SavedDesk {
    /// Reads a file of any form.
    ///
    /// # Errors
    /// What is wrong with the file, as [`Desk::load`] says it.
    ///
    /// # Panics
    /// As [`Desk::new`] does.
    pub fn read(file: &[u8]) -> Result<SavedDesk, BadFile> {
        let desk = Desk::from_saved(file)?;
        let fields = Fields {
            layout: FileLayout::of(file),
            file,
        };
        let [resources, ..] = fields.layout.counts();
        let register = |&offset: &u32| desk.read(offset).ok().map(|value| (offset, value));
        Ok(SavedDesk {
            form: fields.layout.form(),
            is_numbered: fields.layout.is_numbered(),
            length: file.len(),
            registers: registers::READABLE.iter().filter_map(register).collect(),
            last_error: desk.last_error(),
            memory: fields.long(FileField::MemoryLo, FileField::MemoryHi),
            doorbell: fields.field(FileField::Doorbell) == 1,
            resources: (0..resources).map(|index| fields.resource(index)).collect(),
            tokens: fields.tokens(),
        })
    }
}

/// The fields of a good file.
struct Fields<'a> {
    layout: FileLayout,
    file: &'a [u8],
}

impl Fields<'_> {
    /// A field's number; 0 for one that the form does not have.
    fn field(&self, field: FileField) -> u32 {
        let place = self.layout.place(field);
        place.and_then(|place| word(self.file, place)).unwrap_or(0)
    }

    fn long(&self, low: FileField, high: FileField) -> u64 {
        u64::from(self.field(high)) << 32 | u64::from(self.field(low))
    }

    fn resource(&self, index: usize) -> SavedResource {
        let whole = |field| FileField::Resource { index, field };
        let field = |field| self.field(whole(field));
        let lowest = field(ResourceField::Handle);
        let backing = (
            field(ResourceField::BackingId),
            field(ResourceField::BackingOffset),
        );
        let kind = match field(ResourceField::Kind) {
            1 => SavedKind::Buffer(
                self.long(whole(ResourceField::SizeLo), whole(ResourceField::SizeHi)),
            ),
            _ => SavedKind::Texture(SavedShape {
                format: field(ResourceField::Format),
                width: field(ResourceField::Width),
                height: field(ResourceField::Height),
                mips: field(ResourceField::Mips),
                layers: field(ResourceField::Layers),
                pitch: field(ResourceField::Pitch),
            }),
        };
        SavedResource {
            names: std::iter::once(lowest).chain(self.others(lowest)).collect(),
            kind,
            backing: Some(backing).filter(|&(id, _)| id != 0),
        }
    }

    /// The other names of the resource with this lowest one.
    fn others(&self, lowest: u32) -> impl Iterator<Item = u32> + '_ {
        let [_, names, _] = self.layout.counts();
        let pair = |index| NameField::ALL.map(|field| self.field(FileField::Name { index, field }));
        let pairs = (0..names).map(pair);
        pairs.filter_map(move |[other, of]| Some(other).filter(|_| of == lowest))
    }

    fn tokens(&self) -> Vec<(u64, Option<u32>)> {
        let [.., tokens] = self.layout.counts();
        let token = |index| {
            let [low, high, name] = TokenField::ALL.map(|field| FileField::Token { index, field });
            let name = Some(self.field(name)).filter(|&name| name != 0);
            (self.long(low, high), name)
        };
        (0..tokens).map(token).collect()
    }
}

impl fmt::Display for SavedDesk {
    fn fmt(&self, f: &mut fmt::Formatter<'_>) -> fmt::Result {
        let number = match self.is_numbered {
            true => "",
            false => ", from before files had numbers",
        };
        writeln!(
            f,
            "A saved desk of {}{}: {} bytes.",
            self.form, number, self.length
        )?;
        writeln!(f, "It is for a memory of {} bytes.", self.memory)?;
        writeln!(
            f,
            "{}",
            match self.doorbell {
                true =>
                    "The doorbell flag is 1: the guest has rung, and the device has not looked yet.",
                false => "The doorbell flag is 0: nothing has rung since the device last looked.",
            }
        )?;
        match &self.last_error {
            Some(report) => writeln!(f, "Errors: {}. The last: {}.", report.count, report)?,
            None => writeln!(f, "Errors: none.")?,
        }
        writeln!(f, "\nRegisters")?;
        for &(offset, value) in &self.registers {
            let name = registers::name(offset).unwrap_or("a register");
            writeln!(
                f,
                "  {:03X} {:18} {:10}  {:#010x}",
                offset, name, value, value
            )?;
        }
        self.write_resources(f)?;
        self.write_tokens(f)
    }
}

impl SavedDesk {
    fn write_resources(&self, f: &mut fmt::Formatter<'_>) -> fmt::Result {
        let names: usize = self.resources.iter().map(|r| r.names.len()).sum();
        writeln!(
            f,
            "\nResources: {}, names: {} of 64",
            self.resources.len(),
            names
        )?;
        self.resources
            .iter()
            .try_for_each(|resource| writeln!(f, "  {}", resource))
    }

    fn write_tokens(&self, f: &mut fmt::Formatter<'_>) -> fmt::Result {
        if self.form == Form::One {
            return writeln!(f, "\nTokens: none, as in every desk of form 1");
        }
        writeln!(f, "\nTokens used: {} of 256", self.tokens.len())?;
        for (token, bound) in &self.tokens {
            match bound {
                Some(name) => writeln!(f, "  {}: bound to {}", token, name)?,
                None => writeln!(f, "  {}: spent (released, or its resource is gone)", token)?,
            }
        }
        Ok(())
    }
}

/// `2, also 20: texture, format 1, 32 by 16, 1 mip, 1 layer, pitch 128; in guest memory, entry id 5, offset 256`.
impl fmt::Display for SavedResource {
    fn fmt(&self, f: &mut fmt::Formatter<'_>) -> fmt::Result {
        for (i, name) in self.names.iter().enumerate() {
            let before = ["", ", also ", ", "][i.min(2)];
            write!(f, "{}{}", before, name)?;
        }
        write!(f, ": {}; ", self.kind)?;
        match self.backing {
            Some((id, offset)) => write!(f, "in guest memory, entry id {}, offset {}", id, offset),
            None => f.write_str("lives with the host"),
        }
    }
}

impl fmt::Display for SavedKind {
    fn fmt(&self, f: &mut fmt::Formatter<'_>) -> fmt::Result {
        match self {
            SavedKind::Buffer(1) => f.write_str("buffer, 1 byte"),
            SavedKind::Buffer(size) => write!(f, "buffer, {} bytes", size),
            SavedKind::Texture(shape) => write!(f, "texture, {}", shape),
        }
    }
}

impl fmt::Display for SavedShape {
    fn fmt(&self, f: &mut fmt::Formatter<'_>) -> fmt::Result {
        let many = |count| if count == 1 { "" } else { "s" };
        write!(
            f,
            "format {}, {} by {}, {} mip{}, {} layer{}",
            self.format,
            self.width,
            self.height,
            self.mips,
            many(self.mips),
            self.layers,
            many(self.layers)
        )?;
        match self.pitch {
            0 => Ok(()),
            pitch => write!(f, ", pitch {}", pitch),
        }
    }
}
