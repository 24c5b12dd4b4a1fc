//! The saved desk, as written. Form 1: its number, the registers with memory
//! length and doorbell flag, then the live resources by rising handle, each
//! section after its count. "Form 2 is form 1 with one more register and two
//! sections after the resources, each of which stands under its lowest name:
//! other names with that one, and tokens". All fields are u32 words; a u64 is
//! two of them, low half first.

use crate::answers::{BAD_FILE, BEYOND_FORM, DONE, TOO_SHORT};
use crate::bytes::{high, low};
use crate::fields::FIELD;
use crate::loaded::Loaded;
use crate::registers::{Registers, FEATURES, MAGIC, VERSION};
use crate::resources::{Resource, Resources};
use crate::shapes::Shape;
use crate::tokens::Tokens;

/// The fields of each resource.
const RESOURCE_FIELDS: usize = 12;

pub(crate) const KIND_BUFFER: u32 = 1;
pub(crate) const KIND_TEXTURE: u32 = 2;

/// "A first u32, 1 or 2, tells the forms apart".
#[derive(Clone, Copy, Debug, PartialEq, Eq)]
pub(crate) enum Form {
    One = 1,
    Two = 2,
}

impl Form {
    /// The number in front of its files.
    pub(crate) fn number(self) -> u32 {
        self as u32
    }

    /// The count of the first section.
    pub(crate) fn device_fields(self) -> u32 {
        match self {
            Form::One => 21,
            Form::Two => 22,
        }
    }

    /// The form that a move leads to.
    fn other(self) -> Form {
        match self {
            Form::One => Form::Two,
            Form::Two => Form::One,
        }
    }
}

/// What a file tells of a device at rest.
#[derive(Clone, Copy, Debug)]
pub(crate) struct Rest<'d> {
    pub(crate) registers: &'d Registers,
    pub(crate) memory: u64,
    pub(crate) resources: &'d Resources,
    pub(crate) tokens: &'d Tokens,
}

impl Rest<'_> {
    /// Writes the file in this form to the start of the buffer; gives the call
    /// answer and the file's length. First 8 if the form cannot hold all, then
    /// 6 if the buffer is too short, both with length 0 and nothing written.
    pub(crate) fn write(&self, form: Form, buffer: &mut [u8]) -> (u32, usize) {
        if form == Form::One && !self.is_within_form_1() {
            return (BEYOND_FORM, 0);
        }
        let fields = self.fields(form);
        match buffer.get_mut(..FIELD * fields.len()) {
            Some(file) => {
                put(file, &fields);
                (DONE, file.len())
            }
            None => (TOO_SHORT, 0),
        }
    }

    /// "exactly when both sections are empty and detail is 0": whether form 1
    /// has a field for all there is.
    fn is_within_form_1(&self) -> bool {
        !self.tokens.are_used()
            && !self.resources.has_other_names()
            && self.registers.error_detail == 0
    }

    /// All fields of the file in this form, its number first.
    fn fields(&self, form: Form) -> Vec<u32> {
        let mut fields = vec![form.number(), form.device_fields()];
        fields.extend(self.register_fields());
        if form == Form::Two {
            fields.push(self.registers.error_detail);
        }
        fields.extend([low(self.memory), high(self.memory)]);
        fields.push(u32::from(self.registers.doorbell));
        self.add_resources(&mut fields);
        if form == Form::Two {
            self.add_other_names(&mut fields);
            self.add_tokens(&mut fields);
        }
        fields
    }

    /// The readable registers of 01 by rising offset.
    fn register_fields(&self) -> [u32; 18] {
        let registers = self.registers;
        [
            MAGIC,
            VERSION,
            low(FEATURES),
            high(FEATURES),
            low(registers.ring_gpa),
            high(registers.ring_gpa),
            registers.ring_size,
            u32::from(registers.enabled),
            low(registers.fence_gpa),
            high(registers.fence_gpa),
            low(registers.completed),
            high(registers.completed),
            registers.irq_status,
            registers.irq_enable,
            registers.error_code,
            low(registers.error_fence),
            high(registers.error_fence),
            registers.error_count,
        ]
    }

    /// Section 2: "each resource under its lowest name", by rising name.
    fn add_resources(&self, fields: &mut Vec<u32>) {
        let rows = self.resources.under_lowest_names();
        fields.push(rows.len() as u32);
        fields.extend(rows.iter().flat_map(resource_fields));
    }

    /// Section 3: "count, (other name, lowest name) by rising other name".
    fn add_other_names(&self, fields: &mut Vec<u32>) {
        let pairs = self.resources.other_names();
        fields.push(pairs.len() as u32);
        fields.extend(pairs.iter().flat_map(|(other, lowest)| [*other, *lowest]));
    }

    /// Section 4: "count, (token LO, token HI, lowest name or 0 if spent) by
    /// rising token".
    fn add_tokens(&self, fields: &mut Vec<u32>) {
        let rows = self.tokens.own(self.resources);
        fields.push(rows.len() as u32);
        let row_fields = |(token, name): &(u64, u32)| [low(*token), high(*token), *name];
        fields.extend(rows.iter().flat_map(row_fields));
    }
}

/// Writes the fields to the file, which has room for just them.
fn put(file: &mut [u8], fields: &[u32]) {
    for (place, field) in file.chunks_exact_mut(FIELD).zip(fields) {
        place.copy_from_slice(&field.to_le_bytes());
    }
}

/// Handle, kind, size, the shape and pitch of a texture, backing id, backing
/// offset; 0 where the kind has no use for a field.
fn resource_fields(resource: &Resource) -> [u32; RESOURCE_FIELDS] {
    let (handle, id, offset) = (
        resource.handle,
        resource.backing_id,
        resource.backing_offset,
    );
    match &resource.shape {
        Shape::Buffer { size } => {
            let (low, high) = (low(*size), high(*size));
            [handle, KIND_BUFFER, low, high, 0, 0, 0, 0, 0, 0, id, offset]
        }
        Shape::Texture(texture) => [
            handle,
            KIND_TEXTURE,
            0,
            0,
            texture.format,
            texture.width,
            texture.height,
            texture.mips,
            texture.layers,
            texture.pitch,
            id,
            offset,
        ],
    }
}

/// Moves a file to the other form: form 1, and an old file without its number,
/// to form 2; form 2 back to form 1. The moved file is written to the start of
/// the buffer. Gives the call answer and its length. Refused, in this order,
/// with 7 if the file breaks a rule, with 8 if it is of form 2 and holds what
/// form 1 cannot (another name, a token, an error detail that is not 0), with 6
/// if the buffer is too short. Beside these the length is 0 and nothing is
/// written; the buffer's bytes after the file never are.
pub fn move_form(file: &[u8], buffer: &mut [u8]) -> (u32, usize) {
    match Loaded::read(file) {
        Ok(loaded) => loaded.rest().write(loaded.form.other(), buffer),
        Err(_) => (BAD_FILE, 0),
    }
}
