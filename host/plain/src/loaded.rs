//! The saved desk, as read: an old file, form 1 or form 2, and its rules; see
//! [`crate::saved`] for what stands where.

use crate::bytes::{high, low, whole};
use crate::errors::Error;
use crate::fields::{Bad, Fields};
use crate::registers::{Registers, CONTROL_ENABLE, FEATURES, MAGIC, STATUS_BITS, VERSION};
use crate::resources::{Resource, Resources, MAX_NAMES, NO_SURFACE};
use crate::saved::{Form, Rest, KIND_BUFFER, KIND_TEXTURE};
use crate::shapes::{is_format, is_layer_count, is_mip_count, is_side, Shape, Texture};
use crate::tokens::{loaded_surface, Tokens, MAX_TOKENS};

/// The fields that a buffer has no use for, from format to pitch.
const TEXTURE_FIELDS: usize = 6;
/// The fields that a texture has no use for, the halves of the size.
const BUFFER_FIELDS: usize = 2;

/// What a file tells of a device, and in which form.
#[derive(Clone, Debug)]
pub(crate) struct Loaded {
    pub(crate) form: Form,
    pub(crate) registers: Registers,
    pub(crate) memory: u64,
    pub(crate) resources: Resources,
    pub(crate) tokens: Tokens,
}

impl Loaded {
    /// Reads and checks a file. A rule that ties several fields is judged at
    /// the last of them, so the first that breaks one ends the reading.
    pub(crate) fn read(file: &[u8]) -> Result<Loaded, Bad> {
        let mut fields = Fields::new(file);
        let form = read_form(&mut fields);
        fields.exactly(form.device_fields())?;
        let mut registers = read_registers(&mut fields)?;
        if form == Form::Two {
            registers.error_detail = read_detail(&mut fields, registers.error_code)?;
        }
        let memory = fields.any_u64()?;
        registers.doorbell = fields.at_most(1)? != 0;
        let mut resources = read_resources(&mut fields)?;
        let mut tokens = Tokens::new();
        if form == Form::Two {
            let section_2 = resources.clone();
            read_other_names(&mut fields, &section_2, &mut resources)?;
            read_tokens(&mut fields, &section_2, &mut tokens)?;
        }
        fields.end()?;
        Ok(Loaded {
            form,
            registers,
            memory,
            resources,
            tokens,
        })
    }

    /// The same, to be written again.
    pub(crate) fn rest(&self) -> Rest<'_> {
        Rest {
            registers: &self.registers,
            memory: self.memory,
            resources: &self.resources,
            tokens: &self.tokens,
        }
    }
}

/// The form of the file, with its number taken if it has one. "a first word
/// that is neither 1 nor 2 is read as an old file's", and "old files without it
/// are form 1".
fn read_form(fields: &mut Fields) -> Form {
    for form in [Form::One, Form::Two] {
        let mut behind = *fields;
        if behind.exactly(form.number()).is_ok() {
            *fields = behind;
            return form;
        }
    }
    Form::One
}

/// The registers of form 1, without the doorbell flag, which comes later in
/// the file.
fn read_registers(fields: &mut Fields) -> Result<Registers, Bad> {
    for fixed in [MAGIC, VERSION, low(FEATURES), high(FEATURES)] {
        fields.exactly(fixed)?;
    }
    let ring_gpa = fields.any_u64()?;
    let ring_size = fields.any()?;
    let control = fields.at_most(CONTROL_ENABLE)?;
    let fence_gpa = fields.any_u64()?;
    let completed = fields.any_u64()?;
    let irq_status = fields.at_most(STATUS_BITS)?;
    let irq_enable = fields.any()?;
    let error_code = fields.good(|code| code == 0 || Error::is_code(code))?;
    let error_fence = fields.any_u64()?;
    let error_count = fields.good(|count| match error_code {
        0 => count == 0 && error_fence == 0,
        _ => count != 0,
    })?;
    Ok(Registers {
        ring_gpa,
        ring_size,
        enabled: control != 0,
        fence_gpa,
        completed,
        doorbell: false,
        irq_enable,
        irq_status,
        error_code,
        error_fence,
        error_count,
        error_detail: 0,
    })
}

/// "Detail beside code 0: at 320." Beside a code it is free.
fn read_detail(fields: &mut Fields, error_code: u32) -> Result<u32, Bad> {
    fields.good(|detail| error_code != 0 || detail == 0)
}

/// Section 2.
fn read_resources(fields: &mut Fields) -> Result<Resources, Bad> {
    let count = fields.at_most(MAX_NAMES as u32)?;
    let mut resources = Resources::new();
    let mut last = 0;
    for index in 0..count {
        // Rising from 0, so none is 0.
        last = fields.good(|handle| handle > last)?;
        let surface = loaded_surface(index);
        resources.add(read_resource(fields, last, surface)?);
    }
    Ok(resources)
}

/// The rest of the resource with this handle.
fn read_resource(fields: &mut Fields, handle: u32, surface: u32) -> Result<Resource, Bad> {
    let shape = match fields.good(|kind| kind == KIND_BUFFER || kind == KIND_TEXTURE)? {
        KIND_BUFFER => read_buffer(fields)?,
        _ => read_texture(fields)?,
    };
    let (backing_id, bytes) = fields.next(|id| Some((id, bytes_behind(id, &shape)?)))?;
    let backing_offset = fields.good(|offset| backing_id != 0 || offset == 0)?;
    Ok(Resource {
        handle,
        shape,
        bytes,
        backing_id,
        backing_offset,
        surface,
    })
}

fn read_buffer(fields: &mut Fields) -> Result<Shape, Bad> {
    let low = fields.any()?;
    let high = fields.good(|high| whole(low, high) != 0)?;
    fields.zeros(TEXTURE_FIELDS)?;
    Ok(Shape::Buffer {
        size: whole(low, high),
    })
}

/// A texture, whose pitch is judged with its backing.
fn read_texture(fields: &mut Fields) -> Result<Shape, Bad> {
    fields.zeros(BUFFER_FIELDS)?;
    let format = fields.good(is_format)?;
    let width = fields.good(is_side)?;
    let height = fields.good(is_side)?;
    let mips = fields.good(|mips| is_mip_count(mips, width, height))?;
    let layers = fields.good(is_layer_count)?;
    let pitch = fields.any()?;
    Ok(Shape::Texture(Texture {
        format,
        width,
        height,
        mips,
        layers,
        pitch,
    }))
}

/// The bytes of a shape that is good but for its pitch, behind this backing
/// id; nothing if the pitch does not go with it. Host-backed textures keep 0.
fn bytes_behind(backing_id: u32, shape: &Shape) -> Option<u64> {
    if backing_id != 0 {
        shape.backed_bytes()
    } else if shape.without_pitch() == *shape {
        shape.host_bytes()
    } else {
        None
    }
}

/// Section 3, whose names join the resources. "Names above 64 in all: at
/// section 3's count."
fn read_other_names(
    fields: &mut Fields,
    section_2: &Resources,
    resources: &mut Resources,
) -> Result<(), Bad> {
    let count = fields.at_most((MAX_NAMES - section_2.count()) as u32)?;
    let mut last = 0;
    for _ in 0..count {
        // "Other name 0, not rising, or a handle of section 2: at the other
        // name." Rising from 0, so none is 0.
        last = fields.good(|other| other > last && section_2.find(other).is_none())?;
        let resource = fields.next(|lowest| below(last, lowest, section_2))?;
        resources.add(Resource {
            handle: last,
            ..*resource
        });
    }
    Ok(())
}

/// The resource of a pair, under its lowest name. "A lowest name that is no
/// resource of section 2, or is not below the other name: at the lowest name."
fn below(other: u32, lowest: u32, section_2: &Resources) -> Option<&Resource> {
    if lowest < other {
        shareable(lowest, section_2)
    } else {
        None
    }
}

/// The resource of section 2 with this name. "A shared or bound resource that
/// is no texture of one mip and one layer (a buffer too): at the lowest name of
/// the pair in section 3, at the name in section 4."
fn shareable(name: u32, section_2: &Resources) -> Option<&Resource> {
    section_2
        .find(name)
        .filter(|resource| resource.shape.is_one_image())
}

/// Section 4. "More than 256 tokens: at section 4's count."
fn read_tokens(fields: &mut Fields, section_2: &Resources, tokens: &mut Tokens) -> Result<(), Bad> {
    let count = fields.at_most(MAX_TOKENS as u32)?;
    let mut last = 0;
    for _ in 0..count {
        // "Token 0 or not rising (as u64 numbers): at its HI word." Rising
        // from 0, so none is 0.
        let low = fields.any()?;
        last = fields.next(|high| Some(whole(low, high)).filter(|token| *token > last))?;
        let surface = fields.next(|name| surface_of(name, section_2))?;
        tokens.add_loaded(last, surface);
    }
    Ok(())
}

/// The surface number of a token with this name, none if it is spent. "In
/// section 4 a token is bound to the lowest name of its resource; any other
/// name there is 7."
fn surface_of(name: u32, section_2: &Resources) -> Option<u32> {
    match name {
        0 => Some(NO_SURFACE),
        _ => shareable(name, section_2).map(|resource| resource.surface),
    }
}
