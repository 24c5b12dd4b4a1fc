//! Which field of a saved desk stands where: told by the form, by whether the file begins with its number, and by its counts.
use super::{number_of, word, FileField, Form, NameField, ResourceField, TokenField};
use super::{FIELD, NAME, RESOURCE, TOKEN};
use crate::registers::READABLE;

/// Where a file has its fields. Places count from the file's first byte, its number included.
///
/// ```
/// use zelezmut::{registers, Desk, FileField, FileLayout, Form};
///
/// let file = Desk::new(4096).save_as(Form::Two)?;
/// let layout = FileLayout::of(&file);
/// let detail = FileField::Register(registers::ERROR_DETAIL);
/// assert_eq!(layout.place(detail), Some(80));
/// assert_eq!(layout.field(80), Some(detail));
/// assert_eq!(layout.field(81), None);
/// assert_eq!(layout.end(), file.len());
/// # Ok::<(), zelezmut::Refused>(())
/// ```
#[derive(Clone, Copy, Debug, PartialEq, Eq, Hash)]
pub struct FileLayout {
    form: Form,
    /// Whether it begins with its number.
    numbered: bool,
    /// What sections 2 to 4 count.
    resources: usize,
    names: usize,
    tokens: usize,
}

/// The registers of section 1, in its order. Form 1 has those of document 01; the error's detail, which is last, came later.
fn saved_registers(form: Form) -> &'static [u32] {
    match form {
        Form::One => &READABLE[..READABLE.len() - 1],
        Form::Two => &READABLE,
    }
}

/// What section 1 has after the registers, and then comes section 2's count.
const AFTER_REGISTERS: [FileField; 4] = [
    FileField::MemoryLo,
    FileField::MemoryHi,
    FileField::Doorbell,
    FileField::ResourceCount,
];

impl FileLayout {
    /// The layout of a file, by what it says itself: its number and its counts, a count that is not there being 0.
    pub fn of(file: &[u8]) -> FileLayout {
        let mut layout = FileLayout {
            form: Form::of(file),
            numbered: number_of(file).is_some(),
            resources: 0,
            names: 0,
            tokens: 0,
        };
        let count = |place| word(file, place).unwrap_or(0) as usize;
        layout.resources = count(layout.resources_place() - FIELD);
        if layout.form == Form::Two {
            layout.names = count(layout.name_count_place());
            layout.tokens = count(layout.token_count_place());
        }
        layout
    }

    /// The form that the file is read as.
    #[inline]
    pub fn form(&self) -> Form {
        self.form
    }

    /// Whether the file begins with its form's number; an old file does not.
    #[inline]
    pub fn is_numbered(&self) -> bool {
        self.numbered
    }

    /// How many resources, other names and tokens the file says that it has.
    pub(super) fn counts(&self) -> [usize; 3] {
        [self.resources, self.names, self.tokens]
    }

    /// The field that begins so many bytes into the file, `None` if none does.
    pub fn field(&self, place: usize) -> Option<FileField> {
        if place % FIELD != 0 || place >= self.end() {
            return None;
        }
        let (names, tokens) = (self.name_count_place(), self.token_count_place());
        Some(if place < self.resources_place() {
            self.head_field(place)
        } else if place < names {
            let (index, field) = part(place - self.resources_place(), &ResourceField::ALL);
            FileField::Resource { index, field }
        } else if place == names {
            FileField::NameCount
        } else if place < tokens {
            let (index, field) = part(place - names - FIELD, &NameField::ALL);
            FileField::Name { index, field }
        } else if place == tokens {
            FileField::TokenCount
        } else {
            let (index, field) = part(place - tokens - FIELD, &TokenField::ALL);
            FileField::Token { index, field }
        })
    }

    /// The field at a place before the first resource.
    fn head_field(&self, place: usize) -> FileField {
        if place == 0 {
            return FileField::FormNumber;
        }
        let registers = saved_registers(self.form);
        match (place - self.sections_place()) / FIELD {
            0 => FileField::NumberCount(self.form),
            i if i <= registers.len() => FileField::Register(registers[i - 1]),
            i => AFTER_REGISTERS[i - 1 - registers.len()],
        }
    }

    /// How many bytes into the file a field begins; `None` if the file has no such field.
    pub fn place(&self, field: FileField) -> Option<usize> {
        match field {
            FileField::FormNumber => Some(0),
            FileField::Resource { index, field } => {
                let place = self.resources_place() + RESOURCE * index + FIELD * field as usize;
                Some(place).filter(|_| index < self.resources)
            }
            FileField::NameCount => self.in_form_2(self.name_count_place()),
            FileField::Name { index, field } => {
                let place = self.name_count_place() + FIELD + NAME * index + FIELD * field as usize;
                Some(place).filter(|_| index < self.names)
            }
            FileField::TokenCount => self.in_form_2(self.token_count_place()),
            FileField::Token { index, field } => {
                let pairs = self.token_count_place() + FIELD;
                let place = pairs + TOKEN * index + FIELD * field as usize;
                Some(place).filter(|_| index < self.tokens)
            }
            _ => (self.sections_place()..self.resources_place())
                .step_by(FIELD)
                .find(|&place| self.head_field(place) == field),
        }
    }

    /// Where the last field ends.
    pub fn end(&self) -> usize {
        match self.form {
            Form::One => self.name_count_place(),
            Form::Two => self.token_count_place() + FIELD + TOKEN * self.tokens,
        }
    }

    fn in_form_2(&self, place: usize) -> Option<usize> {
        Some(place).filter(|_| self.form == Form::Two)
    }

    /// Where the sections begin, the first with its count.
    fn sections_place(&self) -> usize {
        FIELD * usize::from(self.numbered)
    }

    /// Where the first resource stands, behind the counts of sections 1 and 2 and the numbers of section 1.
    fn resources_place(&self) -> usize {
        let numbers = saved_registers(self.form).len() + AFTER_REGISTERS.len();
        self.sections_place() + FIELD * (1 + numbers)
    }

    /// Where the resources end, and section 3 has its count if there is one.
    fn name_count_place(&self) -> usize {
        self.resources_place() + RESOURCE * self.resources
    }

    /// Where section 4 has its count if there is one.
    fn token_count_place(&self) -> usize {
        self.name_count_place() + FIELD + NAME * self.names
    }
}

/// Which part of a section a place is in, so many bytes behind the first part, and which of the part's fields it is.
fn part<T: Copy>(behind: usize, fields: &[T]) -> (usize, T) {
    let field = behind / FIELD;
    (field / fields.len(), fields[field % fields.len()])
}

#[cfg(test)]
mod tests {
    use super::super::LONGEST_SAVED_DESK;
    use super::*;
    use crate::registers;
    use std::collections::HashSet;

    fn layout(form: Form, numbered: bool, [resources, names, tokens]: [usize; 3]) -> FileLayout {
        FileLayout {
            form,
            numbered,
            resources,
            names,
            tokens,
        }
    }

    /// An old file, form 1 and form 2, with nothing in them, with a bit, and full.
    fn layouts() -> Vec<FileLayout> {
        let mut layouts = Vec::new();
        for resources in [0, 1, 64] {
            layouts.push(layout(Form::One, false, [resources, 0, 0]));
            layouts.push(layout(Form::One, true, [resources, 0, 0]));
            for (names, tokens) in [(0, 0), (0, 3), (2, 0), (2, 3), (64 - resources, 256)] {
                layouts.push(layout(Form::Two, true, [resources, names, tokens]));
            }
        }
        layouts
    }

    #[test]
    fn every_place_has_its_field() {
        for layout in layouts() {
            let mut words = HashSet::new();
            for place in 0..layout.end() {
                let field = layout.field(place);
                assert_eq!(field.is_some(), place % 4 == 0, "{}", place);
                if let Some(field) = field {
                    assert_eq!(layout.place(field), Some(place), "{}", field);
                    words.insert(field.to_string());
                }
            }
            assert_eq!(words.len(), layout.end() / 4);
            for place in [layout.end(), layout.end() + 4, usize::MAX - 3] {
                assert_eq!(layout.field(place), None);
            }
        }
    }

    #[test]
    fn what_a_file_has_not_has_no_place() {
        let detail = FileField::Register(registers::ERROR_DETAIL);
        let old = layout(Form::One, false, [1, 0, 0]);
        let one = layout(Form::One, true, [1, 0, 0]);
        for field in [detail, FileField::NameCount, FileField::TokenCount] {
            assert_eq!(old.place(field), None);
            assert_eq!(one.place(field), None);
        }
        // An old file has its count of section 1 where others have their number.
        assert_eq!(old.place(FileField::NumberCount(Form::One)), None);
        assert_eq!(old.place(FileField::FormNumber), Some(0));
        assert_eq!(one.place(FileField::NumberCount(Form::One)), Some(4));
        assert_eq!(one.place(FileField::NumberCount(Form::Two)), None);
        let (index, field) = (1, ResourceField::Handle);
        assert_eq!(one.place(FileField::Resource { index, field }), None);
    }

    #[test]
    fn the_ends_are_those_of_the_forms() {
        assert_eq!(layout(Form::One, false, [64, 0, 0]).end(), 3_164);
        assert_eq!(
            layout(Form::One, true, [64, 0, 0]).end(),
            Form::One.longest()
        );
        assert_eq!(
            layout(Form::Two, true, [64, 0, 256]).end(),
            LONGEST_SAVED_DESK
        );
        let small = [
            (Form::One, false, 92),
            (Form::One, true, 96),
            (Form::Two, true, 108),
        ];
        for (form, numbered, end) in small {
            assert_eq!(layout(form, numbered, [0; 3]).end(), end);
        }
    }

    #[test]
    fn a_file_tells_its_own_layout() {
        for expected in layouts() {
            let mut file = vec![0; expected.end()];
            let mut put = |place: usize, value: usize| file[place] = value as u8;
            if expected.numbered {
                put(0, expected.form.number() as usize);
            }
            for (field, count) in [
                (FileField::ResourceCount, expected.resources),
                (FileField::NameCount, expected.names),
                (FileField::TokenCount, expected.tokens % 256),
            ] {
                if let Some(place) = expected.place(field) {
                    put(place, count);
                }
            }
            if expected.tokens == 256 {
                let place = expected.place(FileField::TokenCount).unwrap();
                put(place + 1, 1);
            }
            assert_eq!(FileLayout::of(&file), expected);
        }
    }
}
