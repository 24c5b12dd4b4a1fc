//! Saved desks: the forms of a file, which field stands where, what is said of a file that is none, what a file says, and the move from
//! one form to the other.
//!
//! A file begins with the number of its form, 1 or 2. Files from before there were numbers are of form 1, too; all three kinds are loaded.
//! Which files are good is told by the library, which gives the place of the first field that is not; here the place gets its words.
//! `docs/SAVED-DESK.md` has both forms with examples, and its tables are held against this module.
mod bad_file;
mod contents;
mod fields;
mod layout;
mod moving;

pub use bad_file::BadFile;
pub use contents::{SavedDesk, SavedKind, SavedResource, SavedShape};
pub use fields::{FileField, NameField, ResourceField, TokenField};
pub use layout::FileLayout;
pub use moving::{move_form, move_form_into, NotMoved};

use crate::state::{MOST, MOST_TOKENS, RESOURCE_WORDS};
use std::fmt;

/// A field is a number of 32 bits, little-endian.
const FIELD: usize = 4;

/// The bytes of a resource, of another name and of a token.
const RESOURCE: usize = FIELD * RESOURCE_WORDS;
const NAME: usize = 2 * FIELD;
const TOKEN: usize = 3 * FIELD;

/// The form of a saved desk.
///
/// ```
/// use zelezmut::{Desk, Form};
///
/// let file = Desk::new(4096).save_as(Form::Two)?;
/// assert_eq!(Form::of(&file), Form::Two);
/// assert_eq!(file[..4], Form::Two.number().to_le_bytes());
/// assert_eq!(Form::One.other(), Form::Two);
/// # Ok::<(), zelezmut::Refused>(())
/// ```
#[derive(Clone, Copy, Debug, PartialEq, Eq, Hash)]
pub enum Form {
    /// Form 1: registers and resources. It has no field for tokens, second names and the error detail.
    One,
    /// Form 2: all that a desk at rest has.
    Two,
}

impl Form {
    /// Both.
    pub const ALL: [Form; 2] = [Form::One, Form::Two];

    /// The number that a file of this form begins with.
    #[inline]
    pub fn number(self) -> u32 {
        match self {
            Form::One => 1,
            Form::Two => 2,
        }
    }

    /// The other one: that which a file of this form moves to.
    #[inline]
    pub fn other(self) -> Form {
        match self {
            Form::One => Form::Two,
            Form::Two => Form::One,
        }
    }

    /// The form that a file is read as. It may be a bad file of that form: what does not begin with a number is read as an old file, and
    /// those are of form 1.
    pub fn of(file: &[u8]) -> Form {
        match number_of(file) {
            Some(form) => form,
            None => Form::One,
        }
    }

    /// The most bytes of a file of this form: 3,168 with 64 resources, or 6,252 with 64 resources and 256 tokens. A buffer of so many is
    /// never too short.
    pub const fn longest(self) -> usize {
        match self {
            Form::One => FIELD + ONE_HEAD + MOST * RESOURCE,
            Form::Two => {
                FIELD + ONE_HEAD + FIELD + MOST * RESOURCE + 2 * FIELD + MOST_TOKENS * TOKEN
            }
        }
    }
}

/// The bytes of form 1 behind the number and before the first resource: two counts and 21 numbers.
const ONE_HEAD: usize = FIELD * (1 + 21 + 1);

/// The most bytes of a saved desk of either form: 6,252. A buffer of so many is never too short.
pub const LONGEST_SAVED_DESK: usize = Form::Two.longest();

impl fmt::Display for Form {
    fn fmt(&self, f: &mut fmt::Formatter<'_>) -> fmt::Result {
        write!(f, "form {}", self.number())
    }
}

/// The form whose number a file begins with; `None` for one that begins with none, as old files do.
fn number_of(file: &[u8]) -> Option<Form> {
    let first = word(file, 0)?;
    Form::ALL.into_iter().find(|form| form.number() == first)
}

/// The field that begins at a place, if all of it is there.
fn word(file: &[u8], place: usize) -> Option<u32> {
    let mut field = [0; FIELD];
    field.copy_from_slice(file.get(place..)?.get(..FIELD)?);
    Some(u32::from_le_bytes(field))
}

#[cfg(test)]
mod tests {
    use super::*;

    #[test]
    fn a_file_has_the_form_that_its_number_says() {
        for (first, form) in [
            (0, Form::One),
            (1, Form::One),
            (2, Form::Two),
            (3, Form::One),
        ] {
            let file = [first, 0, 0, 0, 21];
            assert_eq!(Form::of(&file), form);
            let numbered = first == 1 || first == 2;
            assert_eq!(number_of(&file), Some(form).filter(|_| numbered));
        }
        // A number that is not all there is none.
        assert_eq!(number_of(&[2, 0, 0]), None);
        assert_eq!(Form::of(&[]), Form::One);
    }

    #[test]
    fn the_longest_files_have_64_names_and_256_tokens() {
        assert_eq!(Form::ALL.map(Form::longest), [3_168, 6_252]);
        assert_eq!(Form::ALL.map(|form| form.to_string()), ["form 1", "form 2"]);
    }
}
