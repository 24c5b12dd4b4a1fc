//! What is said of a file that is no saved desk.
use super::{FileField, FileLayout, FIELD};
use crate::answers::none_of_ours;
use std::error::Error;
use std::fmt;

/// Why a file is no saved desk, and at which of its fields: the first that is wrong. The desk that was to load it is as it was. Places count
/// from the file's first byte, its number included.
///
/// Displayed it is a sentence for a log: `a rule is broken at byte 36, register 10C (CONTROL): at most 1`.
///
/// ```
/// use zelezmut::{registers, BadFile, Desk, FileField};
///
/// let mut file = Desk::new(4096).save()?;
/// file[36] = 2;
/// let bad = Desk::from_saved(&file).unwrap_err();
/// assert_eq!(bad, BadFile::BreaksRule { field: FileField::Register(registers::CONTROL), place: 36 });
/// # Ok::<(), zelezmut::Refused>(())
/// ```
#[derive(Clone, Copy, Debug, PartialEq, Eq, Hash)]
pub enum BadFile {
    /// The file ends before a field, or within it.
    Missing {
        /// Which one.
        field: FileField,
        /// Where it should begin.
        place: usize,
    },
    /// A field breaks its rule ([`FileField::rule`]), by itself or as the last of several that a rule ties.
    BreaksRule {
        /// Which one.
        field: FileField,
        /// Where it begins.
        place: usize,
    },
    /// The file goes on behind its last field.
    GoesOn {
        /// Where the first byte too many stands.
        place: usize,
    },
}

/// The call answer of document 02 for a bad file.
pub(super) const BAD_FILE: u32 = 7;

impl BadFile {
    /// How many bytes into the file the field begins, or the first byte too many stands.
    pub fn place(self) -> usize {
        match self {
            BadFile::Missing { place, .. }
            | BadFile::BreaksRule { place, .. }
            | BadFile::GoesOn { place } => place,
        }
    }

    /// The field that is missing or breaks its rule; `None` for bytes too many.
    pub fn field(self) -> Option<FileField> {
        match self {
            BadFile::Missing { field, .. } | BadFile::BreaksRule { field, .. } => Some(field),
            BadFile::GoesOn { .. } => None,
        }
    }

    /// The call answer of document 02, which is 7.
    #[inline]
    pub fn number(self) -> u32 {
        BAD_FILE
    }

    /// What a load says: its answer, and the place in the file that is bad.
    #[inline]
    pub(crate) fn from_front((answer, place): (u32, u32), file: &[u8]) -> Result<(), BadFile> {
        match answer {
            0 => Ok(()),
            BAD_FILE => Err(BadFile::at(place as usize, file)),
            _ => none_of_ours("answer to a load", answer.into()),
        }
    }

    /// What is wrong at the place where a file is bad.
    #[cold]
    fn at(place: usize, file: &[u8]) -> BadFile {
        let layout = FileLayout::of(file);
        if layout.end() == place {
            return BadFile::GoesOn { place };
        }
        match layout.field(place) {
            Some(field) if file.len() < place + FIELD => BadFile::Missing { field, place },
            Some(field) => BadFile::BreaksRule { field, place },
            None => none_of_ours("field of a saved desk", place as u64),
        }
    }
}

impl fmt::Display for BadFile {
    fn fmt(&self, f: &mut fmt::Formatter<'_>) -> fmt::Result {
        match self {
            BadFile::Missing { field, place } => {
                write!(f, "a field is missing at byte {}, {}", place, field)
            }
            BadFile::BreaksRule { field, place } => {
                let rule = field.rule();
                write!(f, "a rule is broken at byte {}, {}: {}", place, field, rule)
            }
            BadFile::GoesOn { place } => write!(
                f,
                "the file goes on at byte {}, behind its last field",
                place
            ),
        }
    }
}

impl Error for BadFile {}

#[cfg(test)]
mod tests {
    use super::*;

    /// A file of these fields.
    fn file(fields: &[(usize, u32)], length: usize) -> Vec<u8> {
        let mut file = vec![0; length];
        for &(place, value) in fields {
            file[place..place + 4].copy_from_slice(&value.to_le_bytes());
        }
        file
    }

    fn told(place: usize, file: &[u8]) -> String {
        BadFile::at(place, file).to_string()
    }

    #[test]
    fn what_is_bad_is_told_in_a_sentence() {
        let mut file = file(&[(88, 1)], 140);
        for (place, length, words) in [
            (
                0,
                4,
                "a rule is broken at byte 0, the form's number: 1 or 2, or 21 in an old file, whose count of section 1 this is",
            ),
            (0, 3, "a field is missing at byte 0, the form's number"),
            (32, 36, "a rule is broken at byte 32, register 10C (CONTROL): at most 1"),
            (4, 7, "a field is missing at byte 4, register 000 (MAGIC)"),
            (84, 84, "a field is missing at byte 84, the doorbell flag"),
            (136, 139, "a field is missing at byte 136, the backing offset of resource 0"),
        ] {
            assert_eq!(told(place, &file[..length]), words);
        }
        file.push(0);
        let goes_on = BadFile::at(140, &file);
        assert_eq!(goes_on, BadFile::GoesOn { place: 140 });
        assert_eq!((goes_on.field(), goes_on.number()), (None, 7));
        assert_eq!(
            goes_on.to_string(),
            "the file goes on at byte 140, behind its last field"
        );
    }

    #[test]
    fn form_2_is_told_by_its_own_fields() {
        // One resource, two pairs, one token.
        let file = file(&[(0, 2), (96, 1), (148, 2), (168, 1)], 185);
        for (place, length, words) in [
            (4, 10, "a rule is broken at byte 4, the count of section 1: 22"),
            (80, 90, "a rule is broken at byte 80, register 320 (ERROR_DETAIL): 0 with error code 0"),
            (
                148,
                152,
                "a rule is broken at byte 148, the count of section 3: at most 64 together with the count of section 2",
            ),
            (
                160,
                185,
                "a rule is broken at byte 160, the other name of pair 1: not 0, above the other name before it, and no handle of section 2",
            ),
            (
                156,
                185,
                "a rule is broken at byte 156, the lowest name of pair 0: below the other name, and of section 2 a texture with one mip and one layer",
            ),
            (168, 185, "a rule is broken at byte 168, the count of section 4: at most 256"),
            (
                176,
                185,
                "a rule is broken at byte 176, the HI of token 0: with LO not 0, and above the token before it",
            ),
            (172, 175, "a field is missing at byte 172, the LO of token 0"),
            (
                180,
                185,
                "a rule is broken at byte 180, the name of token 0: 0 for a spent token, else of section 2 a texture with one mip and one layer",
            ),
            (184, 185, "the file goes on at byte 184, behind its last field"),
        ] {
            assert_eq!(told(place, &file[..length]), words);
        }
    }

    #[test]
    #[should_panic(expected = "no answer to a load of number 6")]
    fn another_answer_is_another_library() {
        let _ = BadFile::from_front((6, 0), &[]);
    }

    #[test]
    #[should_panic(expected = "no field of a saved desk of number 34")]
    fn another_place_is_another_library() {
        let _ = BadFile::from_front((7, 34), &[0; 92]);
    }
}
