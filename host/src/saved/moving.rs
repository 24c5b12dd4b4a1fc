//! The move of a saved desk from one form to the other. It is about files alone: no desk is asked or changed.
use super::bad_file::BAD_FILE;
use super::{BadFile, LONGEST_SAVED_DESK};
use crate::answers::none_of_ours;
use crate::front;
use std::error::Error;
use std::fmt;

/// Why a file was not moved to the other form. Nothing was written.
///
/// The three come in this order: a bad file is told first, and that the buffer is too short last.
#[derive(Clone, Copy, Debug, PartialEq, Eq, Hash)]
pub enum NotMoved {
    /// The file is no saved desk.
    BadFile(BadFile),
    /// The file is of form 2 and has what form 1 has no field for: another name, a token, or an error detail that is not 0.
    NotInForm,
    /// The lent buffer is shorter than the moved file.
    TooShort,
}

impl NotMoved {
    /// The call answer of document 02: 7, 8 or 6.
    #[inline]
    pub fn number(self) -> u32 {
        match self {
            NotMoved::BadFile(bad) => bad.number(),
            NotMoved::NotInForm => NOT_IN_FORM,
            NotMoved::TooShort => TOO_SHORT,
        }
    }
}

const NOT_IN_FORM: u32 = 8;
const TOO_SHORT: u32 = 6;

impl fmt::Display for NotMoved {
    fn fmt(&self, f: &mut fmt::Formatter<'_>) -> fmt::Result {
        match self {
            NotMoved::BadFile(bad) => bad.fmt(f),
            NotMoved::NotInForm => f.write_str(
                "the file is of form 2, and form 1 has no field for its other names, its tokens or its error's detail",
            ),
            NotMoved::TooShort => f.write_str("the buffer is too short for the moved file"),
        }
    }
}

impl Error for NotMoved {
    fn source(&self) -> Option<&(dyn Error + 'static)> {
        match self {
            NotMoved::BadFile(bad) => Some(bad),
            NotMoved::NotInForm | NotMoved::TooShort => None,
        }
    }
}

impl From<BadFile> for NotMoved {
    fn from(bad: BadFile) -> NotMoved {
        NotMoved::BadFile(bad)
    }
}

/// A saved desk in the other form: one of form 1 in form 2, and one of form 2 in form 1. An old file, which does not begin with its number, is
/// of form 1 and moves to form 2. Loading either file gives the same desk.
///
/// Every file of form 1 moves to form 2, and back to equal bytes; an old file comes back with its number before it.
///
/// # Errors
/// What is wrong with the file, if it is no saved desk; else [`NotMoved::NotInForm`] if form 1 has no field for what the file has.
///
/// # Panics
/// As [`Desk::new`](crate::Desk::new) does.
///
/// ```
/// use zelezmut::saved::{self, NotMoved};
/// use zelezmut::{Desk, Form};
///
/// let desk = Desk::new(4096);
/// let file = desk.save()?;
/// let moved = saved::move_form(&file)?;
/// assert_eq!(Ok(&moved), desk.save_as(Form::Two).as_ref());
/// assert_eq!(saved::move_form(&moved)?, file);
///
/// // A file from before there were numbers: the same without the first four bytes.
/// let old = &file[4..];
/// assert_eq!(saved::move_form(old)?, moved);
///
/// match saved::move_form(&file[..50]) {
///     Err(NotMoved::BadFile(bad)) => {
///         assert_eq!(bad.to_string(), "a field is missing at byte 48, register 130 (COMPLETED_FENCE_LO)");
///     }
///     other => panic!("it is cut: {:?}", other),
/// }
/// # Ok::<(), Box<dyn std::error::Error>>(())
/// ```
pub fn move_form(file: &[u8]) -> Result<Vec<u8>, NotMoved> {
    let mut buffer = [0; LONGEST_SAVED_DESK];
    let length = move_form_into(file, &mut buffer)?;
    Ok(buffer[..length].to_vec())
}

/// As [`move_form`] does, into a lent buffer: how many bytes the moved file has, from the buffer's first on. Later bytes are kept. A buffer of
/// [`LONGEST_SAVED_DESK`] bytes is never too short. It allocates nothing unless the file is bad.
///
/// # Errors
/// Those of [`move_form`], then [`NotMoved::TooShort`] if the buffer is shorter than the moved file. The buffer is untouched then.
///
/// # Panics
/// As [`Desk::new`](crate::Desk::new) does.
pub fn move_form_into(file: &[u8], buffer: &mut [u8]) -> Result<usize, NotMoved> {
    match front::move_form(file, buffer) {
        (0, length) => Ok(length as usize),
        (answer, _) => Err(not_moved(answer, file)),
    }
}

/// By itself and cold. A move does not say where a file is bad: a load does.
#[cold]
fn not_moved(answer: u32, file: &[u8]) -> NotMoved {
    match answer {
        BAD_FILE => match BadFile::from_front(front::load(&mut front::make(0), file), file) {
            Err(bad) => NotMoved::BadFile(bad),
            Ok(()) => none_of_ours("move of a good file", answer.into()),
        },
        NOT_IN_FORM => NotMoved::NotInForm,
        TOO_SHORT => NotMoved::TooShort,
        _ => none_of_ours("answer to a move", answer.into()),
    }
}

#[cfg(test)]
mod tests {
    use super::*;
    use crate::answers::Refused;

    #[test]
    fn the_numbers_are_those_of_a_saves_answers() {
        assert_eq!(Refused::NotInForm.number(), Some(NOT_IN_FORM));
        assert_eq!(Refused::TooShort.number(), Some(TOO_SHORT));
        let bad = BadFile::GoesOn { place: 96 };
        let all = [NotMoved::from(bad), NotMoved::NotInForm, NotMoved::TooShort];
        assert_eq!(all.map(NotMoved::number), [7, 8, 6]);
    }

    #[test]
    fn why_it_was_not_moved_is_told_in_words() {
        let bad = BadFile::GoesOn { place: 96 };
        assert_eq!(NotMoved::from(bad).to_string(), bad.to_string());
        assert!(NotMoved::NotInForm
            .to_string()
            .contains("form 1 has no field"));
        assert!(NotMoved::TooShort.to_string().contains("too short"));
        assert!(NotMoved::from(bad).source().is_some());
        assert!(NotMoved::TooShort.source().is_none());
    }

    #[test]
    #[should_panic(expected = "no answer to a move of number 5")]
    fn another_answer_is_another_library() {
        not_moved(5, &[]);
    }
}
