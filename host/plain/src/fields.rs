//! The fields of a saved file: u32 words, read one after the other.

use crate::bytes::{u32_at, whole};

/// The size of a field.
pub(crate) const FIELD: usize = 4;

/// What is wrong with a file: where its first bad field stands.
#[derive(Clone, Copy, Debug, PartialEq, Eq)]
pub(crate) struct Bad {
    /// The offset of a field that is missing or breaks a rule, or of a byte
    /// after the last field.
    pub(crate) place: usize,
}

/// A file and the place of its next field. A field cut short is missing.
#[derive(Clone, Copy, Debug)]
pub(crate) struct Fields<'f> {
    file: &'f [u8],
    place: usize,
}

impl<'f> Fields<'f> {
    /// The fields of this file, from its first.
    pub(crate) fn new(file: &'f [u8]) -> Fields<'f> {
        Fields { file, place: 0 }
    }

    /// What `read` makes of the next field; nothing if it is bad.
    pub(crate) fn next<T>(&mut self, read: impl FnOnce(u32) -> Option<T>) -> Result<T, Bad> {
        let bad = self.bad();
        let field = self.file.get(self.place..self.place + FIELD).ok_or(bad)?;
        self.place += FIELD;
        read(u32_at(field, 0)).ok_or(bad)
    }

    /// The next field, whatever it is.
    pub(crate) fn any(&mut self) -> Result<u32, Bad> {
        self.next(Some)
    }

    /// The next two fields, low half first, whatever they are.
    pub(crate) fn any_u64(&mut self) -> Result<u64, Bad> {
        let low = self.any()?;
        let high = self.any()?;
        Ok(whole(low, high))
    }

    /// The next field, which must be good in this sense.
    pub(crate) fn good(&mut self, is_good: impl FnOnce(u32) -> bool) -> Result<u32, Bad> {
        self.next(|value| if is_good(value) { Some(value) } else { None })
    }

    /// The next field, which must be at most this.
    pub(crate) fn at_most(&mut self, limit: u32) -> Result<u32, Bad> {
        self.good(|value| value <= limit)
    }

    /// The next field, which must be this.
    pub(crate) fn exactly(&mut self, expected: u32) -> Result<(), Bad> {
        self.good(|value| value == expected).map(|_| ())
    }

    /// The next fields, `count` of them, each of which must be 0.
    pub(crate) fn zeros(&mut self, count: usize) -> Result<(), Bad> {
        (0..count).try_for_each(|_| self.exactly(0))
    }

    /// The file's end, after which there must be no byte.
    pub(crate) fn end(&self) -> Result<(), Bad> {
        if self.place == self.file.len() {
            Ok(())
        } else {
            Err(self.bad())
        }
    }

    /// Bad at the next field.
    fn bad(&self) -> Bad {
        Bad { place: self.place }
    }
}

#[cfg(test)]
mod tests {
    use super::*;

    #[test]
    fn fields_follow_each_other_to_the_end() {
        let file = [1, 0, 0, 0, 2, 0, 0, 0x80, 3, 1, 0, 0, 0, 0, 0, 0, 9];
        let mut fields = Fields::new(&file);
        assert_eq!(fields.end(), Err(Bad { place: 0 }));
        assert_eq!(fields.any(), Ok(1));
        assert_eq!(fields.any_u64(), Ok(0x0000_0103_8000_0002));
        assert_eq!(fields.zeros(1), Ok(()));
        assert_eq!(fields.end(), Err(Bad { place: 16 }));
        assert_eq!(fields.any(), Err(Bad { place: 16 }));
        let mut fields = Fields::new(&file[..16]);
        assert_eq!(fields.zeros(0), Ok(()));
        assert_eq!(fields.at_most(1), Ok(1));
        assert_eq!(fields.exactly(0x8000_0002), Ok(()));
        assert_eq!(fields.good(|value| value == 0x103), Ok(0x103));
        assert_eq!(fields.next(|value| Some(value == 0)), Ok(true));
        assert_eq!(fields.end(), Ok(()));
    }

    #[test]
    fn a_bad_field_gives_its_own_place() {
        let file = [5, 0, 0, 0, 0, 0, 0, 0, 6, 0, 0];
        let second = Bad { place: 4 };
        for expected in [4, 6, u32::MAX] {
            assert_eq!(Fields::new(&file).exactly(expected), Err(Bad { place: 0 }));
        }
        assert_eq!(Fields::new(&file).at_most(4), Err(Bad { place: 0 }));
        assert_eq!(Fields::new(&file[..7]).any_u64(), Err(second));
        assert_eq!(Fields::new(&file[4..]).zeros(2), Err(second));
        assert_eq!(Fields::new(&[]).any(), Err(Bad { place: 0 }));
    }
}
