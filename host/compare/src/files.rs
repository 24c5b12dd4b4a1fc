//! Saved desks as numbers: drawn, put on either side of a rule, and written as bytes.

pub mod bad;
pub mod drawn;
pub mod good;
pub mod night;
pub mod shares;
pub mod twists;

use zelezmut::Form;

/// The fields of section 1 in form 1, by their place in it; form 2 has the detail before the memory's length.
pub mod number {
    pub const MAGIC: usize = 0;
    pub const VERSION: usize = 1;
    pub const FEATURES_LO: usize = 2;
    pub const FEATURES_HI: usize = 3;
    pub const RING_GPA_LO: usize = 4;
    pub const RING_GPA_HI: usize = 5;
    pub const RING_SIZE: usize = 6;
    pub const CONTROL: usize = 7;
    pub const FENCE_GPA_LO: usize = 8;
    pub const FENCE_GPA_HI: usize = 9;
    pub const COMPLETED_LO: usize = 10;
    pub const COMPLETED_HI: usize = 11;
    pub const IRQ_STATUS: usize = 12;
    pub const IRQ_ENABLE: usize = 13;
    pub const ERROR_CODE: usize = 14;
    pub const ERROR_FENCE_LO: usize = 15;
    pub const ERROR_FENCE_HI: usize = 16;
    pub const ERROR_COUNT: usize = 17;
    pub const MEMORY_LO: usize = 18;
    pub const MEMORY_HI: usize = 19;
    pub const DOORBELL: usize = 20;
}

/// The fields of a resource, by their place in its row.
pub mod field {
    pub const HANDLE: usize = 0;
    pub const KIND: usize = 1;
    pub const SIZE_LO: usize = 2;
    pub const SIZE_HI: usize = 3;
    pub const FORMAT: usize = 4;
    pub const WIDTH: usize = 5;
    pub const HEIGHT: usize = 6;
    pub const MIPS: usize = 7;
    pub const LAYERS: usize = 8;
    pub const PITCH: usize = 9;
    pub const BACKING_ID: usize = 10;
    pub const BACKING_OFFSET: usize = 11;
}

/// The bytes of a field, how many fields section 1 has in form 1, and how many resources, pairs of names and tokens have.
pub const FIELD: usize = 4;
pub const NUMBERS: usize = 21;
pub const FIELDS: usize = 12;
pub const NAME_FIELDS: usize = 2;
pub const TOKEN_FIELDS: usize = 3;

pub const BUFFER: u32 = 1;
pub const TEXTURE: u32 = 2;

pub type Row = [u32; FIELDS];

/// Another name, and the lowest name of its resource.
pub type Pair = [u32; NAME_FIELDS];

/// A token's halves, and the name that it is bound to; 0 if it is spent.
pub type Token = [u32; TOKEN_FIELDS];

/// The files that there are: old ones have no number.
#[derive(Clone, Copy, Debug, PartialEq, Eq, PartialOrd, Ord)]
pub enum Kind {
    Old,
    One,
    Two,
}

pub const KINDS: [Kind; 3] = [Kind::Old, Kind::One, Kind::Two];

impl Kind {
    /// What a file's first word says of it.
    pub fn of(bytes: &[u8]) -> Kind {
        match word(bytes, 0) {
            1 => Kind::One,
            2 => Kind::Two,
            _ => Kind::Old,
        }
    }

    /// The number that it begins with.
    pub fn number(self) -> Option<u32> {
        match self {
            Kind::Old => None,
            Kind::One => Some(1),
            Kind::Two => Some(2),
        }
    }

    pub fn form(self) -> Form {
        match self {
            Kind::Old | Kind::One => Form::One,
            Kind::Two => Form::Two,
        }
    }

    /// How many registers it has more than form 1.
    fn more(self) -> usize {
        usize::from(self == Kind::Two)
    }

    /// What section 1 counts.
    pub fn numbers(self) -> u32 {
        (NUMBERS + self.more()) as u32
    }
}

/// The word at a place, 0 if it is not all there.
fn word(bytes: &[u8], at: usize) -> u32 {
    let field = bytes.get(at..at + FIELD);
    field.map_or(0, |field| u32::from_le_bytes(field.try_into().unwrap()))
}

/// A file whose counts may say something else than what follows them. Only form 2 has detail, names and tokens.
#[derive(Clone, Debug)]
pub struct File {
    pub kind: Kind,
    pub numbers_said: u32,
    pub numbers: [u32; NUMBERS],
    pub detail: u32,
    pub rows_said: u32,
    pub rows: Vec<Row>,
    pub names_said: u32,
    pub names: Vec<Pair>,
    pub tokens_said: u32,
    pub tokens: Vec<Token>,
}

impl File {
    /// One of form 1 whose counts are right.
    pub fn new(numbers: [u32; NUMBERS], rows: Vec<Row>) -> File {
        File {
            kind: Kind::One,
            numbers_said: NUMBERS as u32,
            numbers,
            detail: 0,
            rows_said: rows.len() as u32,
            rows,
            names_said: 0,
            names: Vec::new(),
            tokens_said: 0,
            tokens: Vec::new(),
        }
    }

    /// The same, of another kind; what that has no fields for is gone.
    pub fn into_kind(mut self, kind: Kind) -> File {
        self.set_kind(kind);
        self
    }

    pub fn set_kind(&mut self, kind: Kind) {
        self.kind = kind;
        self.numbers_said = kind.numbers();
        if kind != Kind::Two {
            self.detail = 0;
            self.set_names(Vec::new());
            self.set_tokens(Vec::new());
        }
    }

    pub fn set_names(&mut self, names: Vec<Pair>) {
        self.names_said = names.len() as u32;
        self.names = names;
    }

    pub fn set_tokens(&mut self, tokens: Vec<Token>) {
        self.tokens_said = tokens.len() as u32;
        self.tokens = tokens;
    }

    /// What stands in the bytes of a good file; of others it is something.
    pub fn read(bytes: &[u8]) -> File {
        let kind = Kind::of(bytes);
        let mut file = File::new([0; NUMBERS], Vec::new()).into_kind(kind);
        for number in 0..NUMBERS {
            file.numbers[number] = word(bytes, file.number_at(number));
        }
        let most = |said: u32, size: usize| (bytes.len() / FIELD / size).min(said as usize);
        file.rows_said = word(bytes, file.rows_at());
        let rows = most(file.rows_said, FIELDS);
        file.rows = read_parts(bytes, file.field_at(0, 0), rows);
        if kind == Kind::Two {
            file.detail = word(bytes, file.detail_at());
            file.names_said = word(bytes, file.names_at());
            let names = most(file.names_said, NAME_FIELDS);
            file.names = read_parts(bytes, file.name_at(0, 0), names);
            file.tokens_said = word(bytes, file.tokens_at());
            let tokens = most(file.tokens_said, TOKEN_FIELDS);
            file.tokens = read_parts(bytes, file.token_at(0, 0), tokens);
        }
        file
    }

    pub fn bytes(&self) -> Vec<u8> {
        let (registers, rest) = self.numbers.split_at(number::MEMORY_LO);
        let mut words: Vec<u32> = self.kind.number().into_iter().collect();
        words.push(self.numbers_said);
        words.extend(registers);
        if self.kind == Kind::Two {
            words.push(self.detail);
        }
        words.extend(rest);
        words.push(self.rows_said);
        words.extend(self.rows.iter().flatten());
        if self.kind == Kind::Two {
            words.push(self.names_said);
            words.extend(self.names.iter().flatten());
            words.push(self.tokens_said);
            words.extend(self.tokens.iter().flatten());
        }
        words.into_iter().flat_map(u32::to_le_bytes).collect()
    }

    /// Where the sections begin, the first with its count.
    pub fn sections_at(&self) -> usize {
        FIELD * usize::from(self.kind != Kind::Old)
    }

    /// Where section 1 has this number.
    pub fn number_at(&self, number: usize) -> usize {
        let more = usize::from(number >= number::MEMORY_LO) * self.kind.more();
        self.sections_at() + FIELD * (1 + number + more)
    }

    /// Where form 2 has the detail.
    pub fn detail_at(&self) -> usize {
        self.number_at(number::ERROR_COUNT) + FIELD
    }

    /// Where section 2 has its count.
    pub fn rows_at(&self) -> usize {
        self.number_at(number::DOORBELL) + FIELD
    }

    /// Where a resource has this field.
    pub fn field_at(&self, row: usize, field: usize) -> usize {
        self.rows_at() + FIELD * (1 + FIELDS * row + field)
    }

    /// Where section 3 has its count, behind the resources that there are.
    pub fn names_at(&self) -> usize {
        self.field_at(self.rows.len(), 0)
    }

    /// Where a pair has this field.
    pub fn name_at(&self, pair: usize, field: usize) -> usize {
        self.names_at() + FIELD * (1 + NAME_FIELDS * pair + field)
    }

    /// Where section 4 has its count, behind the pairs that there are.
    pub fn tokens_at(&self) -> usize {
        self.name_at(self.names.len(), 0)
    }

    /// Where a token has this field.
    pub fn token_at(&self, token: usize, field: usize) -> usize {
        self.tokens_at() + FIELD * (1 + TOKEN_FIELDS * token + field)
    }

    /// The memory's length.
    pub fn memory(&self) -> u64 {
        self.long(number::MEMORY_LO)
    }

    pub fn set_memory(&mut self, memory: u64) {
        self.set_long(number::MEMORY_LO, memory);
    }

    /// The 64 bits whose low half is this number.
    pub fn long(&self, low: usize) -> u64 {
        u64::from(self.numbers[low]) | u64::from(self.numbers[low + 1]) << 32
    }

    pub fn set_long(&mut self, low: usize, value: u64) {
        self.numbers[low] = value as u32;
        self.numbers[low + 1] = (value >> 32) as u32;
    }
}

/// So many parts of a section, from a place on.
fn read_parts<const N: usize>(bytes: &[u8], at: usize, count: usize) -> Vec<[u32; N]> {
    let part = |part| {
        let mut fields = [0; N];
        for (i, field) in fields.iter_mut().enumerate() {
            *field = word(bytes, at + FIELD * (N * part + i));
        }
        fields
    };
    (0..count).map(part).collect()
}

#[cfg(test)]
mod tests {
    use super::*;
    use crate::random::Random;
    use zelezmut::{registers, FileField, FileLayout};
    use zelezmut::{NameField, ResourceField, TokenField};

    #[test]
    fn what_is_written_is_read() {
        let mut random = Random::new(11);
        for _ in 0..200 {
            let file = good::some_file(&mut random);
            assert_eq!(File::read(&file.bytes()).bytes(), file.bytes());
        }
    }

    /// The crate's table of the forms has its fields where this one has them.
    #[test]
    fn fields_stand_where_the_crate_says() {
        let mut random = Random::new(12);
        for _ in 0..200 {
            let file = good::some_file(&mut random);
            let layout = FileLayout::of(&file.bytes());
            let is_at = |at: usize, field| assert_eq!(layout.field(at), Some(field));
            for (number, offset) in [
                (number::MAGIC, registers::MAGIC),
                (number::CONTROL, registers::CONTROL),
                (number::IRQ_STATUS, registers::IRQ_STATUS),
                (number::ERROR_CODE, registers::ERROR_CODE),
                (number::ERROR_COUNT, registers::ERROR_COUNT),
            ] {
                is_at(file.number_at(number), FileField::Register(offset));
            }
            is_at(file.number_at(number::MEMORY_LO), FileField::MemoryLo);
            is_at(file.number_at(number::DOORBELL), FileField::Doorbell);
            is_at(file.rows_at(), FileField::ResourceCount);
            if let Some(index) = file.rows.len().checked_sub(1) {
                let field = ResourceField::Pitch;
                let pitch = FileField::Resource { index, field };
                is_at(file.field_at(index, field::PITCH), pitch);
            }
            if file.kind == Kind::Two {
                shares_stand_where_the_crate_says(&file, layout);
            }
        }
    }

    fn shares_stand_where_the_crate_says(file: &File, layout: FileLayout) {
        let is_at = |at: usize, field| assert_eq!(layout.field(at), Some(field));
        let detail = FileField::Register(registers::ERROR_DETAIL);
        is_at(file.detail_at(), detail);
        is_at(file.names_at(), FileField::NameCount);
        is_at(file.tokens_at(), FileField::TokenCount);
        if let Some(index) = file.names.len().checked_sub(1) {
            let field = NameField::Lowest;
            is_at(file.name_at(index, 1), FileField::Name { index, field });
        }
        if let Some(index) = file.tokens.len().checked_sub(1) {
            let field = TokenField::Name;
            is_at(file.token_at(index, 2), FileField::Token { index, field });
        }
    }
}
