//! Where a file was bad, for the count of what was reached.

use super::{field, File, Kind, BUFFER, FIELDS, KINDS, NUMBERS};
use crate::numbers::MOST_NAMES;
use std::fmt;
use zelezmut::{FileField, FileLayout};

/// A field counts for all resources, pairs and tokens alike: it stands here by its place in a file with one of each.
#[derive(Clone, Copy, Debug, PartialEq, Eq, PartialOrd, Ord)]
pub enum Bad {
    Missing(Kind, usize),
    Breaks(Kind, usize),
    /// A byte follows the last field.
    GoesOn(Kind),
    /// The resource that has the field is the first, a later one, or the last that there may be.
    FirstRow,
    LaterRow,
    LastRow,
    /// The pair or token that has it is not the first.
    LaterPair,
    LaterToken,
}

/// What a field may be that has no rule.
const ANY: &str = "any number";

impl Bad {
    /// What there is to say of a file that is bad at this place.
    pub fn seen(file: &[u8], place: usize) -> Vec<Bad> {
        let (kind, layout) = (Kind::of(file), FileLayout::of(file));
        let field = match layout.field(place) {
            Some(field) => field,
            None => return vec![Bad::GoesOn(kind)],
        };
        let (class, of_part) = in_the_first(field);
        let class = with_one_of_each(kind).place(class).unwrap_or(0);
        let bad = if place + 4 > file.len() {
            Bad::Missing(kind, class)
        } else {
            Bad::Breaks(kind, class)
        };
        [bad].into_iter().chain(of_part).collect()
    }

    /// All that there is to meet.
    pub fn all() -> impl Iterator<Item = Bad> {
        let of_rows = [Bad::FirstRow, Bad::LaterRow, Bad::LastRow];
        let of_others = [Bad::LaterPair, Bad::LaterToken];
        let parts = of_rows.into_iter().chain(of_others);
        KINDS.into_iter().flat_map(Bad::all_of).chain(parts)
    }

    /// All fields of a kind of file, and of those with a rule that it is broken. A number that is missing or wrong makes an old file.
    fn all_of(kind: Kind) -> impl Iterator<Item = Bad> {
        let layout = with_one_of_each(kind);
        let numbered = 4 * usize::from(kind != Kind::Old);
        let places = (numbered..layout.end()).step_by(4);
        let ruled = places.clone().filter(move |&place| {
            let field = layout.field(place);
            field.map_or(false, |field| field.rule() != ANY)
        });
        places
            .map(move |place| Bad::Missing(kind, place))
            .chain(ruled.map(move |place| Bad::Breaks(kind, place)))
            .chain([Bad::GoesOn(kind)])
    }
}

/// The same field of the first resource, pair or token, and which one it was of.
fn in_the_first(field: FileField) -> (FileField, Option<Bad>) {
    let first = 0;
    match field {
        FileField::Resource { index, field } => {
            let of_row = match index {
                0 => Bad::FirstRow,
                last if last + 1 == MOST_NAMES => Bad::LastRow,
                _ => Bad::LaterRow,
            };
            let index = first;
            (FileField::Resource { index, field }, Some(of_row))
        }
        FileField::Name { index, field } => {
            let later = Some(Bad::LaterPair).filter(|_| index > first);
            let index = first;
            (FileField::Name { index, field }, later)
        }
        FileField::Token { index, field } => {
            let later = Some(Bad::LaterToken).filter(|_| index > first);
            let index = first;
            (FileField::Token { index, field }, later)
        }
        other => (other, None),
    }
}

/// Where a file of this kind has its fields that has one resource, one pair and one token.
fn with_one_of_each(kind: Kind) -> FileLayout {
    let mut row = [0; FIELDS];
    row[field::KIND] = BUFFER;
    let mut file = File::new([0; NUMBERS], vec![row]).into_kind(kind);
    if kind == Kind::Two {
        file.set_names(vec![[2, 1]]);
        file.set_tokens(vec![[1, 0, 0]]);
    }
    FileLayout::of(&file.bytes())
}

impl fmt::Display for Bad {
    fn fmt(&self, f: &mut fmt::Formatter<'_>) -> fmt::Result {
        let name = |kind: Kind, place| match with_one_of_each(kind).field(place) {
            Some(FileField::Resource { field, .. }) => field.to_string(),
            Some(field) => field.to_string(),
            None => "no field".to_string(),
        };
        match *self {
            Bad::Missing(kind, place) => write!(f, "{:?}, missing: {}", kind, name(kind, place)),
            Bad::Breaks(kind, place) => {
                write!(f, "{:?}, breaks its rule: {}", kind, name(kind, place))
            }
            Bad::GoesOn(kind) => write!(f, "{:?}, goes on", kind),
            Bad::FirstRow => write!(f, "in the first resource"),
            Bad::LaterRow => write!(f, "in a later resource"),
            Bad::LastRow => write!(f, "in the last of 64 resources"),
            Bad::LaterPair => write!(f, "in a later pair of names"),
            Bad::LaterToken => write!(f, "in a later token"),
        }
    }
}
