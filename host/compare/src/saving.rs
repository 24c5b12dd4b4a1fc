//! What there is to see of saves and loads in a desk, for the count of what was reached.

use crate::detail::Errors;
use crate::files::{File, Kind};
use crate::front::Front;
use crate::numbers::{MOST_NAMES, MOST_TOKENS};
use crate::player::Said;
use zelezmut::registers::{COMPLETED_FENCE_HI, COMPLETED_FENCE_LO};
use zelezmut::script::Operation;
use zelezmut::Form;

#[derive(Clone, Copy, Debug, PartialEq, Eq, PartialOrd, Ord)]
pub enum Saving {
    /// The buffer is as long as the file, or longer; or it is one byte too short, or empty.
    Exact(Form2),
    Longer(Form2),
    OneShort(Form2),
    NoBuffer(Form2),
    /// Two reasons not to save: 5 beside one for 8, 5 beside 6, 8 beside 6.
    InWorkBeforeForm,
    InWorkBeforeShort(Form2),
    FormBeforeShort,
    /// 8 for each of its reasons, and for no other; and form 2, which has fields for each.
    FormForTokens,
    FormForNames,
    FormForDetail,
    SavedTokens,
    SavedNames,
    SavedDetail,
    /// A good file of each kind; and what it had that form 1 has no field for.
    LoadedKind(Kind),
    LoadedTokens,
    LoadedNames,
    LoadedDetail,
    /// A good file, while a submission is in work, or while form 1 has no field for what there is.
    LoadedInWork,
    LoadedOverTokens,
    LoadedOverDetail,
    /// A bad file while a submission is in work.
    RefusedInWork,
    /// The completed fence is lower after it, or higher.
    LowerFence,
    HigherFence,
    /// The device is for another memory than the one lent from then on, and a call says so.
    OtherMemory,
    RanOverOtherMemory,
    /// No resources, as many as there may be, as many with other names among them, and as many tokens.
    Empty,
    Full,
    FullOfNames,
    FullOfTokens,
    /// A submission came to wait on a device that was loaded.
    WorkedOn,
    /// A file of each kind was moved; was not, for each of the reasons alone; or for the first of two.
    Moved(Kind),
    NotMovedForTokens,
    NotMovedForNames,
    NotMovedForDetail,
    NotMovedFormBeforeShort,
    NotMovedBadBeforeShort,
    /// The moved file just fits; or does not, and not for want of any buffer.
    MovedExact,
    MovedTooShort,
}

/// Whether it is form 2.
pub type Form2 = bool;

pub const SAVINGS: [Saving; 47] = [
    Saving::Exact(false),
    Saving::Longer(false),
    Saving::OneShort(false),
    Saving::NoBuffer(false),
    Saving::InWorkBeforeShort(false),
    Saving::Exact(true),
    Saving::Longer(true),
    Saving::OneShort(true),
    Saving::NoBuffer(true),
    Saving::InWorkBeforeShort(true),
    Saving::InWorkBeforeForm,
    Saving::FormBeforeShort,
    Saving::FormForTokens,
    Saving::FormForNames,
    Saving::FormForDetail,
    Saving::SavedTokens,
    Saving::SavedNames,
    Saving::SavedDetail,
    Saving::LoadedKind(Kind::Old),
    Saving::LoadedKind(Kind::One),
    Saving::LoadedKind(Kind::Two),
    Saving::LoadedTokens,
    Saving::LoadedNames,
    Saving::LoadedDetail,
    Saving::LoadedInWork,
    Saving::LoadedOverTokens,
    Saving::LoadedOverDetail,
    Saving::RefusedInWork,
    Saving::LowerFence,
    Saving::HigherFence,
    Saving::OtherMemory,
    Saving::RanOverOtherMemory,
    Saving::Empty,
    Saving::Full,
    Saving::FullOfNames,
    Saving::FullOfTokens,
    Saving::WorkedOn,
    Saving::Moved(Kind::Old),
    Saving::Moved(Kind::One),
    Saving::Moved(Kind::Two),
    Saving::NotMovedForTokens,
    Saving::NotMovedForNames,
    Saving::NotMovedForDetail,
    Saving::NotMovedFormBeforeShort,
    Saving::NotMovedBadBeforeShort,
    Saving::MovedExact,
    Saving::MovedTooShort,
];

const DONE: u32 = 0;
const IN_WORK: u32 = 5;
const TOO_SHORT: u32 = 6;
const BAD_FILE: u32 = 7;
const NOT_IN_FORM: u32 = 8;

/// What of a device says whether it can be saved, and what a load changes.
#[derive(Clone, Copy, Debug, Default)]
pub struct Kept {
    in_work: bool,
    detail: bool,
    resources: usize,
    others: usize,
    tokens: usize,
    completed: u64,
    /// The device was loaded, by a file for another memory than there is.
    pub loaded: bool,
    pub elsewhere: bool,
}

impl Kept {
    /// As it is now; whether it was loaded is as it was before.
    pub fn of<F: Front>(front: &F, before: Kept) -> Kept {
        let value = |offset| u64::from(front.read(offset).1);
        let names = front.names();
        let lowest = names.iter().filter(|(name, lowest)| name == lowest);
        let resources = lowest.count();
        Kept {
            in_work: front.save(Form::One, &mut []).0 == IN_WORK,
            detail: Errors::of(front).detail != 0,
            resources,
            others: names.len() - resources,
            tokens: front.tokens().len(),
            completed: value(COMPLETED_FENCE_LO) | value(COMPLETED_FENCE_HI) << 32,
            ..before
        }
    }

    /// The bytes of the file that it is saved as.
    fn file(&self, form: Form) -> usize {
        let shared = 12 + 8 * self.others + 12 * self.tokens;
        96 + 48 * self.resources + if form == Form::Two { shared } else { 0 }
    }

    /// What form 1 has no field for: tokens, other names, and a detail.
    fn beyond(&self) -> [bool; 3] {
        [self.tokens > 0, self.others > 0, self.detail]
    }
}

/// What an operation shows that finds one of these and leaves the other, with so many bytes of memory.
pub fn seen(
    operation: &Operation,
    said: &Said,
    (before, after): (Kept, Kept),
    memory: usize,
) -> Vec<Saving> {
    match (operation, said) {
        (_, Said::Saved(form, answer, _, buffer)) => saved(before, *form, *answer, buffer.len()),
        (Operation::Load { file }, Said::Loaded(DONE, _)) => {
            loaded(before, after, &File::read(file), memory)
        }
        (_, Said::Loaded(..)) if before.in_work => vec![Saving::RefusedInWork],
        (Operation::Move { file, .. }, Said::Moved(answer, length, buffer)) => {
            moved(&File::read(file), *answer, (*length, buffer.len()))
        }
        (_, Said::Ran(ran) | Said::Answered(ran)) if before.elsewhere && ran.answer == 1 => {
            vec![Saving::RanOverOtherMemory]
        }
        _ => Vec::new(),
    }
}

fn saved(kept: Kept, form: Form, answer: u32, buffer: usize) -> Vec<Saving> {
    let (file, two) = (kept.file(form), form == Form::Two);
    let (short, beyond) = (buffer < file, kept.beyond());
    let done = answer == DONE;
    let not_short = answer == TOO_SHORT;
    let not_in_form = answer == NOT_IN_FORM;
    let [tokens, names, detail] = beyond;
    only(&[
        (done && buffer == file, Saving::Exact(two)),
        (done && buffer > file, Saving::Longer(two)),
        (not_short && buffer + 1 == file, Saving::OneShort(two)),
        (not_short && buffer == 0, Saving::NoBuffer(two)),
        (answer == IN_WORK && short, Saving::InWorkBeforeShort(two)),
        (
            answer == IN_WORK && !two && beyond != [false; 3],
            Saving::InWorkBeforeForm,
        ),
        (not_in_form && short, Saving::FormBeforeShort),
        (not_in_form && !names && !detail, Saving::FormForTokens),
        (not_in_form && !tokens && !detail, Saving::FormForNames),
        (not_in_form && !tokens && !names, Saving::FormForDetail),
        (done && tokens, Saving::SavedTokens),
        (done && names, Saving::SavedNames),
        (done && detail, Saving::SavedDetail),
    ])
}

fn loaded(before: Kept, after: Kept, file: &File, memory: usize) -> Vec<Saving> {
    let names = file.rows.len() + file.names.len();
    let [tokens, others, detail] = after.beyond();
    only(&[
        (true, Saving::LoadedKind(file.kind)),
        (tokens, Saving::LoadedTokens),
        (others, Saving::LoadedNames),
        (detail, Saving::LoadedDetail),
        (before.in_work, Saving::LoadedInWork),
        (before.tokens > 0, Saving::LoadedOverTokens),
        (before.detail, Saving::LoadedOverDetail),
        (after.completed < before.completed, Saving::LowerFence),
        (after.completed > before.completed, Saving::HigherFence),
        (file.memory() != memory as u64, Saving::OtherMemory),
        (file.rows.is_empty(), Saving::Empty),
        (file.rows.len() == MOST_NAMES, Saving::Full),
        (others && names == MOST_NAMES, Saving::FullOfNames),
        (file.tokens.len() == MOST_TOKENS, Saving::FullOfTokens),
    ])
}

fn moved(file: &File, answer: u32, (length, buffer): (usize, usize)) -> Vec<Saving> {
    let (tokens, names) = (!file.tokens.is_empty(), !file.names.is_empty());
    let detail = file.detail != 0;
    let not_in_form = answer == NOT_IN_FORM;
    let in_form_1 = file.clone().into_kind(Kind::One);
    let short = buffer < in_form_1.bytes().len();
    only(&[
        (answer == DONE, Saving::Moved(file.kind)),
        (not_in_form && !names && !detail, Saving::NotMovedForTokens),
        (not_in_form && !tokens && !detail, Saving::NotMovedForNames),
        (not_in_form && !tokens && !names, Saving::NotMovedForDetail),
        (not_in_form && short, Saving::NotMovedFormBeforeShort),
        (answer == BAD_FILE && short, Saving::NotMovedBadBeforeShort),
        (answer == DONE && length == buffer, Saving::MovedExact),
        (answer == TOO_SHORT && buffer > 0, Saving::MovedTooShort),
    ])
}

fn only(told: &[(bool, Saving)]) -> Vec<Saving> {
    let so = told.iter().filter(|(is_so, _)| *is_so);
    so.map(|(_, saving)| *saving).collect()
}
