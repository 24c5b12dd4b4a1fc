//! What there is to see of an answer and the run behind it, for the count of what was reached.

use crate::detail::Errors;
use crate::front::{Ended, Ran};
use crate::player::Said;
use zelezmut::script::Operation;
use zelezmut::HostAnswer;

#[derive(Clone, Copy, Debug, PartialEq, Eq, PartialOrd, Ord)]
pub enum Carried {
    /// The answer was taken, and there was no allowance to run with.
    NoAllowance,
    /// It was taken, and units were spent behind it.
    UnitsAfterGood,
    UnitsAfterFailed,
    /// It was taken with an allowance, and how the run ended: at the next submission that waits, in the midst of one or before
    /// it, with nothing left to do, or disabled, before its first unit.
    WaitingAgain,
    Paused,
    Idle,
    Disabled,
    /// The run met an error of its own: a refusal, or a bad ring.
    ErrorInTheRun,
    /// It was refused, though it came with an allowance: over another memory, or because nothing waited.
    OtherMemory,
    NothingWaits,
}

pub const CARRIED: [Carried; 10] = [
    Carried::NoAllowance,
    Carried::UnitsAfterGood,
    Carried::UnitsAfterFailed,
    Carried::WaitingAgain,
    Carried::Paused,
    Carried::Idle,
    Carried::Disabled,
    Carried::ErrorInTheRun,
    Carried::OtherMemory,
    Carried::NothingWaits,
];

/// What an answer shows that finds one of these and leaves the other; nothing if the operation is none.
pub fn seen(operation: &Operation, said: &Said, before: Errors, after: Errors) -> Vec<Carried> {
    let (answer, allowance) = match *operation {
        Operation::Answer { answer, allowance }
        | Operation::AnswerElsewhere {
            answer, allowance, ..
        } => (answer, allowance),
        _ => return Vec::new(),
    };
    let ran = match said {
        Said::Answered(ran) | Said::AnsweredElsewhere(ran, _) => *ran,
        _ => return Vec::new(),
    };
    match (ran.answer, allowance) {
        (0, 0) => vec![Carried::NoAllowance],
        (0, _) => {
            let own = u32::from(answer == HostAnswer::Failed);
            let in_the_run = after.count.wrapping_sub(before.count) > own;
            [Some(ended(ran)), units(answer, ran)]
                .into_iter()
                .flatten()
                .chain(in_the_run.then_some(Carried::ErrorInTheRun))
                .collect()
        }
        (_, 0) => Vec::new(),
        (1, _) => vec![Carried::OtherMemory],
        _ => vec![Carried::NothingWaits],
    }
}

fn ended(ran: Ran) -> Carried {
    match ran.ended {
        Ended::Waiting => Carried::WaitingAgain,
        Ended::Paused => Carried::Paused,
        Ended::Idle if ran.units == 0 => Carried::Disabled,
        Ended::Idle => Carried::Idle,
    }
}

fn units(answer: HostAnswer, ran: Ran) -> Option<Carried> {
    match answer {
        _ if ran.units == 0 => None,
        HostAnswer::Good => Some(Carried::UnitsAfterGood),
        HostAnswer::Failed => Some(Carried::UnitsAfterFailed),
    }
}
