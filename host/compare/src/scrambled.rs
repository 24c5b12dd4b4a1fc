//! One desk on two memories (wish 12): as drawn, and with every byte that the next submission does not list scrambled before it is
//! opened. All that can be seen of the two fronts but memory must be equal after each call, and bytes that agreed must agree still.
//!
//! A call is cut at some settlings, and the bytes are scrambled anew there. Where it is not cut, it goes on beyond the settling on memories
//! that agree on what each of its openings lists.

mod leftovers;
mod memories;
mod reached;
mod scout;

use crate::front::{Ended, Front};
use crate::generator::Drawn;
use crate::player::{equal_fronts, same, Difference, Said, Seat};
use crate::random::Random;
pub use leftovers::{Leftover, LEFTOVERS};
use memories::{agreeing, scrambled, still_agree};
use plain::listed::{Field, Layout};
pub use reached::{Reached, Told};
use scout::{Opening, Scout, Stretch};
use std::collections::BTreeSet;
use std::ops::Range;
use zelezmut::registers::{ERROR_CODE, ERROR_COUNT};
use zelezmut::script::Operation;
use zelezmut::{Form, HostAnswer};

/// The fields that are listed of each layout: [`plain::listed::fields`], or fewer.
pub type Fields<'f> = &'f dyn Fn(Layout) -> &'f [Field];

/// Plays operations of a drawn desk on both memories.
pub fn play<F: Front>(
    drawn: &Drawn,
    operations: &[Operation],
    fields: Fields<'_>,
) -> Result<Told, Difference> {
    let mut pair = Pair::<F>::new(drawn, fields);
    for (at, operation) in operations.iter().enumerate() {
        pair.play(operation)
            .map_err(|difference| difference.at(at))?;
    }
    Ok(pair.told)
}

/// Two desks that were told the same, with the memories that they are lent.
struct Pair<'f, F> {
    drawn: Seat<F>,
    scrambled: Seat<F>,
    /// Plays ahead of both.
    scout: Scout<'f>,
    random: Random,
    /// Where the later steps of the submission opened last look.
    ahead: Vec<Range<usize>>,
    /// Where the memories have differed since its opening.
    differed: BTreeSet<Leftover>,
    told: Told,
}

/// A part of a call that is played in one go.
#[derive(Default)]
struct Piece<'s> {
    units: u16,
    openings: Vec<&'s Opening>,
    /// It begins within a submission, which reads on: no byte may be scrambled before it.
    in_work: bool,
}

impl<'f, F: Front> Pair<'f, F> {
    fn new(drawn: &Drawn, fields: Fields<'f>) -> Pair<'f, F> {
        Pair {
            drawn: Seat::new(drawn.memory),
            scrambled: Seat::new(drawn.memory),
            scout: Scout::new(drawn.memory, fields),
            random: Random::new(!drawn.seed),
            ahead: Vec::new(),
            differed: BTreeSet::new(),
            told: Told::default(),
        }
    }

    fn play(&mut self, operation: &Operation) -> Result<(), Difference> {
        let error = self.error();
        match *operation {
            Operation::Run { allowance } => {
                let stretches = self.scout.run(allowance);
                self.in_pieces(None, allowance, &stretches)?;
            }
            Operation::Answer { answer, allowance } => {
                let stretches = self.scout.answer(answer, allowance);
                self.in_pieces(Some(answer), allowance, &stretches)?;
            }
            _ => {
                self.scout.play(operation);
                self.both(operation)?;
            }
        }
        match operation {
            Operation::Poke { .. } => self.agree_ahead(),
            // Its error came from a file: no submission made it.
            Operation::Load { .. } => {}
            _ if self.error() != error => {
                self.told.errors.insert(self.error().1);
            }
            _ => {}
        }
        Ok(())
    }

    /// The count of errors and the last one.
    fn error(&self) -> (u32, u32) {
        let [count, code] = [ERROR_COUNT, ERROR_CODE].map(|offset| self.drawn.front.read(offset).1);
        (count, code)
    }

    /// Plays a run, or an answer and the run behind it, that goes over these stretches.
    fn in_pieces(
        &mut self,
        mut answer: Option<HostAnswer>,
        mut allowance: u16,
        stretches: &[Stretch],
    ) -> Result<(), Difference> {
        let pieces = self.pieces(answer.is_some(), stretches);
        let last = pieces.len() - 1;
        for (i, piece) in pieces.into_iter().enumerate() {
            self.scramble(&piece.openings);
            let lent = if i == last { allowance } else { piece.units };
            let operation = match answer.take() {
                Some(answer) => Operation::Answer {
                    answer,
                    allowance: lent,
                },
                None => Operation::Run { allowance: lent },
            };
            let said = self.both(&operation)?;
            self.ran(&said, piece.units)?;
            allowance -= piece.units;
        }
        Ok(())
    }

    /// Cuts a call at some of the settlings in it. An answer settles and reads nothing.
    fn pieces<'s>(&mut self, answered: bool, stretches: &'s [Stretch]) -> Vec<Piece<'s>> {
        let mut pieces = Vec::new();
        let mut piece = Piece::default();
        let mut is_empty = !answered;
        for stretch in stretches {
            if !is_empty && (piece.in_work || self.random.coin()) {
                pieces.push(piece);
                piece = Piece::default();
                is_empty = true;
            }
            self.told.beyond += u64::from(!is_empty);
            piece.in_work = stretch.opening.is_none();
            piece.units += stretch.units;
            piece.openings.extend(&stretch.opening);
            is_empty = false;
        }
        pieces.push(piece);
        pieces
    }

    /// Scrambles the second memory, but for what these openings list of the first.
    fn scramble(&mut self, openings: &[&Opening]) {
        let opened_last = match openings.last() {
            Some(opening) => opening,
            None => return,
        };
        let listed: Vec<Range<usize>> = openings
            .iter()
            .flat_map(|opening| opening.listed.iter().cloned())
            .collect();
        let memory = &self.drawn.memory;
        self.scrambled.memory = scrambled(&mut self.random, memory, &listed);
        self.told.openings += openings.len() as u64;
        self.ahead = opened_last.parts.ahead.clone();
        let leftovers = opened_last.parts.leftovers.iter();
        self.differed = leftovers
            .filter(|(_, range)| memory[range.clone()] != self.scrambled.memory[range.clone()])
            .map(|(leftover, _)| *leftover)
            .collect();
    }

    /// A guest that writes into a table or stream in work may turn any byte there into one that is listed: those agree from then on.
    fn agree_ahead(&mut self) {
        if self.scout.is_at_rest() {
            return;
        }
        self.told.overwritten += 1;
        self.differed.clear();
        for range in &self.ahead {
            let range = range.clone();
            self.scrambled.memory[range.clone()].copy_from_slice(&self.drawn.memory[range]);
        }
    }

    /// Plays an operation on both and compares all that can be seen but memory; of memory, the bytes that agreed.
    fn both(&mut self, operation: &Operation) -> Result<Said, Difference> {
        let agreed = agreeing(&self.drawn.memory, &self.scrambled.memory);
        let (said, other) = (self.drawn.play(operation), self.scrambled.play(operation));
        if said != other {
            let of = "what the call said".to_string();
            return Err(Difference::between(of, said, other));
        }
        if said != Said::Nothing {
            // Form 2 has all that there is of a desk at rest.
            equal_fronts(&[Form::Two], &self.drawn.front, &self.scrambled.front)?;
        }
        still_agree(&agreed, &self.drawn.memory, &self.scrambled.memory)?;
        Ok(said)
    }

    /// A run spent the units that it was to spend, and may have come upon a submission that waits.
    fn ran(&mut self, said: &Said, units: u16) -> Result<(), Difference> {
        if let Said::Ran(ran) | Said::Answered(ran) = *said {
            let of = || "the units spent, and those of the plain program".to_string();
            same(of, ran.units, units)?;
            if ran.ended == Ended::Waiting && units > 0 {
                self.told.leftovers.append(&mut self.differed);
            }
        }
        Ok(())
    }
}
