//! One desk in two slicings: a run on one front, by itself or behind an answer, on the other its units in random slices. Both must
//! come to the same.

use crate::front::{Ended, Front, Ran};
use crate::player::{equal, step, Difference, Seat};
use crate::random::Random;
use zelezmut::script::Operation;
use zelezmut::HostAnswer;

/// Plays operations on both fronts, each run sliced on the second.
pub fn play_sliced<W: Front, S: Front>(
    random: &mut Random,
    memory: u32,
    operations: &[Operation],
) -> Result<u64, Difference> {
    let (mut whole, mut sliced) = (Seat::<W>::new(memory), Seat::<S>::new(memory));
    let mut slices = 0;
    for (at, operation) in operations.iter().enumerate() {
        let played = match *operation {
            Operation::Run { allowance } => {
                let ran = whole.front.run(&mut whole.memory, allowance);
                slices += 1;
                in_slices(random, &mut sliced, ran, None, &mut slices)
                    .and_then(|()| equal(&whole, &sliced))
            }
            Operation::Answer { answer, allowance } => {
                let good = answer == HostAnswer::Good;
                let ran = whole.front.answer(&mut whole.memory, good, allowance);
                slices += 1;
                in_slices(random, &mut sliced, ran, Some(good), &mut slices)
                    .and_then(|()| equal(&whole, &sliced))
            }
            _ => step(&mut whole, &mut sliced, operation).map(|_| ()),
        };
        played.map_err(|difference| difference.at(at))?;
    }
    Ok(slices)
}

/// Spends the units of a run in slices, the first of them behind the answer if there was one. Since the run spent them without a
/// stop, each slice spends its whole allowance, and the last one ends as the run did. A refused call is one slice without a unit.
fn in_slices<S: Front>(
    random: &mut Random,
    seat: &mut Seat<S>,
    run: Ran,
    mut answer: Option<bool>,
    slices: &mut u64,
) -> Result<(), Difference> {
    let mut left = run.units;
    loop {
        let longest = if random.coin() { left } else { left.min(5) };
        let allowance = random.within(0..=longest.into()) as u16;
        let ran = match answer.take() {
            Some(good) => seat.front.answer(&mut seat.memory, good, allowance),
            None => seat.front.run(&mut seat.memory, allowance),
        };
        *slices += 1;
        left -= allowance;
        let last = left == 0;
        let expected = if last {
            run
        } else {
            Ran {
                answer: 0,
                units: 0,
                ended: Ended::Paused,
            }
        };
        let expected = Ran {
            units: allowance,
            ..expected
        };
        if ran != expected {
            return Err(Difference::between(
                format!("a slice of {} units", allowance),
                expected,
                ran,
            ));
        }
        if last {
            return Ok(());
        }
    }
}
