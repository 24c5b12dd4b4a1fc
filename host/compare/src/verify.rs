//! What is measured comes to the same on both fronts: units, what calls say, registers, records, names, tokens, memory and listings.

use crate::bench::Bench;
use crate::cases::{Case, Mode};
use crate::listings::{Listing, Listings};
use crate::measures::{Ready, Task};
use crate::player::{equal, Difference};

/// Some rounds of a task on both fronts, one of them only made ready.
pub fn verify(task: Task) -> Result<(), Difference> {
    match task {
        Task::Published(case, mode) => equal_while_waiting(case, mode)?,
        Task::Submission(case) | Task::Night(case, _) => equal_while_waiting(case, Mode::Whole)?,
        Task::Call(_) => {}
        Task::List(listing) => equal_listings(listing)?,
    }
    let rounds = [true, true, false, true];
    let mut proved = Ready::<zelezmut::Desk>::new(task, rounds.len());
    let mut plain = Ready::<plain::Desk>::new(task, rounds.len());
    let said = (proved.pieces(), proved.play(&rounds));
    let other = (plain.pieces(), plain.play(&rounds));
    if said != other {
        let of = "pieces and the sum of what was said".to_string();
        return Err(Difference::between(of, said, other));
    }
    proved
        .benches()
        .iter()
        .zip(plain.benches())
        .try_for_each(|(one, other)| equal(&one.seat, &other.seat))
}

/// The texts themselves: a count of lengths alone would be too little.
fn equal_listings(listing: Listing) -> Result<(), Difference> {
    let Listings { stream, packets } = Listings::new(listing);
    let proved = zelezmut::dump::text(&stream, false);
    let plain = plain::dump::dump(&stream, false);
    if proved != plain || plain.lines().count() as u64 != packets {
        let of = "a stream's listing".to_string();
        return Err(Difference::between(of, proved, plain));
    }
    Ok(())
}

/// The inputs, and the records that a submission waits with.
fn equal_while_waiting(case: Case, mode: Mode) -> Result<(), Difference> {
    let mut proved = Bench::<zelezmut::Desk>::new(case);
    let mut plain = Bench::<plain::Desk>::new(case);
    equal(&proved.seat, &plain.seat)?;
    proved.arm();
    plain.arm();
    proved.run_until_waiting(mode);
    plain.run_until_waiting(mode);
    equal(&proved.seat, &plain.seat)
}

#[cfg(test)]
mod tests {
    use super::verify;
    use crate::measures::measures;

    #[test]
    fn both_fronts_come_to_the_same() {
        for measure in measures() {
            if let Err(difference) = verify(measure.task) {
                panic!("{} {:?}: {:?}", measure.key, measure.task, difference);
            }
        }
    }

    #[test]
    fn every_measure_has_its_own_name() {
        let names = measures();
        for (i, one) in names.iter().enumerate() {
            let twice = names[..i]
                .iter()
                .any(|other| (&other.key, other.task.mode()) == (&one.key, one.task.mode()));
            assert!(!twice, "{} {}", one.key, one.task.mode());
        }
    }
}
