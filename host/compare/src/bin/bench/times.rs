//! Times of both fronts in turn on equal inputs.

use compare::host::Host;
use compare::measures::{Measure, Ready};
use std::time::{Duration, Instant};

/// A measurement goes on for at least this long: short, so that some of many meet a machine with nothing else to do.
const BATCH: Duration = Duration::from_micros(300);

/// Nanoseconds a unit, of the best and of the middle round.
pub struct Times {
    best: f64,
    middle: f64,
}

impl Times {
    fn of(mut rounds: Vec<f64>) -> Times {
        rounds.sort_by(f64::total_cmp);
        Times {
            best: rounds[0],
            middle: rounds[rounds.len() / 2],
        }
    }

    /// How far the middle lies above the best, in percent.
    fn spread(&self) -> f64 {
        (self.middle / self.best - 1.0) * 100.0
    }
}

pub struct Measured<'a> {
    pub measure: &'a Measure,
    proved: Times,
    plain: Times,
}

impl Measured<'_> {
    pub fn ratio(&self) -> f64 {
        self.proved.best / self.plain.best
    }
}

/// Nanoseconds a unit of so many submissions.
fn time<F: Host>(ready: &mut Ready<F>, submissions: &[bool]) -> f64 {
    let start = Instant::now();
    ready.play(submissions);
    start.elapsed().as_nanos() as f64 / (submissions.len() as u64 * ready.pieces()) as f64
}

/// How many submissions a measurement needs on this machine.
fn submissions<F: Host>(ready: &mut Ready<F>) -> usize {
    let mut submissions = 1;
    loop {
        let batch = vec![true; submissions];
        let start = Instant::now();
        time(ready, &batch);
        if start.elapsed() >= BATCH {
            return submissions;
        }
        submissions *= 2;
    }
}

/// The fronts take turns, so that a slow moment of the machine meets both.
fn measured(measure: &Measure, rounds: usize) -> Measured<'_> {
    let mut proved = Ready::<zelezmut::Desk>::new(measure.task, 1);
    let mut plain = Ready::<plain::Desk>::new(measure.task, 1);
    let batch = vec![true; submissions(&mut proved).max(submissions(&mut plain))];
    let (mut proved_times, mut plain_times) = (Vec::new(), Vec::new());
    for round in 0..rounds {
        if round % 2 == 0 {
            proved_times.push(time(&mut proved, &batch));
        }
        plain_times.push(time(&mut plain, &batch));
        if round % 2 == 1 {
            proved_times.push(time(&mut proved, &batch));
        }
    }
    Measured {
        measure,
        proved: Times::of(proved_times),
        plain: Times::of(plain_times),
    }
}

/// Prints a table of the measures as it is made.
pub fn time_all(rounds: usize, measures: &[Measure]) -> Vec<Measured<'_>> {
    println!(
        "nanoseconds a unit, or a submission, best of {} rounds (middle round above it in percent)",
        rounds
    );
    println!(
        "{:<32} {:<10} {:>16} {:>16} {:>7}",
        "case", "mode", "zelezmut", "plain", "ratio"
    );
    let row = |measure| {
        let measured = measured(measure, rounds);
        let told = |times: &Times| format!("{:.2} (+{:.0}%)", times.best, times.spread());
        println!(
            "{:<32} {:<10} {:>16} {:>16} {:>7.2}",
            measure.title(),
            measure.task.mode(),
            told(&measured.proved),
            told(&measured.plain),
            measured.ratio()
        );
        measured
    };
    measures.iter().map(row).collect()
}
