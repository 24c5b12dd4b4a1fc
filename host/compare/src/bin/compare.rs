//! Plays random desks through the proved front and the plain program, for longer than the tests do.

#![forbid(unsafe_code)]

use compare::desks;
use compare::report::Failure;
use std::process::ExitCode;
use std::time::{Duration, Instant};
use std::{env, ops::Range};

const USAGE: &str = "\
usage: compare [--desks N] [--seed S] [--sliced | --scrambled | --files]
  --desks N   how many desks (20000)
  --seed S    the first desk's seed, the others follow (0)
  --sliced    each run, behind an answer too, whole on one front and in random slices on the other
  --scrambled each front by itself, on the memory as drawn and with the bytes that cannot matter scrambled
  --files     desks into which files are loaded, ten each, and little else is done: they are saved and moved";

struct Wish {
    seeds: Range<u64>,
    way: Way,
}

#[derive(Clone, Copy)]
enum Way {
    Whole,
    Sliced,
    Scrambled,
    Files,
}

fn wish(mut arguments: impl Iterator<Item = String>) -> Result<Wish, String> {
    let (mut desks, mut seed, mut way) = (20_000, 0, Way::Whole);
    while let Some(argument) = arguments.next() {
        let mut number = || {
            let given = arguments
                .next()
                .ok_or_else(|| format!("{} needs a number", argument))?;
            given
                .parse::<u64>()
                .map_err(|error| format!("{} {}: {}", argument, given, error))
        };
        match argument.as_str() {
            "--desks" => desks = number()?,
            "--seed" => seed = number()?,
            "--sliced" => way = Way::Sliced,
            "--scrambled" => way = Way::Scrambled,
            "--files" => way = Way::Files,
            _ => return Err(format!("what is {}?", argument)),
        }
    }
    let end = seed
        .checked_add(desks)
        .ok_or_else(|| "seeds above 2^64 - 1".to_string())?;
    Ok(Wish {
        seeds: seed..end,
        way,
    })
}

/// Tells on standard error how far it is, once a second.
fn progress(total: u64) -> impl FnMut(u64) {
    let start = Instant::now();
    let mut told = start;
    move |done| {
        let now = Instant::now();
        if now - told >= Duration::from_secs(1) || done == total {
            told = now;
            eprintln!(
                "{} of {} desks, {:.1} s",
                done,
                total,
                (now - start).as_secs_f64()
            );
        }
    }
}

fn scrambled(seeds: Range<u64>, desks: u64) -> Result<String, Box<Failure>> {
    let proved =
        desks::compare_scrambled::<zelezmut::Desk>(seeds.clone(), progress(desks))?.to_string();
    let plain = desks::compare_scrambled::<plain::Desk>(seeds, progress(desks))?.to_string();
    Ok(format!("zelezmut: {}\nplain: {}", proved, plain))
}

fn main() -> ExitCode {
    let wish = match wish(env::args().skip(1)) {
        Ok(wish) => wish,
        Err(error) => {
            eprintln!("{}\n{}", error, USAGE);
            return ExitCode::from(2);
        }
    };
    let desks = wish.seeds.end - wish.seeds.start;
    let (seeds, progress) = (wish.seeds, progress(desks));
    let told = match wish.way {
        Way::Whole => desks::compare::<zelezmut::Desk, plain::Desk>(seeds, progress)
            .map(|coverage| coverage.to_string()),
        Way::Sliced => desks::compare_sliced::<zelezmut::Desk, plain::Desk>(seeds, progress)
            .map(|runs| format!("{} desks, {} runs", desks, runs)),
        Way::Scrambled => scrambled(seeds, desks),
        Way::Files => desks::compare_files::<zelezmut::Desk, plain::Desk>(seeds, progress)
            .map(|coverage| coverage.to_string()),
    };
    match told {
        Ok(told) => {
            println!("{}\nall equal", told);
            ExitCode::SUCCESS
        }
        Err(failure) => {
            println!("{}", failure);
            ExitCode::FAILURE
        }
    }
}
