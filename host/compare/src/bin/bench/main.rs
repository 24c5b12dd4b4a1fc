//! Times the proved front against the plain program on equal inputs, or plays one case without timing for a counter outside.

#![forbid(unsafe_code)]

mod times;

use compare::chart::{svg, Bar};
use compare::host::Host;
use compare::measures::{measures, Measure, Ready, Task};
use compare::verify::verify;
use std::io::{self, Read};
use std::process::ExitCode;
use std::{env, fs};
use times::time_all;

const USAGE: &str = "\
usage: bench [--rounds N] [--case CASE] [--svg FILE]
         times both fronts in turn, N times each (400), and prints the best; of the published cases and small submissions, or of CASE
       bench --count CASE MODE FRONT TIMES
         plays one case on one front so many times (20 at most) without timing and prints the units, submissions, calls or
         packets, for a counter of instructions; the difference of two counts is free of all that is not played
       bench --goals
         prints case, mode and goal of all that is counted
       bench --verify
         plays everything on both fronts and ends with 1 if they differ
       bench --plot FILE
         draws the ratios of instructions.sh's table on standard input
       bench --inputs
         says what the cases are
--goals prints what CASE and MODE can be; FRONT is zelezmut or plain";

const ROUNDS: usize = 400;

/// The rounds of a count, played or only made ready.
const COUNTED: usize = 20;

enum Wish {
    Time {
        rounds: usize,
        measures: Vec<Measure>,
        svg: Option<String>,
    },
    Count {
        task: Task,
        front: String,
        times: usize,
    },
    Goals,
    Verify,
    Plot {
        svg: String,
    },
    Inputs,
}

/// The measure of these names.
fn measure_of(key: &str, mode: &str) -> Result<Measure, String> {
    measures()
        .into_iter()
        .find(|measure| measure.key == key && measure.task.mode() == mode)
        .ok_or_else(|| format!("nothing is called {} {}", key, mode))
}

/// The submissions of this name, in all their modes.
fn submissions_of(key: &str) -> Result<Vec<Measure>, String> {
    let found: Vec<Measure> = measures()
        .into_iter()
        .filter(|measure| {
            measure.key == key && !matches!(measure.task, Task::Call(_) | Task::List(_))
        })
        .collect();
    if found.is_empty() {
        return Err(format!("no submission is called {}", key));
    }
    Ok(found)
}

fn number<T: std::str::FromStr>(word: &str) -> Result<T, String> {
    word.parse().map_err(|_| format!("{} is no number", word))
}

fn wish(arguments: &[String]) -> Result<Wish, String> {
    let words: Vec<&str> = arguments.iter().map(String::as_str).collect();
    match words[..] {
        ["--inputs"] => Ok(Wish::Inputs),
        ["--goals"] => Ok(Wish::Goals),
        ["--verify"] => Ok(Wish::Verify),
        ["--plot", file] => Ok(Wish::Plot {
            svg: file.to_string(),
        }),
        ["--count", case, mode, front, times] => Ok(Wish::Count {
            task: measure_of(case, mode)?.task,
            front: front.to_string(),
            times: number(times)?,
        }),
        _ => wish_for_times(&words),
    }
}

fn wish_for_times(words: &[&str]) -> Result<Wish, String> {
    let (mut rounds, mut svg) = (ROUNDS, None);
    let mut measures = measures();
    measures.retain(|measure| measure.task.is_timed());
    for pair in words.chunks(2) {
        match *pair {
            ["--rounds", given] => rounds = number::<usize>(given)?.max(1),
            ["--case", key] => measures = submissions_of(key)?,
            ["--svg", file] => svg = Some(file.to_string()),
            _ => return Err(format!("what is {}?", pair.join(" "))),
        }
    }
    Ok(Wish::Time {
        rounds,
        measures,
        svg,
    })
}

/// Plays the first rounds of as many as there always are.
fn count<F: Host>(task: Task, times: usize) -> Result<(), String> {
    if times > COUNTED {
        return Err(format!("{} is more than {} times", times, COUNTED));
    }
    let mut ready = Ready::<F>::new(task, COUNTED);
    let rounds: Vec<bool> = (0..COUNTED).map(|round| round < times).collect();
    let said = ready.play(&rounds);
    println!(
        "{} {}s; what single calls said adds up to {}",
        times as u64 * ready.pieces(),
        task.piece(),
        said
    );
    Ok(())
}

fn verify_all() -> Result<(), String> {
    let differs = |measure: &Measure| {
        verify(measure.task).map_err(|difference| {
            format!(
                "{} {}: the fronts differ: {:?}",
                measure.key,
                measure.task.mode(),
                difference
            )
        })
    };
    measures().iter().try_for_each(differs)
}

fn bar(measure: &Measure, ratio: f64) -> Bar {
    Bar {
        title: measure.title().to_string(),
        mode: measure.task.mode().to_string(),
        ratio,
    }
}

/// The bars of a table whose lines begin with case, mode, two counts and the ratio; a first line says what the columns are.
fn bars_of(table: &str) -> Result<Vec<Bar>, String> {
    let rows = table.lines().skip(1);
    rows.map(|row| {
        let words: Vec<&str> = row.split_whitespace().collect();
        match words[..] {
            [case, mode, _, _, ratio, ..] => Ok(bar(&measure_of(case, mode)?, number(ratio)?)),
            _ => Err(format!("no row of the table: {}", row)),
        }
    })
    .collect()
}

fn draw(file: &str, what: &str, bars: &[Bar]) -> Result<(), String> {
    let heading = format!("{}: proved front over plain Rust program", what);
    fs::write(file, svg(&heading, bars)).map_err(|error| format!("{}: {}", file, error))
}

fn plot(file: &str) -> Result<(), String> {
    let mut table = String::new();
    io::stdin()
        .read_to_string(&mut table)
        .map_err(|error| error.to_string())?;
    draw(file, "Instructions", &bars_of(&table)?)
}

fn run(wish: Wish) -> Result<(), String> {
    match wish {
        Wish::Inputs => measures().iter().for_each(|measure| {
            println!(
                "{} {}: {}",
                measure.key,
                measure.task.mode(),
                measure.task.input()
            )
        }),
        Wish::Goals => measures().iter().for_each(|measure| {
            println!(
                "{} {} {:.2}",
                measure.key,
                measure.task.mode(),
                measure.goal
            )
        }),
        Wish::Verify => verify_all()?,
        Wish::Count { task, front, times } => match front.as_str() {
            "zelezmut" => count::<zelezmut::Desk>(task, times)?,
            "plain" => count::<plain::Desk>(task, times)?,
            _ => return Err(format!("no front is called {}", front)),
        },
        Wish::Time {
            rounds,
            measures,
            svg,
        } => {
            let all = time_all(rounds, &measures);
            let bars: Vec<Bar> = all
                .iter()
                .map(|measured| bar(measured.measure, measured.ratio()))
                .collect();
            if let Some(file) = svg {
                draw(&file, "Times", &bars)?;
            }
        }
        Wish::Plot { svg } => plot(&svg)?,
    }
    Ok(())
}

fn main() -> ExitCode {
    let arguments: Vec<String> = env::args().skip(1).collect();
    let wish = match wish(&arguments) {
        Ok(wish) => wish,
        Err(error) => {
            eprintln!("{}\n{}", error, USAGE);
            return ExitCode::from(2);
        }
    };
    match run(wish) {
        Ok(()) => ExitCode::SUCCESS,
        Err(error) => {
            eprintln!("{}", error);
            ExitCode::FAILURE
        }
    }
}
