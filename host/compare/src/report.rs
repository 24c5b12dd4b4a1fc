//! A desk on which the fronts part: made as short as it goes, written out as a desk script, and told in words.

use crate::generator::Drawn;
use crate::player::Difference;
use std::panic::{catch_unwind, AssertUnwindSafe};
use std::path::{Path, PathBuf};
use std::{env, fmt, fs, io};
use zelezmut::script::{encode, Operation, LONGEST_MEMORY};
use zelezmut::{Form, LONGEST_SAVED_DESK};

/// How desks are played.
#[derive(Clone, Copy, Debug)]
pub struct Pairing {
    pub left: &'static str,
    pub right: &'static str,
    /// What makes the program play them so.
    pub flag: &'static str,
}

/// What was wrong with a desk, with the script that shows it.
pub struct Failure {
    seed: u64,
    difference: Difference,
    operation: Operation,
    pairing: Pairing,
    memory: u32,
    whole: io::Result<PathBuf>,
    short: io::Result<PathBuf>,
}

impl Failure {
    pub fn seed(&self) -> u64 {
        self.seed
    }

    /// The scripts that were written.
    pub fn scripts(&self) -> impl Iterator<Item = &Path> {
        [&self.whole, &self.short]
            .into_iter()
            .filter_map(|written| written.as_deref().ok())
    }
}

type Played = Result<(), Difference>;

/// Plays a drawn desk, and where the fronts part, looks for a shorter desk on which they still do.
pub fn examine(
    drawn: &Drawn,
    pairing: Pairing,
    mut play: impl FnMut(&[Operation]) -> Played,
) -> Result<(), Box<Failure>> {
    let operations = &drawn.operations;
    let (difference, short) = match caught(operations, &mut play) {
        Ok(Ok(())) => return Ok(()),
        Ok(Err(difference)) => {
            let up_to_there = operations[..=difference.at].to_vec();
            (difference, shortened(up_to_there, &mut play))
        }
        // A panic is a difference as well. It would be told again at every try to make the desk shorter.
        Err(words) => {
            let of = format!("a front panicked on the way: {}", words);
            let last = operations.len() - 1;
            (Difference::between(of, (), ()).at(last), operations.clone())
        }
    };
    Err(Box::new(Failure {
        seed: drawn.seed,
        operation: operations[difference.at].clone(),
        difference,
        pairing,
        memory: drawn.memory,
        whole: written(drawn, "whole", operations),
        short: written(drawn, "short", &with_states(short)),
    }))
}

/// What comes of playing operations, or the words of a panic.
fn caught(
    operations: &[Operation],
    play: &mut impl FnMut(&[Operation]) -> Played,
) -> Result<Played, String> {
    catch_unwind(AssertUnwindSafe(|| play(operations))).map_err(|panic| {
        let words = panic.downcast_ref::<String>().cloned();
        words
            .or_else(|| panic.downcast_ref::<&str>().map(|words| words.to_string()))
            .unwrap_or_default()
    })
}

/// Leaves out operations, half the desk first and single ones last, as long as the fronts still part.
fn shortened(
    mut operations: Vec<Operation>,
    play: &mut impl FnMut(&[Operation]) -> Played,
) -> Vec<Operation> {
    let mut length = operations.len() / 2;
    while length > 0 {
        let mut from = 0;
        while from + length <= operations.len() {
            let mut without = operations.clone();
            without.drain(from..from + length);
            if !matches!(caught(&without, play), Ok(Ok(()))) {
                operations = without;
            } else {
                from += length;
            }
        }
        length /= 2;
    }
    operations
}

/// The state after each operation and the desk saved, so that a transcript shows where it goes wrong.
fn with_states(operations: Vec<Operation>) -> Vec<Operation> {
    let (form, length) = (Form::Two, LONGEST_SAVED_DESK as u32);
    let save = Operation::Save { form, length };
    operations
        .into_iter()
        .flat_map(|operation| [operation, Operation::State, save.clone()])
        .collect()
}

fn written(drawn: &Drawn, which: &str, operations: &[Operation]) -> io::Result<PathBuf> {
    let path = env::temp_dir().join(format!("desk-{}-{}.script", drawn.seed, which));
    fs::write(&path, encode(drawn.memory, operations))?;
    Ok(path)
}

impl fmt::Display for Failure {
    fn fmt(&self, f: &mut fmt::Formatter<'_>) -> fmt::Result {
        let Difference {
            at,
            left,
            right,
            of,
        } = &self.difference;
        writeln!(
            f,
            "desk of seed {}: the fronts part at operation {}, {:?}",
            self.seed, at, self.operation
        )?;
        writeln!(f, "  {}", of)?;
        if left != right {
            writeln!(f, "    {:<9} {}", self.pairing.left, left)?;
            writeln!(f, "    {:<9} {}", self.pairing.right, right)?;
        }
        for (name, path) in [
            ("the whole desk", &self.whole),
            ("a shorter one", &self.short),
        ] {
            match path {
                Ok(path) => writeln!(f, "  {} as a desk script: {}", name, path.display())?,
                Err(error) => writeln!(f, "  {} could not be written: {}", name, error)?,
            }
        }
        if self.memory > LONGEST_MEMORY {
            writeln!(
                f,
                "  its memory is larger than a desk script's may be, so no program plays it"
            )?;
        }
        write!(
            f,
            "  again: cargo run --release -p compare --bin compare -- --desks 1 --seed {}{}",
            self.seed, self.pairing.flag
        )
    }
}
