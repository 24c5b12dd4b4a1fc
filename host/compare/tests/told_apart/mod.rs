//! How a wrong front is told apart: by a desk that is named by its seed and written out as scripts that can be played.

use compare::coverage::Coverage;
use compare::desks;
use compare::front::Front;
use compare::report::Failure;
use std::fs;
use std::ops::Range;
use zelezmut::script::{self, Fault};

/// A fault shows in one of so many desks.
const DESKS: u64 = 3_000;

/// Gives what is told of the first desk that shows the fault and that a script can hold. Each front has its own number and by it its
/// own seeds, so that the scripts have different names.
#[allow(dead_code)]
pub fn told_of<F: Front>(number: u64) -> String {
    told_by(number, |seeds| {
        desks::compare::<plain::Desk, F>(seeds, |_| {})
    })
}

/// The same of nights that do little else than load, save and move.
// Not every file of tests has such fronts.
#[allow(dead_code)]
pub fn told_of_files<F: Front>(number: u64) -> String {
    told_by(number, |seeds| {
        desks::compare_files::<plain::Desk, F>(seeds, |_| {})
    })
}

/// The same of desks played on two memories that agree on the listed bytes alone.
#[allow(dead_code)]
pub fn told_of_scrambled<F: Front>(number: u64) -> String {
    told_by(number, |seeds| {
        // Only a failure is told of.
        desks::compare_scrambled::<F>(seeds, |_| {}).map(|_| Coverage::default())
    })
}

fn told_by(number: u64, compare: impl Fn(Range<u64>) -> Result<Coverage, Box<Failure>>) -> String {
    let mut seeds = DESKS * number..DESKS * (number + 1);
    loop {
        match compare(seeds.clone()) {
            Ok(_) => panic!("the fault shows in none of {} desks", DESKS),
            Err(failure) => {
                if let Some(told) = told_with_scripts(&failure) {
                    return told;
                }
                seeds.start = failure.seed() + 1;
            }
        }
    }
}

/// What is told, if the scripts can be played: they name the longest memories, but no program has them.
fn told_with_scripts(failure: &Failure) -> Option<String> {
    let told = failure.to_string();
    let named = format!("desk of seed {}", failure.seed());
    assert!(told.contains(&named), "{}", told);
    let mut scripts = Vec::new();
    for path in failure.scripts() {
        assert!(told.contains(&path.display().to_string()), "{}", told);
        scripts.push(script::decode(
            &fs::read(path).expect("the script was written"),
        ));
        fs::remove_file(path).expect("the script can be removed");
    }
    assert_eq!(scripts.len(), 2, "{}", told);
    if matches!(scripts[0].fault, Some(Fault::LongMemory(_))) {
        return None;
    }
    for played in scripts {
        assert_eq!(played.fault, None);
        assert!(!played.operations.is_empty());
    }
    Some(told)
}
