//! Months give the same on both sides: every answer, every total, and what the program prints.

use compare::months::{compare, some_input, Finished, Met, Side, Words, SUMS};
use compare::random::Random;
use plain::month::{program, Totals};
use std::cell::Cell;
use std::env;
use std::io::Write;
use std::path::{Path, PathBuf};
use std::process::{Command, Stdio};
use zelezmut::Month;

const MONTHS: u64 = 40_000;

#[test]
fn random_months_are_equal_and_meet_every_rule() {
    let mut met = Met::default();
    for seed in 0..MONTHS {
        let equal = compare::<Month, Totals>(&mut Random::new(seed), &mut met);
        equal.unwrap_or_else(|told| panic!("seed {}: {}", seed, told));
    }
    for (what, times) in [
        ("counted", met.counted),
        ("an unlisted error", met.unlisted_error),
        ("an unlisted kind", met.unlisted_kind),
        ("records beside an error", met.beside_an_error),
        ("more than 64 records", met.over_64),
        ("10 before 9", met.before_9),
        ("64 records", met.with_64),
        ("error 27", met.with_27),
        ("a merge", met.merged),
        ("a merge refused with 9", met.merged_full),
    ] {
        assert!(times >= 500, "{} only {} times: {:?}", what, times, met);
    }
    for (place, &times) in met.full.iter().enumerate() {
        assert!(
            times >= 5,
            "total {} only {} times: {:?}",
            place,
            times,
            met
        );
    }
}

/// A submission that adds this much to the sum at a place: 1, or for units and bytes any number.
fn adding(place: usize, much: u32) -> Finished {
    let (error, units, records) = match place {
        0 => (0, 0, vec![]),
        22 => (0, much, vec![]),
        23 => (0, 0, vec![(2, much.into())]),
        24 => (0, 0, vec![(3, much.into())]),
        _ => (place as u32 + 9, 0, vec![]),
    };
    Finished {
        error,
        units,
        records,
    }
}

/// The answer of a side that starts with these words, and its totals after.
fn fed<S: Side>(words: Words, finished: &Finished) -> (u32, Words) {
    let mut side = S::from_words(words);
    (side.feed(finished), side.words())
}

fn merged<S: Side>(words: Words, others: Words) -> (u32, Words) {
    let mut side = S::from_words(words);
    (side.merge(&S::from_words(others)), side.words())
}

#[test]
fn every_sum_one_either_side_of_2_64_is_equal() {
    for place in 0..SUMS {
        for (less, much) in [(0, 0), (0, 1), (1, 1), (1, 2), (2, 2), (7, 8)] {
            let mut words = [3; 26];
            words[place] = u64::MAX - less;
            let finished = adding(place, much);
            let both = [fed::<Month>, fed::<Totals>].map(|fed| fed(words, &finished));
            assert_eq!(both[0], both[1], "{} {:?}", less, finished);
            let mut others = [0; 26];
            others[place] = much.into();
            let both = [merged::<Month>, merged::<Totals>].map(|merged| merged(words, others));
            assert_eq!(both[0], both[1], "{} {}", place, less);
            assert_eq!(both[0].0, if u64::from(much) > less { 9 } else { 0 });
        }
    }
}

#[test]
fn every_error_and_kind_and_count_is_equal() {
    let errors = (0..300).chain([1 << 16, 1 << 31, u32::MAX]);
    for error in errors {
        for kind in (0..12).chain([256, 1 << 31, u32::MAX]) {
            for count in [0, 1, 2, 63, 64, 65, 66, 300] {
                let mut records = vec![(3, 5); count];
                if let Some(last) = records.last_mut() {
                    *last = (kind, 9);
                }
                let finished = Finished {
                    error,
                    units: 2,
                    records,
                };
                let both = [fed::<Month>, fed::<Totals>].map(|fed| fed([1; 26], &finished));
                assert_eq!(both[0], both[1], "{:?}", finished);
            }
        }
    }
}

/// The program, where the gate or `rt check program_month` has built it.
fn program_month() -> Option<PathBuf> {
    let root = Path::new(env!("CARGO_MANIFEST_DIR")).join("../..");
    let path = root.join("target/bin/program_month");
    path.is_file().then_some(path)
}

/// Where these tests run under an emulator, so does the program. The input goes to it in two pieces.
fn printed(path: &Path, input: &[u8], cut: usize) -> String {
    let mut command = match env::var_os("CARGO_TARGET_X86_64_UNKNOWN_LINUX_GNU_RUNNER") {
        Some(runner) => Command::new(runner),
        None => Command::new(path),
    };
    if command.get_program() != path.as_os_str() {
        command.arg(path);
    }
    let started = command.stdin(Stdio::piped()).stdout(Stdio::piped()).spawn();
    let mut child = started.expect("the program can be started");
    let mut stdin = child.stdin.take().expect("a pipe");
    let (first, second) = input.split_at(cut);
    stdin.write_all(first).expect("the program reads");
    stdin.flush().expect("a pipe has nothing to flush");
    stdin.write_all(second).expect("the program reads on");
    drop(stdin);
    let output = child.wait_with_output().expect("the program ends");
    String::from_utf8(output.stdout).expect("text")
}

#[test]
fn the_program_prints_what_the_plain_one_does() {
    let path = match program_month() {
        Some(path) => path,
        None => {
            eprintln!("target/bin/program_month is not built: `rt check program_month` builds it");
            return;
        }
    };
    let mut random = Random::new(40);
    let (mut whole, mut bad) = (0, 0);
    for _ in 0..400 {
        let input = some_input(&mut random);
        let cut = random.index(input.len() + 1);
        let plain = program(&input);
        assert_eq!(printed(&path, &input, cut), plain, "{:?}", input);
        match plain.ends_with("bad input\n") {
            true => bad += 1,
            false => whole += 1,
        }
    }
    assert!(whole >= 100 && bad >= 50, "{} whole, {} bad", whole, bad);
}

/// The plain totals with one mistake, which the drawn months must tell.
#[derive(Clone, Copy, Debug)]
enum Mistake {
    NineBeforeTen,
    UnitsOfRefused,
    Kind1IsRead,
    LargestOfASubmission,
    LastNumberRefused,
    Error27NotCounted,
    CountWraps,
    LargestMovedByRefused,
    SixtyFourRefused,
    UnlistedErrorCounts,
    MergeKeepsTheFirstLargest,
}

const MISTAKES: [Mistake; 11] = [
    Mistake::NineBeforeTen,
    Mistake::UnitsOfRefused,
    Mistake::Kind1IsRead,
    Mistake::LargestOfASubmission,
    Mistake::LastNumberRefused,
    Mistake::Error27NotCounted,
    Mistake::CountWraps,
    Mistake::LargestMovedByRefused,
    Mistake::SixtyFourRefused,
    Mistake::UnlistedErrorCounts,
    Mistake::MergeKeepsTheFirstLargest,
];

thread_local! {
    static MISTAKE: Cell<Mistake> = const { Cell::new(Mistake::NineBeforeTen) };
}

#[derive(Clone)]
struct Wrong(Totals);

impl Wrong {
    fn feed_wrongly(&mut self, finished: &Finished, right: u32) -> u32 {
        let mut other = finished.clone();
        let before = self.0;
        match MISTAKE.with(|mistake| mistake.get()) {
            Mistake::NineBeforeTen if right == 10 => {
                let full = before.units.checked_add(finished.units.into()).is_none();
                return if full { 9 } else { 10 };
            }
            Mistake::UnitsOfRefused if right != 0 => {
                self.0.units = before.units.saturating_add(finished.units.into());
                return right;
            }
            Mistake::Kind1IsRead => {
                let kinds = other.records.iter_mut().map(|(kind, _)| kind);
                kinds.filter(|kind| **kind == 1).for_each(|kind| *kind = 2);
            }
            Mistake::LargestOfASubmission => {
                let answer = Side::feed(&mut self.0, &other);
                let written = self.0.bytes_written - before.bytes_written;
                self.0.largest_write = before.largest_write.max(written);
                return answer;
            }
            Mistake::LastNumberRefused => {
                let answer = Side::feed(&mut self.0, &other);
                let full = |words: Words| words[..SUMS].iter().filter(|n| **n == u64::MAX).count();
                if full(self.0.words()) > full(before.words()) {
                    self.0 = before;
                    return 9;
                }
                return answer;
            }
            Mistake::Error27NotCounted if finished.error == 27 => return 10,
            Mistake::CountWraps if right == 9 && before.accepted == u64::MAX => {
                self.0.accepted = 0;
                return Side::feed(&mut self.0, &other);
            }
            Mistake::LargestMovedByRefused if right == 9 => {
                let writes = finished.records.iter().filter(|record| record.0 == 3);
                let largest = writes.map(|&(_, length)| length).max().unwrap_or(0);
                self.0.largest_write = before.largest_write.max(largest);
                return right;
            }
            Mistake::SixtyFourRefused if finished.records.len() == 64 => return 10,
            Mistake::UnlistedErrorCounts if finished.error == 31 => other.error = 30,
            _ => {}
        }
        Side::feed(&mut self.0, &other)
    }
}

impl Side for Wrong {
    fn from_words(words: Words) -> Wrong {
        Wrong(Totals::from_words(words))
    }

    fn words(&self) -> Words {
        self.0.words()
    }

    fn feed(&mut self, finished: &Finished) -> u32 {
        let right = Side::feed(&mut self.0.clone(), finished);
        self.feed_wrongly(finished, right)
    }

    fn merge(&mut self, other: &Wrong) -> u32 {
        let before = self.0;
        let answer = Side::merge(&mut self.0, &other.0);
        if let Mistake::MergeKeepsTheFirstLargest = MISTAKE.with(|mistake| mistake.get()) {
            self.0.largest_write = before.largest_write;
        }
        answer
    }
}

#[test]
fn months_with_a_mistake_are_told_apart() {
    for mistake in MISTAKES {
        MISTAKE.with(|cell| cell.set(mistake));
        let told = |seed| compare::<Wrong, Totals>(&mut Random::new(seed), &mut Met::default());
        let first = (0..MONTHS).find(|&seed| told(seed).is_err());
        assert!(first.is_some(), "{:?} is not told", mistake);
    }
}
