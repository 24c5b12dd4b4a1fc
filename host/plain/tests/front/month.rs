//! The month: what is counted, what is refused, splits, and the program.

use crate::hostile::Random;
use crate::scene::*;
use plain::month::{program, Totals};

/// A finished submission: error, units, kind and length of its records.
type Finished = (u32, u32, Vec<(u32, u64)>);

/// The program's input of these.
fn input(month: &[Finished]) -> Vec<u8> {
    let mut bytes = Vec::new();
    for (error, units, records) in month {
        bytes.extend(file(&[*error, *units, records.len() as u32]));
        for (kind, length) in records {
            bytes.extend(kind.to_le_bytes());
            bytes.extend(length.to_le_bytes());
        }
    }
    bytes
}

fn feed(totals: &mut Totals, (error, units, records): &Finished) -> u32 {
    totals.feed(*error, *units, records)
}

/// The totals of these, all of which are counted.
fn totals(month: &[Finished]) -> Totals {
    let mut totals = Totals::default();
    for finished in month {
        assert_eq!(feed(&mut totals, finished), 0, "{:?}", finished);
    }
    totals
}

/// Asserts that this is answered so and counts nothing.
fn assert_not_counted(totals: &Totals, answer: u32, finished: &Finished) {
    let mut fed = *totals;
    assert_eq!(feed(&mut fed, finished), answer, "{:?}", finished);
    assert_eq!(fed, *totals);
}

#[test]
fn what_is_counted() {
    let month = [
        (0, 4, vec![(1, 256), (2, 32), (3, 7), (4, 99)]),
        (0, 1, vec![]),
        (27, 5, vec![]),
        (10, 1, vec![]),
        (10, 1, vec![]),
        (30, u32::MAX, vec![]),
        (0, 2, vec![(3, 9), (2, 1), (3, 0), (3, 8)]),
    ];
    let mut expected = Totals {
        accepted: 3,
        units: 14 + u64::from(u32::MAX),
        bytes_read: 33,
        bytes_written: 24,
        largest_write: 9,
        ..Totals::default()
    };
    expected.refused[0] = 2;
    expected.refused[17] = 1;
    expected.refused[20] = 1;
    assert_eq!(totals(&month), expected);
}

#[test]
fn every_listed_error_has_its_count() {
    for error in 10..=30 {
        let one = totals(&[(error, 3, vec![])]);
        let mut expected = Totals {
            units: 3,
            ..Totals::default()
        };
        expected.refused[error as usize - 10] = 1;
        assert_eq!(one, expected);
    }
}

#[test]
fn what_is_refused_with_10() {
    let before = totals(&[(0, 4, vec![(3, 7)])]);
    for error in (1..10).chain([31, 256, u32::MAX]) {
        assert_not_counted(&before, 10, &(error, 1, vec![]));
    }
    for error in 10..=30 {
        assert_not_counted(&before, 10, &(error, 1, vec![(1, 0)]));
    }
    for kind in [0, 5, 6, 256, u32::MAX] {
        assert_not_counted(&before, 10, &(0, 1, vec![(kind, 1)]));
        assert_not_counted(&before, 10, &(0, 1, vec![(2, 1), (3, 1), (kind, 0)]));
    }
    assert_not_counted(&before, 10, &(0, 1, vec![(2, 1); 65]));
    assert_eq!(totals(&[(0, 1, vec![(2, 1); 64])]).bytes_read, 64);
}

/// Totals with this one at the highest.
fn full(fill: impl Fn(&mut Totals)) -> Totals {
    let mut totals = Totals::default();
    fill(&mut totals);
    totals
}

#[test]
fn what_is_refused_with_9() {
    let most = u64::MAX;
    let good: Finished = (0, 1, vec![(2, 1), (3, 1)]);
    assert_not_counted(&full(|t| t.accepted = most), 9, &good);
    assert_not_counted(&full(|t| t.units = most), 9, &good);
    assert_not_counted(&full(|t| t.bytes_read = most), 9, &good);
    assert_not_counted(&full(|t| t.bytes_written = most), 9, &good);
    assert_not_counted(&full(|t| t.units = most), 9, &(12, 1, vec![]));
    assert_not_counted(&full(|t| t.refused[2] = most), 9, &(12, 0, vec![]));
    assert_not_counted(&Totals::default(), 9, &(0, 0, vec![(2, most), (2, 1)]));
    assert_not_counted(&Totals::default(), 9, &(0, 0, vec![(3, most), (3, 1)]));
    assert_not_counted(&Totals::default(), 9, &(0, 0, vec![(3, most); 64]));
    for finished in [(0, 1, vec![(5, 1)]), (31, 1, vec![]), (12, 1, vec![(1, 1)])] {
        let full = full(|t| {
            t.accepted = most;
            t.units = most;
        });
        assert_not_counted(&full, 10, &finished);
    }
}

#[test]
fn totals_up_to_the_highest() {
    let most = u64::MAX;
    let mut totals = full(|t| {
        t.accepted = most - 1;
        t.units = most - 2;
        t.refused[0] = most;
    });
    let last: Finished = (0, 2, vec![(2, most), (3, most), (1, most), (4, most)]);
    assert_eq!(feed(&mut totals, &last), 0);
    assert_eq!((totals.accepted, totals.units), (most, most));
    assert_eq!((totals.bytes_read, totals.bytes_written), (most, most));
    assert_eq!(totals.largest_write, most);
    assert_not_counted(&totals, 9, &(0, 0, vec![]));
    assert_eq!(feed(&mut totals, &(11, 0, vec![])), 0);
}

#[test]
fn merging() {
    let first = totals(&[(0, 4, vec![(3, 7), (2, 5)]), (12, 1, vec![])]);
    let second = totals(&[(0, 2, vec![(3, 3)]), (12, 1, vec![]), (30, 1, vec![])]);
    let mut merged = first;
    assert_eq!(merged.merge(&second), 0);
    assert_eq!((merged.accepted, merged.units), (2, 9));
    assert_eq!((merged.refused[2], merged.refused[20]), (2, 1));
    assert_eq!((merged.bytes_read, merged.bytes_written), (5, 10));
    assert_eq!(merged.largest_write, 7);
    let most = u64::MAX;
    for full in [
        full(|t| t.accepted = most - 1),
        full(|t| t.refused[2] = most),
        full(|t| t.refused[20] = most),
        full(|t| t.units = most),
        full(|t| t.bytes_read = most - 4),
        full(|t| t.bytes_written = most - 9),
    ] {
        let mut sum = merged;
        assert_eq!(sum.merge(&full), 9);
        assert_eq!(sum, merged);
    }
    let largest = full(|t| t.largest_write = most);
    assert_eq!(merged.merge(&largest), 0);
    assert_eq!(merged.largest_write, most);
}

/// The lines of the totals, in order; the errors' counts are all 0 but these.
fn lines(accepted: u64, errors: &[(u32, u64)], rest: [u64; 4]) -> String {
    let mut text = format!("accepted={}\n", accepted);
    for error in 10..=30 {
        let count = errors.iter().find(|(code, _)| *code == error);
        text += &format!(
            "refused_{}={}\n",
            error,
            count.map_or(0, |(_, count)| *count)
        );
    }
    text += &format!("units={}\nbytes_read={}\n", rest[0], rest[1]);
    text += &format!("bytes_written={}\nlargest_write={}\n", rest[2], rest[3]);
    text
}

#[test]
fn the_program() {
    assert_eq!(program(&[]), lines(0, &[], [0; 4]));
    let month = [
        (0, 4, vec![(1, 256), (2, 32), (3, 7)]),
        (9, 100, vec![]),
        (27, 5, vec![]),
        (0, 1, vec![(2, u64::MAX)]),
        (0, 100, vec![(2, 1); 65]),
        (10, 1, vec![(2, 1)]),
        (0, 2, vec![]),
    ];
    let expected = "submission=1 answer=10\n\
                    submission=3 answer=9\n\
                    submission=4 answer=10\n\
                    submission=5 answer=10\n"
        .to_string()
        + &lines(2, &[(27, 1)], [11, 32, 7, 7]);
    assert_eq!(program(&input(&month)), expected);
}

#[test]
fn an_input_that_ends_inside_a_submission() {
    let month = [(0, 4, vec![(2, 32)]), (27, 5, vec![])];
    let whole = input(&month);
    let none = lines(0, &[], [0; 4]);
    let one = lines(1, &[], [4, 32, 0, 0]);
    for length in 0..whole.len() {
        let expected = match length {
            0 => none.clone(),
            1..=23 => none.clone() + "bad input\n",
            24 => one.clone(),
            _ => one.clone() + "bad input\n",
        };
        assert_eq!(program(&whole[..length]), expected, "{}", length);
    }
    for count in [65, 1000, u32::MAX] {
        let cut = [file(&[0, 1, count]), vec![0; 64 * 12]].concat();
        assert_eq!(program(&cut), none.clone() + "bad input\n");
    }
}

#[test]
fn any_split_gives_the_same_totals() {
    let mut random = Random(13);
    for _ in 0..300 {
        let month: Vec<Finished> = (0..random.below(30))
            .map(|_| match random.below(2) {
                0 => (10 + random.below(21) as u32, random.below(9) as u32, vec![]),
                _ => {
                    let records = (0..random.below(5))
                        .map(|_| (1 + random.below(4) as u32, random.below(1 << 40)))
                        .collect();
                    (0, random.below(9) as u32, records)
                }
            })
            .collect();
        let whole = totals(&month);
        let (first, second) = month.split_at(random.below(month.len() as u64 + 1) as usize);
        let mut merged = totals(first);
        assert_eq!(merged.merge(&totals(second)), 0);
        assert_eq!(merged, whole);
        let records = || month.iter().flat_map(|(_, _, records)| records);
        let of_kind = |kind| records().filter(move |(of, _)| *of == kind);
        let bytes = |kind| of_kind(kind).map(|(_, length)| *length).sum::<u64>();
        assert_eq!(
            (whole.bytes_read, whole.bytes_written),
            (bytes(2), bytes(3))
        );
        let largest = of_kind(3).map(|(_, length)| *length).max();
        assert_eq!(whole.largest_write, largest.unwrap_or(0));
        assert_eq!(program(&input(&month)), whole.to_string());
    }
}
