//! The exports of the month called over random words, with canaries beside all that they are lent.
use super::fuzz::{rounds, Fenced};
use super::*;
use crate::numbers::Numbers;
use crate::state::{MOST, RECORD_WORDS};

/// A table in which some rows at the front have a listed kind.
fn some_records(numbers: &mut Numbers) -> Fenced<{ MOST * RECORD_WORDS }> {
    let mut records = Fenced::new(numbers);
    let good = numbers.next() as usize % (MOST + 1);
    for row in records.lent.chunks_exact_mut(RECORD_WORDS).take(good) {
        row[0] = 1 + numbers.next() % 4;
    }
    records
}

/// Any totals, rows and numbers: calls return, touch nothing beside what they are lent, and change no word when they refuse.
#[test]
fn no_call_of_a_month_goes_over_a_fence() {
    let mut numbers = Numbers(13);
    let mut met = [0u64; 3];
    for _ in 0..rounds() {
        let mut totals = Fenced::<26>::new(&mut numbers);
        let (other, records) = (Fenced::<26>::new(&mut numbers), some_records(&mut numbers));
        let (error, count) = (numbers.next() as u32, numbers.next() as u32);
        let lent = (other.clone(), records.clone());
        for which in 0..3 {
            let before = totals.clone();
            let answer = match which {
                0 => month_feed(&mut totals.lent, 0, error, count, &records.lent),
                1 => month_feed(&mut totals.lent, error, error, 0, &records.lent),
                _ => month_merge(&mut totals.lent, &other.lent),
            };
            assert!(totals.stands() && lent == (other.clone(), records.clone()));
            assert!(answer == 0 || totals == before);
            met[[0, 9, 10].iter().position(|a| *a == answer).unwrap()] += 1;
        }
        for i in (0..26).chain([error, u32::MAX]) {
            let there = totals.lent.get(i as usize).copied();
            assert_eq!(month_total(&totals.lent, i), there.unwrap_or(0));
        }
        month_make(&mut totals.lent);
        assert!(totals.stands() && totals.lent == [0; 26]);
    }
    assert!(met.iter().all(|met| *met >= rounds() / 20), "{:?}", met);
}
