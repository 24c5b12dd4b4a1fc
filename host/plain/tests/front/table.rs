//! The whole-table check.

use crate::scene::*;
use plain::table_error;

const MEM: u64 = 4096;

fn changed(at: usize, value: u32) -> u32 {
    let mut bytes = table(&[(1, 0, 0, 8), (2, 0, 8, 8)]);
    put32(&mut bytes, at, value);
    table_error(&bytes, MEM)
}

#[test]
fn short_tables() {
    let bytes = table(&[]);
    for length in 0..24 {
        assert_eq!(table_error(&bytes[..length], MEM), 13);
    }
    assert_eq!(table_error(&bytes, MEM), 0);
}

#[test]
fn headers() {
    assert_eq!(changed(0, 0), 13);
    assert_eq!(changed(4, 0), 13);
    assert_eq!(changed(4, 0x1_1234), 0);
    assert_eq!(changed(8, 23), 13);
    assert_eq!(changed(8, 87), 13);
    assert_eq!(changed(8, 89), 13);
    assert_eq!(changed(12, 3), 13);
    assert_eq!(changed(12, 1), 0);
    assert_eq!(changed(12, 65), 13);
    assert_eq!(changed(16, 31), 13);
    assert_eq!(changed(16, 33), 13);
}

#[test]
fn counts() {
    let many = |count: u32| -> Vec<Entry> { (1..=count).map(|id| (id, 0, 0, 1)).collect() };
    assert_eq!(table_error(&table(&many(64)), MEM), 0);
    assert_eq!(table_error(&table(&many(65)), MEM), 19);
    let mut bad = many(65);
    bad[0].0 = 0;
    assert_eq!(table_error(&table(&bad), MEM), 19);
}

#[test]
fn entries_in_table_order() {
    let error = |entries: &[Entry]| table_error(&table(entries), MEM);
    assert_eq!(error(&[(0, 0, 0, 1)]), 14);
    assert_eq!(error(&[(1, 0, 0, 0)]), 14);
    assert_eq!(error(&[(1, 0, u64::MAX, 1)]), 14);
    assert_eq!(error(&[(1, 0, 0, 1), (1, 0, 0, 1), (0, 0, 0, 1)]), 15);
    assert_eq!(error(&[(1, 0, 0, 1), (0, 0, 0, 1), (1, 0, 0, 1)]), 14);
    assert_eq!(error(&[(1, 0, 0, 1), (2, 0, 0, 1), (1, 0, 0, 0)]), 14);
}

#[test]
fn memory_lengths_up_to_the_largest() {
    let largest = [(1, 0, 1, u64::MAX - 1)];
    assert_eq!(table_error(&table(&largest), u64::MAX), 0);
    let wraps = [(1, 0, 1, u64::MAX)];
    assert_eq!(table_error(&table(&wraps), u64::MAX), 14);
    assert_eq!(table_error(&table(&[(1, 0, 0, 1)]), 0), 14);
}

#[test]
fn strides() {
    let entries = [(1, 0, 0, 8), (2, 0, 8, 8), (1, 0, 16, 8)];
    for stride in [32, 33, 40, 100] {
        assert_eq!(table_error(&table_with_stride(&entries, stride), MEM), 15);
        assert_eq!(
            table_error(&table_with_stride(&entries[..2], stride), MEM),
            0
        );
    }
}
