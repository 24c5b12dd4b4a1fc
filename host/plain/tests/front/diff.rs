//! The difference: the four questions, refusals, the report and its program.

use crate::scene::*;
use plain::diff::{check, class, next, pairs, parts, program, report, Class, Refused, Which};

/// An input of the program.
fn input(first: &[u8], second: &[u8]) -> Vec<u8> {
    [&(first.len() as u32).to_le_bytes(), first, second].concat()
}

/// Two streams with a pair of every class that the report has.
fn two() -> [Vec<u8>; 2] {
    let first = [
        destroy(1),
        target(0x0001_0002),
        packet(7, 8),
        grown(release(5), &[1, 2, 3, 4]),
        packet(9, 12),
    ];
    let second = [
        destroy(1),
        target(0x0001_0300),
        packet(8, 8),
        release(5),
        packet(9, 12),
        packet(9, 8),
        packet(9, 8),
    ];
    [stream(&first), stream(&second)]
}

const REPORT: &str = "\
first=1
0 equal
1 same_opcode offsets=8,9
2 other_opcode
3 same_opcode offsets=4,16,17,18,19
4 equal
5 only_second
6 only_second
";

#[test]
fn a_full_report() {
    let [first, second] = two();
    assert_eq!(report(&first, &second), REPORT);
    assert_eq!(program(&input(&first, &second)), REPORT);
    let swapped = REPORT.replace("only_second", "only_first");
    assert_eq!(report(&second, &first), swapped);
    assert_eq!(program(&input(&second, &first)), swapped);
}

#[test]
fn the_questions() {
    let [first, second] = two();
    assert_eq!(check(&first, &second), Ok(()));
    assert_eq!(parts(&first, &second), Ok(Some(1)));
    assert_eq!(parts(&first, &first), Ok(None));
    for (index, expected) in [
        (0, Class::Equal),
        (1, Class::SameOpcode),
        (2, Class::OtherOpcode),
        (3, Class::SameOpcode),
        (4, Class::Equal),
        (5, Class::OnlySecond),
        (6, Class::OnlySecond),
        (7, Class::Neither),
        (1 << 32, Class::Neither),
        (u64::MAX, Class::Neither),
    ] {
        assert_eq!(class(&first, &second, index), Ok(expected));
    }
    assert_eq!(class(&second, &first, 5), Ok(Class::OnlyFirst));
}

#[test]
fn the_next_offset_includes_the_given_one() {
    let [first, second] = two();
    for (from, expected) in [
        (0, Some(4)),
        (4, Some(4)),
        (5, Some(16)),
        (16, Some(16)),
        (17, Some(17)),
        (19, Some(19)),
        (20, None),
        (1 << 32, None),
        (u64::MAX, None),
    ] {
        assert_eq!(next(&first, &second, 3, from), Ok(expected));
        assert_eq!(next(&second, &first, 3, from), Ok(expected));
    }
    for index in [0, 2, 4, 5, 6, 7, u64::MAX] {
        assert_eq!(next(&first, &second, index, 0), Ok(None));
    }
    assert_eq!(next(&first, &second, 1, 9), Ok(Some(9)));
    assert_eq!(next(&first, &second, 1, 10), Ok(None));
}

#[test]
fn streams_without_packets() {
    let none = stream(&[]);
    let one = stream(&[packet(7, 8)]);
    assert_eq!(report(&none, &none), "first=none\n");
    assert_eq!(report(&one, &one), "first=none\n0 equal\n");
    assert_eq!(report(&one, &none), "first=0\n0 only_first\n");
    assert_eq!(report(&none, &one), "first=0\n0 only_second\n");
    assert_eq!(class(&none, &none, 0), Ok(Class::Neither));
}

#[test]
fn headers_and_trailing_bytes_never_count() {
    let first = stream(&[destroy(1)]);
    let mut second = [first.clone(), vec![1; 9]].concat();
    put32(&mut second, 4, 0x1_0007);
    second[12..24].fill(0);
    assert_eq!(report(&first, &second), "first=none\n0 equal\n");
    assert_eq!(report(&second, &first), "first=none\n0 equal\n");
}

#[test]
fn unnamed_and_appended_bytes_and_unknown_payloads_count() {
    let changed = |mut bytes: Vec<u8>, at: usize| {
        bytes[at] ^= 1;
        bytes
    };
    for (packet, at) in [
        (target(1), 12),
        (grown(target(1), &[0; 4]), 19),
        (packet(7, 12), 8),
    ] {
        let first = stream(std::slice::from_ref(&packet));
        let second = stream(&[changed(packet, at)]);
        let expected = format!("first=0\n0 same_opcode offsets={}\n", at);
        assert_eq!(report(&first, &second), expected);
    }
}

/// Asserts that every question and the report are refused so.
fn assert_refused(first: &[u8], second: &[u8], error: u32, stream: Which) {
    let refused = Refused { error, stream };
    assert_eq!(check(first, second), Err(refused));
    assert_eq!(parts(first, second), Err(refused));
    assert_eq!(pairs(first, second).err(), Some(refused));
    for number in [0, 1, u64::MAX] {
        assert_eq!(class(first, second, number), Err(refused));
        assert_eq!(next(first, second, number, number), Err(refused));
    }
    let which = if stream == Which::First { 1 } else { 2 };
    let expected = format!("refused={} stream={}\n", error, which);
    assert_eq!(report(first, second), expected);
    assert_eq!(program(&input(first, second)), expected);
}

#[test]
fn refusals() {
    let good = stream(&[destroy(1)]);
    let no_header = &good[..good.len() - 1];
    let bad_packet = stream(&[packet(7, 8), packet(7, 10)]);
    let leftover = stream(&[destroy(1), vec![0; 3]]);
    let short = stream(&[packet(258, 12)]);
    for (bad, error) in [
        (&[][..], 16),
        (no_header, 16),
        (&bad_packet, 17),
        (&leftover, 17),
        (&short, 17),
    ] {
        assert_refused(bad, &good, error, Which::First);
        assert_refused(&good, bad, error, Which::Second);
        assert_refused(bad, bad, error, Which::First);
    }
    assert_refused(&bad_packet, &[], 17, Which::First);
    assert_refused(&[], &bad_packet, 16, Which::First);
}

#[test]
fn packet_rules_are_not_judged() {
    let zero = stream(&[destroy(0), destroy(0)]);
    assert_eq!(report(&zero, &zero), "first=none\n0 equal\n1 equal\n");
}

#[test]
fn bad_inputs() {
    let good = stream(&[]);
    for length in 0..4 {
        assert_eq!(program(&vec![0; length]), "bad input\n");
    }
    assert_eq!(program(&[0; 4]), "refused=16 stream=1\n");
    for length in [25, 26, u32::MAX] {
        let bytes = [&length.to_le_bytes()[..], &good].concat();
        assert_eq!(program(&bytes), "bad input\n");
    }
    assert_eq!(program(&input(&good, &[])), "refused=16 stream=2\n");
    let mut longest = good.clone();
    longest.resize(65_536, 0);
    assert_eq!(program(&input(&longest, &longest)), "first=none\n");
    let longer = [longest.clone(), vec![0]].concat();
    assert_eq!(program(&input(&longer, &good)), "bad input\n");
    assert_eq!(program(&input(&good, &longer)), "bad input\n");
    assert_eq!(report(&longer, &longer), "first=none\n");
}
