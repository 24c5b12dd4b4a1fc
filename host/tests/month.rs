//! The month in numbers: what is counted and what is not, from plain values and from desks, in any parts.
mod night;

use night::Night;
use zelezmut::guest::{Backing, Packet};
use zelezmut::{DeviceError, Ended, HostAnswer, Month, NotCounted, Range, Record, Rectangle};

const MOST: u64 = u64::MAX;

fn range(length: u64) -> Range {
    Range {
        handle: 1,
        id: 5,
        gpa: 8192,
        length,
    }
}

/// The totals that are not 0, by their names.
fn lines(month: &Month) -> Vec<String> {
    let text = month.to_string();
    let counted = text.lines().filter(|line| !line.ends_with("=0"));
    counted.map(str::to_string).collect()
}

#[test]
fn a_new_month_is_all_zeros_in_the_published_order() {
    let mut expected = String::from("accepted=0\n");
    for error in 10..=30 {
        expected += &format!("refused_{}=0\n", error);
    }
    expected += "units=0\nbytes_read=0\nbytes_written=0\nlargest_write=0\n";
    assert_eq!(Month::new().to_string(), expected);
    assert_eq!(Month::new().words(), [0; 26]);
    assert_eq!(Month::default(), Month::new());
}

#[test]
fn each_kind_counts_what_it_says() {
    let mut month = Month::new();
    let clips = Record::Clips(Rectangle {
        left: 1,
        top: 2,
        width: 3,
        height: 4,
    });
    let records = [
        Record::Backs(range(1)),
        Record::Reads(range(20)),
        Record::Writes(range(300)),
        Record::Writes(range(400)),
        clips,
    ];
    assert_eq!(month.feed(None, 8, &records), Ok(()));
    assert_eq!(month.feed(None, 1, &[]), Ok(()));
    assert_eq!((month.accepted(), month.units()), (2, 9));
    assert_eq!((month.bytes_read(), month.bytes_written()), (20, 700));
    assert_eq!(month.largest_write(), 400);
    for error in DeviceError::ALL {
        assert_eq!(month.refused(error), 0);
    }
}

#[test]
fn each_error_has_a_total_of_its_own() {
    for error in DeviceError::ALL {
        let mut month = Month::new();
        assert_eq!(month.feed(Some(error), 3, &[]), Ok(()));
        assert_eq!((month.refused(error), month.units()), (1, 3));
        let refused = format!("refused_{}=1", error.number());
        assert_eq!(lines(&month), [refused, "units=3".to_string()]);
        assert_eq!(month.words()[error.number() as usize - 9], 1);
    }
}

#[test]
fn what_is_no_finished_submission_counts_nothing() {
    let mut month = Month::new();
    month.feed_numbers(0, 5, &[(3, 50)]).unwrap();
    let before = month.clone();
    let bad = Err(NotCounted::BadFeed);
    for error in (1..10).chain(31..100).chain([u32::MAX]) {
        assert_eq!(month.feed_numbers(error, 1, &[]), bad, "{}", error);
    }
    for kind in [0, 5, 6, u32::MAX] {
        let records = [(3, 100), (kind, 1)];
        assert_eq!(month.feed_numbers(0, 1, &records), bad, "{}", kind);
    }
    for error in DeviceError::ALL {
        let beside = [Record::Writes(range(100))];
        assert_eq!(month.feed(Some(error), 1, &beside), bad, "{}", error);
    }
    assert_eq!(month.feed_numbers(0, 1, &[(3, 100); 65]), bad);
    assert_eq!(month.feed_numbers(0, 1, &vec![(3, 100); 100_000]), bad);
    // 10 comes before 9.
    assert_eq!(month.feed_numbers(0, 1, &[(2, MOST), (2, 1), (9, 0)]), bad);
    assert_eq!(month, before);
    assert_eq!(month.feed_numbers(0, 1, &[(3, 1); 64]), Ok(()));
    assert_eq!((month.bytes_written(), month.largest_write()), (114, 50));
}

/// A submission that adds 1 to the total at this place, or to others.
fn adds_at(place: usize) -> (u32, u32, Vec<(u32, u64)>) {
    match place {
        0 => (0, 0, vec![]),
        22 => (0, 1, vec![]),
        23 => (0, 0, vec![(2, 1)]),
        24 => (0, 0, vec![(3, 1)]),
        error => (error as u32 + 9, 0, vec![]),
    }
}

#[test]
fn every_total_reaches_2_64_less_1_and_no_more() {
    for place in 0..25 {
        let (error, units, records) = adds_at(place);
        let mut words = [7; 26];
        words[place] = MOST - 1;
        let mut month = Month::from_words(words);
        assert_eq!(month.feed_numbers(error, units, &records), Ok(()));
        assert_eq!(month.words()[place], MOST);
        let full = month.clone();
        let refused = month.feed_numbers(error, units, &records);
        assert_eq!(refused, Err(NotCounted::TooMuch), "{}", place);
        // What adds nothing there is counted still.
        let elsewhere = if place == 1 { 11 } else { 10 };
        assert_eq!(month, full);
        assert_eq!(month.merge(&Month::new()), Ok(()));
        assert_eq!(month, full);
        assert_eq!(month.feed_numbers(elsewhere, 0, &[]), Ok(()));
        assert_eq!(month.merge(&full), Err(NotCounted::TooMuch));
    }
    // The largest write is no sum.
    let mut month = Month::from_words([0; 26]);
    month.feed_numbers(0, 0, &[(3, MOST)]).unwrap();
    let refused = month.feed_numbers(0, 0, &[(3, 1)]);
    assert_eq!(refused, Err(NotCounted::TooMuch));
    let mut words = [0; 26];
    words[25] = MOST;
    let mut other = Month::from_words(words);
    assert_eq!(other.merge(&Month::from_words(words)), Ok(()));
    assert_eq!(other.largest_write(), MOST);
}

#[test]
fn lengths_of_one_submission_that_reach_2_64_are_refused() {
    let mut month = Month::new();
    for kind in [2, 3] {
        let refused = month.feed_numbers(0, 1, &[(kind, MOST), (kind, 1)]);
        assert_eq!(refused, Err(NotCounted::TooMuch));
    }
    assert_eq!(month, Month::new());
    assert_eq!(
        month.feed_numbers(0, 1, &[(1, MOST), (4, MOST), (1, 1)]),
        Ok(())
    );
    assert_eq!((month.bytes_read(), month.bytes_written()), (0, 0));
}

#[test]
fn parts_merged_in_any_split_are_the_whole() {
    let submissions: Vec<(u32, u32, Vec<(u32, u64)>)> = (0..60u32)
        .map(|i| match i % 5 {
            0 => (10 + i % 21, i, vec![]),
            1 => (0, i, vec![(2, u64::from(i)), (3, u64::from(i * i % 97))]),
            2 => (9, i, vec![]),
            3 => (17, i, vec![(2, 1)]),
            _ => (0, i, vec![(3, 5), (4, 9)]),
        })
        .collect();
    let feed = |part: &[(u32, u32, Vec<(u32, u64)>)]| {
        let mut month = Month::new();
        for (error, units, records) in part {
            let _ = month.feed_numbers(*error, *units, records);
        }
        month
    };
    let whole = feed(&submissions);
    assert_eq!(
        (whole.accepted(), whole.refused(DeviceError::BadPacket)),
        (24, 0)
    );
    for split in 0..=submissions.len() {
        let (first, second) = submissions.split_at(split);
        let mut merged = feed(first);
        assert_eq!(merged.merge(&feed(second)), Ok(()));
        assert_eq!(merged, whole, "{}", split);
    }
}

#[test]
fn words_go_out_and_in() {
    let mut month = Month::new();
    month.feed_numbers(30, 2, &[]).unwrap();
    month.feed_numbers(0, 2, &[(3, 9)]).unwrap();
    assert_eq!(Month::from_words(month.words()), month);
}

#[test]
fn a_refusal_has_its_number_and_its_words() {
    assert_eq!(NotCounted::TooMuch.number(), 9);
    assert_eq!(NotCounted::BadFeed.number(), 10);
    assert_eq!(NotCounted::TooMuch.to_string(), "a total would reach 2^64");
    assert!(NotCounted::BadFeed.to_string().contains("beside an error"));
}

/// One buffer in guest memory, a part of which the guest has changed.
fn packets() -> [Packet; 2] {
    [
        Packet::CreateBuffer {
            handle: 1,
            size: 256,
            backing: Some(Backing { id: 5, offset: 64 }),
        },
        Packet::DirtyRange {
            handle: 1,
            offset: 16,
            size: 32,
        },
    ]
}

#[test]
fn what_waits_at_a_desk_is_counted_as_it_is_answered() {
    let mut night = Night::new();
    let mut month = Month::new();
    assert_eq!(month.feed_waiting(&night.desk, HostAnswer::Good, 9), Ok(()));
    assert_eq!(month, Month::new());

    night.submit(1, &[5], &packets());
    assert_eq!(night.run(100), Ended::Waiting);
    let records: Vec<Record> = night.desk.records().collect();
    for (answer, expected) in [
        (
            HostAnswer::Good,
            &["accepted=1", "units=4", "bytes_read=32"][..],
        ),
        (HostAnswer::Failed, &["refused_27=1", "units=4"][..]),
    ] {
        let mut month = Month::new();
        assert_eq!(month.feed_waiting(&night.desk, answer, 4), Ok(()));
        assert_eq!(lines(&month), expected);
    }
    // The same, by the records that the desk gives.
    let mut by_records = Month::new();
    by_records.feed(None, 4, &records).unwrap();
    month
        .feed_waiting(&night.desk, HostAnswer::Good, 4)
        .unwrap();
    assert_eq!(month, by_records);

    // Once it is answered it is no longer the desk's to count.
    let ticket = night.desk.waiting().unwrap().ticket;
    night.answer(ticket, HostAnswer::Good, 0).unwrap();
    assert_eq!(month.feed_waiting(&night.desk, HostAnswer::Good, 4), Ok(()));
    assert_eq!(month, by_records);

    // One that breaks a rule is counted by the error that the desk tells.
    night.submit(2, &[5, 5], &packets());
    assert_eq!(night.run(100), Ended::Idle);
    let error = night.desk.last_error().unwrap().error;
    month.feed(Some(error), 3, &[]).unwrap();
    assert_eq!(month.refused(DeviceError::TwiceInTable), 1);
    assert_eq!(month.units(), 7);
}

#[test]
fn all_64_records_of_a_submission_are_counted() {
    let mut night = Night::new();
    let create = packets()[0];
    let dirty = (0..63).map(|i| Packet::DirtyRange {
        handle: 1,
        offset: i,
        size: 1 + i,
    });
    let all: Vec<Packet> = std::iter::once(create).chain(dirty).collect();
    night.submit(1, &[5], &all);
    assert_eq!(night.run(100), Ended::Waiting);
    let mut month = Month::new();
    month
        .feed_waiting(&night.desk, HostAnswer::Good, 66)
        .unwrap();
    assert_eq!(month.bytes_read(), 63 * 64 / 2);
}

const STORED_INPUT: &[u8] = include_bytes!("../../crates/program_month/stdin");
const STORED_LINES: &str = include_str!("../../crates/program_month/stdout");

/// The little-endian number that the bytes begin with; they go on after it.
fn number(bytes: &mut &[u8], length: usize) -> u64 {
    let (number, rest) = bytes.split_at(length);
    *bytes = rest;
    let digits = number.iter().rev();
    digits.fold(0, |high, &low| high << 8 | u64::from(low))
}

/// The gate holds `program_month` to a stored input and its lines; a month gives the same.
#[test]
fn the_stored_input_gives_the_stored_lines() {
    let (mut input, mut lines) = (STORED_INPUT, String::new());
    let mut month = Month::new();
    for i in 0.. {
        if input.is_empty() {
            break;
        }
        let [error, units, count] = [4; 3].map(|length| number(&mut input, length) as u32);
        let mut record = |_| (number(&mut input, 4) as u32, number(&mut input, 8));
        let records: Vec<(u32, u64)> = (0..count).map(&mut record).collect();
        if let Err(refused) = month.feed_numbers(error, units, &records) {
            lines += &format!("submission={} answer={}\n", i, refused.number());
        }
    }
    assert_eq!(lines + &month.to_string(), STORED_LINES);
}
