//! Examples of document 01 through the Rust crate: the whole submissions 9 and 10, some of the small ones, and longer packets.
mod current;

use current::ticket;
use zelezmut::guest::{self, Backing, Descriptor, Entry, Packet, Part, Shape};
use zelezmut::{
    packed_size, registers, table_error, Desk, DeviceError, Ended, ErrorReport, HostAnswer, Place,
    Ran, Range, Record, Refused, TableError,
};

const MEMORY: usize = 16_384;
const TABLE: usize = 1024;
const STREAM: usize = 2048;
const FENCE_PAGE: usize = 4096;

fn entry(id: u32, gpa: u64, size: u64) -> Entry {
    Entry {
        id,
        gpa,
        size,
        read_only: false,
    }
}

/// A desk whose guest has put one submission with fence 1 into its ring, and rung.
fn one_submission(entries: &[Entry], packets: &[Packet]) -> (Desk, Vec<u8>) {
    one_stream(entries, &guest::stream(packets))
}

fn one_stream(entries: &[Entry], stream: &[u8]) -> (Desk, Vec<u8>) {
    let mut memory = vec![0; MEMORY];
    let table = guest::table(entries);
    let slot = Descriptor {
        commands: Part::of(STREAM as u64, stream),
        table: Part::of(TABLE as u64, &table),
        fence: 1,
        silent: false,
    };
    guest::put(&mut memory, 0, &guest::ring(8, 0, 1));
    guest::put(&mut memory, guest::slot_offset(0), &slot.to_bytes());
    guest::put(&mut memory, TABLE, &table);
    guest::put(&mut memory, STREAM, stream);

    let mut desk = Desk::new(MEMORY);
    for (offset, value) in [
        (registers::RING_SIZE, guest::ring_size(8)),
        (registers::FENCE_GPA_LO, FENCE_PAGE as u32),
        (registers::IRQ_ENABLE, registers::IRQ_FENCE),
        (registers::CONTROL, registers::CONTROL_ENABLE),
        (registers::DOORBELL, 0),
    ] {
        assert!(desk.write(offset, value).is_ok());
    }
    (desk, memory)
}

fn example_9() -> (Desk, Vec<u8>) {
    one_submission(
        &[entry(5, 8192, 4096)],
        &[
            Packet::CreateBuffer {
                handle: 1,
                size: 256,
                backing: Some(Backing { id: 5, offset: 64 }),
            },
            Packet::DirtyRange {
                handle: 1,
                offset: 16,
                size: 32,
            },
        ],
    )
}

fn example_10() -> (Desk, Vec<u8>) {
    one_submission(
        &[entry(5, 8192, 4096), entry(5, 12_288, 4096)],
        &[Packet::Destroy { handle: 1 }],
    )
}

fn ran(units: u16, ended: Ended) -> Result<Ran, Refused> {
    Ok(Ran { units, ended })
}

#[test]
fn example_9_waits_after_4_units_with_two_records() {
    let (mut desk, mut memory) = example_9();
    assert_eq!(desk.run(&mut memory, 100), ran(4, Ended::Waiting));
    let backs = Record::Backs(Range {
        handle: 1,
        id: 5,
        gpa: 8256,
        length: 256,
    });
    let reads = Record::Reads(Range {
        handle: 1,
        id: 5,
        gpa: 8272,
        length: 32,
    });
    assert_eq!(desk.record(0), Ok(backs));
    assert_eq!(desk.record(1), Ok(reads));
    assert_eq!(desk.record(2), Err(Refused::NoRecord));
    assert_eq!(desk.record(u32::MAX), Err(Refused::NoRecord));
    assert_eq!(desk.records().collect::<Vec<_>>(), [backs, reads]);
}

#[test]
fn example_9_unit_by_unit_is_the_same() {
    let (mut desk, mut memory) = example_9();
    for _ in 0..3 {
        assert_eq!(desk.run(&mut memory, 1), ran(1, Ended::Paused));
        assert_eq!(desk.records().count(), 0);
    }
    assert_eq!(desk.run(&mut memory, 1), ran(1, Ended::Waiting));
    assert_eq!(desk.run(&mut memory, 1), ran(0, Ended::Waiting));
    assert_eq!(desk.records().count(), 2);
}

#[test]
fn a_good_answer_finishes_the_fence_and_writes_head_and_page() {
    let (mut desk, mut memory) = example_9();
    desk.run(&mut memory, 4).unwrap();
    let mut expected = memory.clone();
    guest::put(&mut expected, 24, &1u32.to_le_bytes());
    guest::put(&mut expected, FENCE_PAGE, b"FENC\x03\x00\x01\x00");
    guest::put(&mut expected, FENCE_PAGE + 8, &1u64.to_le_bytes());

    assert!(!desk.interrupts());
    let answered = desk.answer(&mut memory, ticket(&desk), HostAnswer::Good, 0);
    assert_eq!(answered, ran(0, Ended::Paused));
    assert!(memory == expected);
    assert_eq!(desk.completed_fence(), 1);
    assert!(desk.interrupts());
    assert_eq!(desk.last_error(), None);
    assert_eq!(desk.records().count(), 0);
    assert_eq!(
        desk.answer(&mut memory, ticket(&desk), HostAnswer::Good, 100),
        Err(Refused::NothingWaits)
    );
    assert_eq!(desk.run(&mut memory, 100), ran(1, Ended::Idle));
}

#[test]
fn a_failed_answer_is_error_27() {
    let (mut desk, mut memory) = example_9();
    desk.run(&mut memory, 4).unwrap();
    let answered = desk.answer(&mut memory, ticket(&desk), HostAnswer::Failed, 100);
    assert_eq!(answered, ran(1, Ended::Idle));
    assert_eq!(
        desk.last_error(),
        Some(ErrorReport {
            error: DeviceError::HostFailed,
            place: Place::Nowhere,
            fence: 1,
            count: 1
        })
    );
    assert_eq!(desk.completed_fence(), 1);
}

#[test]
fn example_10_is_refused_with_15_after_3_units() {
    let (mut desk, mut memory) = example_10();
    assert_eq!(desk.run(&mut memory, 2), ran(2, Ended::Paused));
    assert_eq!(desk.last_error(), None);
    assert_eq!(desk.run(&mut memory, 1), ran(1, Ended::Paused));
    let error = desk.last_error().unwrap();
    assert_eq!(error.error, DeviceError::TwiceInTable);
    assert_eq!(error.place, Place::Entry(1));
    assert_eq!((error.fence, error.count), (1, 1));
    assert_eq!(desk.completed_fence(), 1);

    // A refusal does not stop a run: a fourth unit finds no more work.
    let (mut desk, mut memory) = example_10();
    assert_eq!(desk.run(&mut memory, 100), ran(4, Ended::Idle));
}

/// One of each known packet, in an order in which all of them pass.
fn known_packets() -> [Packet; 5] {
    let backing = Some(Backing { id: 5, offset: 64 });
    [
        Packet::CreateBuffer {
            handle: 1,
            size: 256,
            backing,
        },
        Packet::CreateTexture {
            handle: 2,
            shape: Shape {
                format: 1,
                width: 4,
                height: 4,
                mips: 1,
                layers: 1,
                pitch: 16,
            },
            backing,
        },
        Packet::DirtyRange {
            handle: 2,
            offset: 16,
            size: 32,
        },
        Packet::CopyBuffer {
            destination: 1,
            source: 3,
            destination_offset: 8,
            source_offset: 0,
            size: 16,
            writeback: true,
        },
        Packet::Destroy { handle: 2 },
    ]
}

/// A host-backed buffer to copy from, and these packets.
fn after_a_source(packets: &[Vec<u8>]) -> Vec<Vec<u8>> {
    let source = Packet::CreateBuffer {
        handle: 3,
        size: 64,
        backing: None,
    };
    [&[source.to_bytes()], packets].concat()
}

/// What a stream over one entry comes to: how the run ends, its records, and the error.
fn played(packets: &[Vec<u8>]) -> (Ran, Vec<Record>, Option<DeviceError>) {
    let stream = guest::stream_of(&after_a_source(packets));
    let (mut desk, mut memory) = one_stream(&[entry(5, 8192, 4096)], &stream);
    let ran = desk.run(&mut memory, 100).unwrap();
    let error = desk.last_error().map(|report| report.error);
    (ran, desk.records().collect(), error)
}

#[test]
fn grown_packets_pass_and_what_is_appended_is_ignored() {
    let plain = known_packets().map(|packet| packet.to_bytes());
    let as_before = played(&plain);
    let (ran, records, error) = &as_before;
    assert_eq!((ran.units, ran.ended), (8, Ended::Waiting));
    assert_eq!((records.len(), *error), (4, None));
    // What is appended looks like a packet of its own, and is none.
    let destroy = Packet::Destroy { handle: 1 }.to_bytes();
    let words: Vec<u32> = destroy
        .chunks_exact(4)
        .map(|word| u32::from_le_bytes(word.try_into().unwrap()))
        .collect();
    for appended in [&words[..1], &words, &[0; 16], &[u32::MAX; 100]] {
        for i in 0..plain.len() {
            let mut grown = plain.clone();
            grown[i] = known_packets()[i].grown(appended);
            assert_eq!(played(&grown), as_before, "packet {} grown", i);
        }
        let all = known_packets().map(|packet| packet.grown(appended));
        assert_eq!(played(&all), as_before);
    }
}

#[test]
fn shorter_packets_and_those_past_the_stream_are_17() {
    for (i, packet) in known_packets().iter().enumerate() {
        let before = known_packets().map(|packet| packet.to_bytes())[..i].to_vec();
        let mut short = packet.to_bytes();
        short.truncate(short.len() - 4);
        let size = short.len() as u32;
        guest::put(&mut short, 4, &size.to_le_bytes());
        // One word past the stream's end, which it would reach exactly.
        let mut past = packet.grown(&[0; 4]);
        let size = past.len() as u32 + 4;
        guest::put(&mut past, 4, &size.to_le_bytes());
        for wrong in [short, past] {
            let (ran, records, error) = played(&[before.clone(), vec![wrong]].concat());
            assert_eq!(ran.ended, Ended::Idle);
            assert_eq!(error, Some(DeviceError::BadPacket), "packet {}", i);
            assert!(records.is_empty());
        }
    }
}

#[test]
fn examples_1_to_4_packed_sizes() {
    assert_eq!(packed_size(1, 5, 3, 3, 1, 20), Some(72));
    assert_eq!(packed_size(1, 5, 3, 3, 1, 32), Some(108));
    assert_eq!(packed_size(1, 5, 3, 3, 2, 20), Some(144));
    assert_eq!(packed_size(64, 5, 5, 3, 1, 16), Some(48));
    assert_eq!(packed_size(64, 5, 5, 3, 1, 15), None);
    assert!(packed_size(1, 16_384, 1, 15, 1, 65_536).is_some());
    assert_eq!(packed_size(1, 16_384, 1, 16, 1, 65_536), None);
    assert_eq!(packed_size(1, 1, 1, 2, 1, 4), None);
}

fn at_entry(error: DeviceError, index: u32) -> Option<TableError> {
    let entry = Some(index);
    Some(TableError { error, entry })
}

fn of_the_header(error: DeviceError) -> Option<TableError> {
    Some(TableError { error, entry: None })
}

#[test]
fn example_8_a_table_that_fits_and_one_that_does_not() {
    let fits = guest::table(&[entry(1, 0, 4096)]);
    let past = guest::table(&[entry(1, 1, 4096)]);
    assert_eq!(table_error(&fits, 4096), None);
    let expected = at_entry(DeviceError::BadEntry, 0);
    assert_eq!(table_error(&past, 4096), expected);
}

#[test]
fn a_table_of_any_length_is_judged() {
    let table = guest::table(&[entry(1, 0, 16), entry(1, 0, 16)]);
    let expected = at_entry(DeviceError::TwiceInTable, 1);
    assert_eq!(table_error(&table, 64), expected);
    for cut in 0..table.len() {
        assert_eq!(
            table_error(&table[..cut], 64),
            of_the_header(DeviceError::BadTable),
            "cut at {}",
            cut
        );
    }
    let entries: Vec<Entry> = (1..=65).map(|id| entry(id, 0, 1)).collect();
    assert_eq!(table_error(&guest::table(&entries[..64]), 64), None);
    assert_eq!(
        table_error(&guest::table(&entries), 64),
        of_the_header(DeviceError::TooMany)
    );
}
