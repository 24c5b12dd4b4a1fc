//! Where it broke: the error report through the desk, at entries, at packets and at neither.
mod current;

use current::ticket;
use zelezmut::guest::{self, Descriptor, Entry, Packet, Part};
use zelezmut::{
    registers, table_error, Desk, DeviceError, Ended, ErrorReport, HostAnswer, Place, TableError,
};

const MEMORY: usize = 16_384;
const TABLE: usize = 1024;
const STREAM: usize = 8192;

/// A device of one guest that submits one thing after the other. Each has the number of submissions so far as its fence.
struct Night {
    desk: Desk,
    memory: Vec<u8>,
    submitted: u32,
}

impl Night {
    fn new() -> Night {
        let mut desk = Desk::new(MEMORY);
        desk.write(registers::RING_SIZE, guest::ring_size(1))
            .unwrap();
        let mut night = Night {
            desk,
            memory: vec![0; MEMORY],
            submitted: 0,
        };
        night.write(registers::CONTROL, registers::CONTROL_ENABLE);
        night
    }

    fn write(&mut self, offset: u32, value: u32) {
        self.desk.write(offset, value).unwrap();
    }

    /// Runs a submission until it waits or is refused.
    fn submit(&mut self, table: &[u8], stream: &[u8]) -> Ended {
        let head = self.submitted;
        self.submitted += 1;
        let slot = Descriptor {
            commands: Part::of(STREAM as u64, stream),
            table: Part::of(TABLE as u64, table),
            fence: self.submitted.into(),
            silent: false,
        };
        guest::put(&mut self.memory, 0, &guest::ring(1, head, self.submitted));
        guest::put(&mut self.memory, guest::slot_offset(0), &slot.to_bytes());
        guest::put(&mut self.memory, TABLE, table);
        guest::put(&mut self.memory, STREAM, stream);
        self.write(registers::DOORBELL, 1);
        self.desk.run(&mut self.memory, u16::MAX).unwrap().ended
    }

    fn error_and_place(&self) -> (u32, Place) {
        let report = self.desk.last_error().unwrap();
        (report.error.number(), report.place)
    }

    fn detail(&self) -> u32 {
        self.desk.read(registers::ERROR_DETAIL).unwrap()
    }
}

/// What a submission of these entries and packets is refused with.
fn refusal(entries: &[Entry], packets: &[Vec<u8>]) -> (u32, Place) {
    let mut night = Night::new();
    let ended = night.submit(&guest::table(entries), &guest::stream_of(packets));
    assert_eq!(ended, Ended::Idle);
    night.error_and_place()
}

/// Entries with ids from 1.
fn entries(count: u32) -> Vec<Entry> {
    let entry = |id| Entry {
        id,
        gpa: 0,
        size: 16,
        read_only: false,
    };
    (1..=count).map(entry).collect()
}

fn create(handle: u32) -> Packet {
    Packet::CreateBuffer {
        handle,
        size: 16,
        backing: None,
    }
}

fn destroy(handle: u32) -> Packet {
    Packet::Destroy { handle }
}

#[test]
fn a_refusal_at_an_entry_is_reported_with_its_index() {
    let mut night = Night::new();
    let mut twice = entries(3);
    twice[2].id = twice[0].id;
    let table = guest::table(&twice);
    night.submit(&table, &guest::stream(&[destroy(1)]));
    let report = night.desk.last_error().unwrap();
    assert_eq!(
        report,
        ErrorReport {
            error: DeviceError::TwiceInTable,
            place: Place::Entry(2),
            fence: 1,
            count: 1,
        }
    );
    assert_eq!(
        report.to_string(),
        "error 15 at table entry 2, fence 1: two table entries have one id"
    );
    assert_eq!(night.detail(), 2);

    let error = table_error(&table, MEMORY as u64).unwrap();
    let expected = TableError {
        error: DeviceError::TwiceInTable,
        entry: Some(2),
    };
    assert_eq!(error, expected);
    assert_eq!(
        error.to_string(),
        "error 15 at table entry 2: two table entries have one id"
    );
}

#[test]
fn a_refusal_at_a_packet_is_reported_with_its_offset() {
    let mut night = Night::new();
    night.submit(
        &guest::table(&entries(3)),
        &guest::stream(&[create(1), destroy(9)]),
    );
    let report = night.desk.last_error().unwrap();
    assert_eq!(
        report,
        ErrorReport {
            error: DeviceError::BadHandle,
            place: Place::Packet(24 + 40),
            fence: 1,
            count: 1,
        }
    );
    assert_eq!(
        report.to_string(),
        "error 18 at byte 64 of the stream, fence 1: a handle is 0, taken, or not a live resource of the kind"
    );
    assert_eq!(night.detail(), 64);
}

#[test]
fn an_error_without_a_place_is_reported_without_one() {
    let mut night = Night::new();
    assert_eq!(night.submit(&guest::table(&[]), b"ACMD"), Ended::Idle);
    let report = night.desk.last_error().unwrap();
    assert_eq!(
        report.to_string(),
        "error 16, fence 1: the stream's header breaks a rule"
    );
    night.write(registers::RING_SIZE, 0);
    night.write(registers::DOORBELL, 1);
    night.desk.run(&mut night.memory, 1).unwrap();
    let report = night.desk.last_error().unwrap();
    assert_eq!(report.to_string(), "error 10: the ring breaks a rule");

    let error = table_error(&[], 0).unwrap();
    assert_eq!(error.entry, None);
    assert_eq!(
        error.to_string(),
        "error 13: the table's header breaks a rule"
    );
}

#[test]
fn the_first_entry_is_a_place_though_its_index_is_0() {
    for (index, at) in [(0, 0), (1, 1), (63, 63)] {
        let mut bad = entries(64);
        bad[index].id = 0;
        assert_eq!(refusal(&bad, &[]), (14, Place::Entry(at)));
        let error = table_error(&guest::table(&bad), MEMORY as u64).unwrap();
        assert_eq!((error.error.number(), error.entry), (14, Some(at)));
    }
}

#[test]
fn offsets_count_every_byte_before_the_packet() {
    let dead = destroy(9).to_bytes();
    let other = Packet::Unknown {
        opcode: 7,
        size: 12,
    };
    let grown = create(1).grown(&[0; 5]);
    for (before, offset) in [
        (vec![], 24),
        (vec![other.to_bytes()], 36),
        (vec![grown.clone()], 84),
        (vec![grown, other.to_bytes()], 96),
    ] {
        let broken = [before.clone(), vec![dead.clone()]].concat();
        assert_eq!(refusal(&[], &broken), (18, Place::Packet(offset)));
        // Fewer bytes than a packet's header are no packet; they have a place all the same.
        let left_over = [before, vec![vec![0; 4]]].concat();
        assert_eq!(refusal(&[], &left_over), (17, Place::Packet(offset)));
    }
}

#[test]
fn too_many_of_a_packet_has_a_place_and_too_many_entries_have_none() {
    let many: Vec<Vec<u8>> = (1..=65).map(|handle| create(handle).to_bytes()).collect();
    assert_eq!(refusal(&[], &many), (19, Place::Packet(24 + 64 * 40)));
    assert_eq!(refusal(&entries(65), &[]), (19, Place::Nowhere));
    let error = table_error(&guest::table(&entries(65)), MEMORY as u64).unwrap();
    assert_eq!((error.error.number(), error.entry), (19, None));
}

#[test]
fn the_place_stays_until_the_next_error() {
    let mut night = Night::new();
    let table = guest::table(&[]);
    night.submit(&table, &guest::stream(&[create(1), destroy(9)]));
    let there = (18, Place::Packet(64));
    assert_eq!(night.error_and_place(), there);

    night.write(registers::IRQ_ACK, u32::MAX);
    assert_eq!(night.error_and_place(), there);
    let both = registers::CONTROL_RESET | registers::CONTROL_ENABLE;
    night.write(registers::CONTROL, both);
    assert_eq!(night.error_and_place(), there);

    let good = guest::stream(&[create(1)]);
    assert_eq!(night.submit(&table, &good), Ended::Waiting);
    night
        .desk
        .answer(&mut night.memory, ticket(&night.desk), HostAnswer::Good, 0)
        .unwrap();
    assert_eq!(night.error_and_place(), there);

    let good = guest::stream(&[destroy(1)]);
    assert_eq!(night.submit(&table, &good), Ended::Waiting);
    night
        .desk
        .answer(
            &mut night.memory,
            ticket(&night.desk),
            HostAnswer::Failed,
            0,
        )
        .unwrap();
    assert_eq!(night.error_and_place(), (27, Place::Nowhere));
    assert_eq!(night.detail(), 0);
}
