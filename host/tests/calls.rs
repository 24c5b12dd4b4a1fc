//! Calls that are refused, and what they leave; registers by name.
mod current;

use current::ticket;
use zelezmut::guest::{self, Descriptor};
use zelezmut::{registers, Desk, Ended, HostAnswer, Ran, Refused, Ticket, Written};

const MEMORY: usize = 4096;

/// A desk with an empty submission in its ring, and its memory.
fn rung() -> (Desk, Vec<u8>) {
    let mut memory = vec![0; MEMORY];
    let slot = Descriptor {
        fence: 7,
        ..Descriptor::default()
    };
    guest::put(&mut memory, 0, &guest::ring(1, 0, 1));
    guest::put(&mut memory, guest::slot_offset(0), &slot.to_bytes());
    let mut desk = Desk::new(MEMORY);
    desk.write(registers::RING_SIZE, guest::ring_size(1))
        .unwrap();
    desk.write(registers::CONTROL, registers::CONTROL_ENABLE)
        .unwrap();
    desk.write(registers::DOORBELL, 1).unwrap();
    (desk, memory)
}

fn registers_of(desk: &Desk) -> Vec<u32> {
    registers::READABLE
        .iter()
        .map(|&offset| desk.read(offset).unwrap())
        .collect()
}

#[test]
fn memory_of_another_length_is_refused_and_left_alone() {
    for length in [0, 1, MEMORY - 1, MEMORY + 1, 2 * MEMORY] {
        let (mut desk, mut memory) = rung();
        let mut other = vec![0xEE; length];
        let before = registers_of(&desk);
        assert_eq!(desk.run(&mut other, 100), Err(Refused::OtherMemory));
        assert_eq!(registers_of(&desk), before);
        let ran = desk.run(&mut memory, 100).unwrap();
        assert_eq!((ran.units, ran.ended), (1, Ended::Waiting));
        assert_eq!(
            desk.answer(&mut other, ticket(&desk), HostAnswer::Good, 100),
            Err(Refused::OtherMemory)
        );
        assert!(other.iter().all(|&byte| byte == 0xEE));
        assert!(desk
            .answer(&mut memory, ticket(&desk), HostAnswer::Good, 0)
            .is_ok());
        assert_eq!(desk.completed_fence(), 7);
    }
}

#[test]
fn another_length_is_told_before_nothing_waits() {
    let mut desk = Desk::new(MEMORY);
    let good = HostAnswer::Good;
    for allowance in [0, 1, u16::MAX] {
        assert_eq!(
            desk.answer(&mut [], Ticket::NONE, good, allowance),
            Err(Refused::OtherMemory)
        );
        assert_eq!(
            desk.answer(&mut [0; MEMORY], Ticket::NONE, good, allowance),
            Err(Refused::NothingWaits)
        );
    }
    assert_eq!(desk.record(0), Err(Refused::NoRecord));
    assert_eq!(desk.records().count(), 0);
}

#[test]
fn a_desk_without_memory_works_too() {
    let mut desk = Desk::new(0);
    desk.write(registers::CONTROL, registers::CONTROL_ENABLE)
        .unwrap();
    desk.write(registers::DOORBELL, 1).unwrap();
    let ended = Ended::Idle;
    assert_eq!(desk.run(&mut [], 100), Ok(Ran { units: 1, ended }));
    assert_eq!(desk.read(registers::ERROR_CODE), Ok(10));
}

#[test]
fn the_named_registers_are_all_there_are() {
    let offsets = (0..0x800).chain([0xFFFF_FFFC, u32::MAX]);
    for offset in offsets {
        let mut desk = Desk::new(MEMORY);
        let readable = registers::READABLE.contains(&offset);
        assert_eq!(desk.read(offset).is_ok(), readable, "read {:x}", offset);
        let writable = registers::WRITABLE.contains(&offset);
        let written = desk.write(offset, 0);
        assert_eq!(written.is_ok(), writable, "write {:x}", offset);
        if !writable {
            assert_eq!(written, Err(Refused::NoRegister));
        }
    }
}

#[test]
fn a_write_says_what_a_host_has_to_know() {
    let mut desk = Desk::new(MEMORY);
    for offset in registers::WRITABLE {
        for value in 0..=4 {
            let expected = match (offset, value) {
                (registers::DOORBELL, _) => Written::Rang,
                (registers::CONTROL, 2 | 3) => Written::Reset,
                _ => Written::Stored,
            };
            assert_eq!(desk.write(offset, value), Ok(expected), "{:x}", offset);
        }
    }
    assert_eq!(desk.write(registers::MAGIC, 2), Err(Refused::NoRegister));
}

#[test]
fn registers_have_names() {
    for offset in 0..0x800 {
        let named = [&registers::READABLE[..], &registers::WRITABLE]
            .concat()
            .contains(&offset);
        assert_eq!(registers::name(offset).is_some(), named, "{:x}", offset);
    }
}

#[test]
fn a_desk_is_shown_with_names_and_in_hex() {
    let (mut desk, mut memory) = rung();
    let shown = format!("{:?}", desk);
    assert!(shown.starts_with("Desk { MAGIC: 0x55504741, VERSION: 0x10003, "));
    assert!(shown.contains(" CONTROL: 0x1, "), "{}", shown);
    assert!(
        shown.ends_with("waiting: None, memory_len: 4096 }"),
        "{}",
        shown
    );
    desk.run(&mut memory, 100).unwrap();
    let shown = format!("{:?}", desk);
    assert!(shown.contains("waiting: Some(Waiting {"), "{}", shown);
}

#[test]
fn a_desk_knows_its_memorys_length() {
    for length in [0, 1, MEMORY, usize::MAX] {
        assert_eq!(Desk::new(length).memory_len(), length);
    }
}

#[test]
fn a_clone_goes_its_own_way() {
    let (mut desk, mut memory) = rung();
    desk.run(&mut memory, 100).unwrap();
    let (mut other, mut copy) = (desk.clone(), memory.clone());
    other
        .answer(&mut copy, ticket(&other), HostAnswer::Failed, 0)
        .unwrap();
    desk.answer(&mut memory, ticket(&desk), HostAnswer::Good, 0)
        .unwrap();
    assert_eq!(desk.last_error(), None);
    assert_eq!(other.last_error().map(|e| e.fence), Some(7));
}

#[test]
fn a_reset_keeps_the_error_and_the_ring() {
    let (mut desk, mut memory) = rung();
    desk.run(&mut memory, 100).unwrap();
    desk.answer(&mut memory, ticket(&desk), HostAnswer::Failed, 0)
        .unwrap();
    desk.write(registers::CONTROL, registers::CONTROL_RESET)
        .unwrap();
    assert_eq!(desk.completed_fence(), 0);
    assert_eq!(desk.read(registers::CONTROL), Ok(0));
    assert_eq!(desk.read(registers::IRQ_STATUS), Ok(0));
    assert_eq!(desk.read(registers::RING_SIZE), Ok(guest::ring_size(1)));
    assert_eq!(desk.last_error().map(|e| e.count), Some(1));
}

#[test]
fn a_desk_can_go_to_another_thread() {
    fn goes<T: Send + Sync>(_: &T) {}
    let desk = Desk::new(MEMORY);
    goes(&desk);
}
