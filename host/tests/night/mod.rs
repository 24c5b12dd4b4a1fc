//! For tests that play a guest's driver: a desk, its memory, and submissions one after the other.
// Each file of tests takes what it needs of this.
#![allow(dead_code)]

use zelezmut::guest::{self, Descriptor, Entry, Packet, Part};
use zelezmut::{registers, Desk, Ended, HostAnswer, Refused, Ticket};

pub const MEMORY: usize = 16_384;
const SLOTS: u32 = 4;
const TABLE: usize = 1024;
const STREAM: usize = 2048;

#[derive(Clone)]
pub struct Night {
    pub desk: Desk,
    pub memory: Vec<u8>,
    tail: u32,
}

impl Night {
    /// The driver begins: an empty ring at address 0, and the device enabled.
    pub fn new() -> Night {
        let mut night = Night {
            desk: Desk::new(MEMORY),
            memory: vec![0; MEMORY],
            tail: 0,
        };
        night.write(registers::RING_SIZE, guest::ring_size(SLOTS));
        night.start(registers::CONTROL_ENABLE);
        night
    }

    /// The ring is empty, as at the beginning, and control is written.
    pub fn start(&mut self, control: u32) {
        self.tail = 0;
        guest::put(&mut self.memory, 0, &guest::ring(SLOTS, 0, 0));
        self.write(registers::CONTROL, control);
    }

    pub fn write(&mut self, offset: u32, value: u32) {
        self.desk.write(offset, value).unwrap();
    }

    /// The driver submits packets with a table of these ids, and rings the doorbell.
    pub fn submit(&mut self, fence: u64, ids: &[u32], packets: &[Packet]) {
        let entry = |&id| Entry {
            id,
            gpa: 8192,
            size: 4096,
            read_only: false,
        };
        let entries: Vec<Entry> = ids.iter().map(entry).collect();
        let (table, stream) = (guest::table(&entries), guest::stream(packets));
        let descriptor = Descriptor {
            commands: Part::of(STREAM as u64, &stream),
            table: Part::of(TABLE as u64, &table),
            fence,
            silent: false,
        };
        let slot = guest::slot_offset(self.tail % SLOTS);
        self.tail += 1;
        guest::put_tail(&mut self.memory, 0, self.tail);
        guest::put(&mut self.memory, slot, &descriptor.to_bytes());
        guest::put(&mut self.memory, TABLE, &table);
        guest::put(&mut self.memory, STREAM, &stream);
        self.write(registers::DOORBELL, 1);
    }

    pub fn run(&mut self, allowance: u16) -> Ended {
        let ran = self.desk.run(&mut self.memory, allowance).unwrap();
        ran.ended
    }

    pub fn answer(
        &mut self,
        ticket: Ticket,
        answer: HostAnswer,
        allowance: u16,
    ) -> Result<Ended, Refused> {
        let ran = self
            .desk
            .answer(&mut self.memory, ticket, answer, allowance)?;
        Ok(ran.ended)
    }
}
