//! One case of the benchmark set up on any front, to be played again and again.
//!
//! A guest memory with a ring at 0, a table, and room for a stream of 60 KiB. Before the measured submission another one creates the
//! resources, and the tokens and names where there are any. The guest arms the ring again before each submission: it moves the tail on.
//! All slots of the ring name the same submission; where each has its answer before the next, there is one slot, and where one waits
//! while the next is armed, two.

use crate::cases::{Case, Mode, Way};
use crate::front::{Ended, Front, Ran};
use crate::host::Host;
use crate::image::{put32, Descriptor, Entry, Range, RingHeader, Stream, Table};
use crate::numbers::{DESCRIPTOR, RING_HEAD, RING_HEADER, STREAM_HEADER};
use crate::player::Seat;
use crate::random::Random;
use zelezmut::registers::{CONTROL, CONTROL_ENABLE, DOORBELL, RING_SIZE};

const STREAM: usize = 60 * 1024;
const STREAM_AT: usize = 4 * 1024;
const TABLE_AT: usize = 1024;
const TAIL_AT: usize = RING_HEAD as usize + 4;

/// A front with a case's resources alive and its submission in memory.
pub struct Bench<F> {
    pub seat: Seat<F>,
    /// The units of a submission.
    pub units: u64,
    slots: u32,
    /// What the host says to a submission.
    good: bool,
}

impl<F: Front> Bench<F> {
    pub fn new(case: Case) -> Bench<F> {
        Bench::with_slots(case, 1)
    }

    /// One submission waits already, and there is room for the next behind it.
    pub fn waiting(case: Case) -> Bench<F> {
        let mut bench = Bench::with_slots(case, 2);
        bench.arm();
        bench.run_until_waiting(Mode::Whole);
        bench
    }

    fn with_slots(case: Case, slots: u32) -> Bench<F> {
        let mut random = Random::new(1);
        let ring = RingHeader::new(slots, DESCRIPTOR, 0);
        let mut seat = Seat::<F>::new(case.memory() as u32);
        seat.memory[..RING_HEADER as usize].copy_from_slice(&ring.bytes(&mut random));
        seat.front.write(RING_SIZE, ring.size);
        seat.front.write(CONTROL, CONTROL_ENABLE);
        let mut bench = Bench {
            seat,
            units: 0,
            slots,
            good: true,
        };

        let before = case.before(&mut random);
        bench.put(&mut random, case.entries(), before);
        bench.arm();
        bench.submission(Mode::Whole);
        bench.good = case.is_answered_good();

        let mut packets = Vec::new();
        let mut room = STREAM - STREAM_HEADER as usize;
        while let Some(packet) = case
            .packet(&mut random, packets.len())
            .filter(|packet| packet.len() <= room)
        {
            room -= packet.len();
            packets.push(packet);
        }
        packets.truncate(packets.len() / case.together() * case.together());
        bench.put(&mut random, case.entries(), packets);
        bench
    }

    /// Puts a submission's table, stream and descriptor into memory.
    fn put(&mut self, random: &mut Random, entries: Vec<Entry>, packets: Vec<Vec<u8>>) {
        self.units = 1 + entries.len() as u64 + packets.len() as u64;
        let mut descriptor = Descriptor {
            size: DESCRIPTOR,
            flags: 0,
            stream: Range::default(),
            table: Range::default(),
            signal: 1,
        };
        if !entries.is_empty() {
            descriptor.table = self.lay(TABLE_AT, &Table::new(entries, 32).bytes(random));
        }
        if !packets.is_empty() {
            descriptor.stream = self.lay(STREAM_AT, &Stream::new(packets).bytes(random));
        }
        let descriptor = descriptor.bytes(random);
        for slot in 0..self.slots {
            self.lay((RING_HEADER + slot * DESCRIPTOR) as usize, &descriptor);
        }
    }

    fn lay(&mut self, at: usize, bytes: &[u8]) -> Range {
        self.seat.memory[at..at + bytes.len()].copy_from_slice(bytes);
        Range {
            gpa: at as u64,
            size: bytes.len() as u32,
        }
    }

    /// Moves the tail on, so that one submission is pending.
    pub fn arm(&mut self) {
        self.put_tail(1);
    }

    /// Moves the tail on, so that one submission is pending behind the one that waits.
    pub fn arm_behind(&mut self) {
        self.put_tail(2);
    }

    fn put_tail(&mut self, pending: u32) {
        let memory = &mut self.seat.memory;
        let head = [0, 1, 2, 3].map(|i| memory[RING_HEAD as usize + i]);
        put32(
            memory,
            TAIL_AT,
            u32::from_le_bytes(head).wrapping_add(pending),
        );
    }

    /// Rings, runs until the submission waits, and answers.
    pub fn submission(&mut self, mode: Mode) {
        self.run_until_waiting(mode);
        let Seat { front, memory } = &mut self.seat;
        let ran = front.answer(memory, self.good, 0);
        assert_eq!(ran.answer, 0, "{} was not waiting", F::NAME);
    }

    /// Rings and runs until the submission waits.
    pub fn run_until_waiting(&mut self, mode: Mode) {
        let Seat { front, memory } = &mut self.seat;
        front.write(DOORBELL, 1);
        let mut units = 0;
        loop {
            let Ran {
                units: spent,
                ended,
                ..
            } = front.run(memory, mode.allowance());
            units += u64::from(spent);
            match ended {
                Ended::Waiting => break,
                Ended::Paused => {}
                Ended::Idle => panic!(
                    "{} stopped after {} of {} units",
                    F::NAME,
                    units,
                    self.units
                ),
            }
        }
        assert_eq!(units, self.units, "{} spends other units", F::NAME);
    }
}

impl<F: Host> Bench<F> {
    /// Rings, runs once and answers good, in the front's own words.
    pub fn submission_at_once(&mut self) {
        let units = self.seat.front.submission(&mut self.seat.memory);
        self.has_spent(units);
    }

    /// Rings, answers the submission that waits, and runs until the next one waits, in the front's own words.
    pub fn next(&mut self, way: Way) {
        let Seat { front, memory } = &mut self.seat;
        let units = match way {
            Way::Joined => front.next_joined(memory),
            Way::Apart => front.next_apart(memory),
        };
        self.has_spent(units);
    }

    fn has_spent(&self, units: u16) {
        assert_eq!(
            u64::from(units),
            self.units,
            "{} spends other units",
            F::NAME
        );
    }
}

#[cfg(test)]
mod tests {
    use super::Bench;
    use crate::cases::{Case, PUBLISHED};

    #[test]
    fn the_inputs_are_as_long_as_they_are_said_to_be() {
        let units = PUBLISHED.map(|published| Bench::<plain::Desk>::new(published.case).units);
        let said = [7_677, 3_838, 1_919 + 1, 2 * 1_096, 1_279 + 1, 4 * 56, 64];
        assert_eq!(units, said.map(|steps| steps + 1));
        let state = [Case::Viewport, Case::Clear, Case::Scissor];
        let units = state.map(|case| Bench::<plain::Desk>::new(case).units);
        assert_eq!(units, [1_919, 1_706, 65].map(|steps| steps + 1));
    }
}
