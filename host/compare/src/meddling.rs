//! What may happen while a submission is in work: calls that change nothing, memory and registers that do, resets.

use crate::author::{Author, PLENTY};
use crate::event::Event;
use crate::image::Descriptor;
use crate::numbers::{DESCRIPTOR, NO_IRQ, READ_ONLY, RING_HEAD, STREAM_HEADER, TABLE_HEADER};
use crate::submission::{Belief, Submission};
use zelezmut::registers::{
    COMPLETED_FENCE_LO, CONTROL_ENABLE, CONTROL_RESET, DOORBELL, ERROR_CODE, ERROR_COUNT,
    ERROR_DETAIL, IRQ_ACK, IRQ_ENABLE, MAGIC, READABLE, WRITABLE,
};
use zelezmut::script::Operation;
use zelezmut::HostAnswer;

impl Author {
    /// Something happens while a submission is in work, so many units of it spent.
    pub(crate) fn between(&mut self, submission: &Submission, spent: usize) {
        match self.random.within(0..=15) {
            0..=4 => self.small_talk(),
            5 => self.disabled_for_a_while(),
            6 => self.move_fence(),
            7 => self.overwrite_kept(submission, spent),
            8 => self.change_kept(submission, spent),
            9..=10 => self.overwrite_ahead(submission),
            11 => self.reset_in_the_middle(),
            12 => {
                let gpa = self.random.edgy(0..=self.world.memory);
                let length = self.random.within(1..=40) as usize;
                self.poke_noise(gpa, length);
                self.unsure(Event::NoiseAnywhere);
            }
            13 => {
                let (good, allowance) = (self.random.coin(), self.any_allowance());
                self.answer(good, allowance);
                self.sure &= submission.belief == Belief::Waits && spent < submission.units();
            }
            14 => {
                let allowance = self.random.within(1..=3) as u16;
                self.say(Operation::RunElsewhere {
                    allowance,
                    length: self.world.memory as u32,
                });
                self.unsure(Event::OtherMemoryOfThisLength);
            }
            _ => {
                self.events.push(Event::RingMoved);
                let (gpa, size) = (self.world.ring.gpa, self.world.ring.size);
                let other = self.random.any_size();
                self.write_ring(other, size);
                self.run(1);
                self.write_ring(gpa, size);
                self.sure &= submission.belief == Belief::Waits && spent + 1 < submission.units();
            }
        }
    }

    /// What happened may change what the submission comes to.
    pub(crate) fn unsure(&mut self, event: Event) {
        self.events.push(event);
        self.sure = false;
    }

    /// Calls that change nothing a submission depends on.
    pub(crate) fn small_talk(&mut self) {
        let length = self.other_length();
        let allowance = self.random.pick(&[0, 1, PLENTY]);
        let answer = self.random.pick(&[HostAnswer::Good, HostAnswer::Failed]);
        let value = self.random.word();
        let offset = self.any_offset();
        let harmless = self.random.pick(&[
            IRQ_ENABLE,
            IRQ_ACK,
            DOORBELL,
            MAGIC,
            COMPLETED_FENCE_LO,
            ERROR_CODE,
            ERROR_COUNT,
            ERROR_DETAIL,
            ERROR_DETAIL + 4,
        ]);
        let index = self.random.pick(&[0, 1, 63, 64, u32::MAX]);
        let operation = match self.random.within(0..=8) {
            0 | 1 => Operation::Read { offset },
            2 => Operation::Write {
                offset: harmless,
                value,
            },
            3 => Operation::Write {
                offset: IRQ_ACK,
                value: self.random.pick(&[1, 2, 3, u32::MAX]),
            },
            4 => Operation::Record { index },
            5 => Operation::RunElsewhere { allowance, length },
            6 => Operation::AnswerElsewhere {
                answer,
                allowance,
                length,
            },
            7 => Operation::Run { allowance: 0 },
            _ => Operation::State,
        };
        self.say(operation);
    }

    fn any_offset(&mut self) -> u32 {
        match self.random.within(0..=4) {
            0 | 1 => self.random.pick(&READABLE),
            2 => self.random.pick(&WRITABLE),
            3 => 4 * self.random.within(0..=0x100) as u32,
            _ => self.random.any_size() as u32,
        }
    }

    /// A length that the device was not made for.
    fn other_length(&mut self) -> u32 {
        let own = self.world.memory as u32;
        let near = self
            .random
            .pick(&[own.wrapping_sub(1), own + 1, 0, 64, 65_536, own / 2]);
        if near == own || near > 65_536 {
            own / 2 + 1
        } else {
            near
        }
    }

    pub(crate) fn disabled_for_a_while(&mut self) {
        self.events.push(Event::Disabled);
        self.write_control(0);
        self.run(PLENTY);
        self.small_talk();
        self.write_control(CONTROL_ENABLE);
    }

    /// The fence page's address is taken at settling, so it may move until then.
    pub(crate) fn move_fence(&mut self) {
        let mut floor = self.world.floor.clone();
        let gpa = if self.random.percent(30) {
            Some(0)
        } else {
            floor.place(&mut self.random, 16)
        };
        // What was placed this round is not on the floor plan, so the page may come to lie over it.
        self.sure &= gpa == Some(0);
        self.write_fence(gpa.unwrap_or(0));
        self.events.push(Event::FenceMoved);
    }

    /// Noise over what the device has read already and keeps: it must not look again.
    fn overwrite_kept(&mut self, submission: &Submission, spent: usize) {
        if spent == 0 {
            return;
        }
        let judged = spent - 1;
        let mut kept = vec![(self.world.ring.slot_at(self.head), DESCRIPTOR as usize)];
        let mut entries = 0;
        if let Some(table) = &submission.table {
            entries = table.entries.len();
            kept.push((submission.table_at, TABLE_HEADER as usize));
            kept.push((submission.table_at, table.entry_at(judged.min(entries))));
        }
        if let Some(stream) = &submission.stream {
            let packets = judged.saturating_sub(entries).min(stream.packets.len());
            kept.push((submission.stream_at, STREAM_HEADER as usize));
            kept.push((submission.stream_at, stream.packet_at(packets)));
        }
        let (gpa, length) = self.random.pick(&kept);
        self.poke_noise(gpa, length);
        self.events.push(Event::KeptOverwritten);
    }

    /// Numbers that the device has read already become others that could stand there as well.
    fn change_kept(&mut self, submission: &Submission, spent: usize) {
        if spent == 0 {
            return;
        }
        let slot = self.world.ring.slot_at(self.head);
        let Descriptor { flags, signal, .. } = submission.descriptor;
        let mut kept = vec![
            (
                self.world.ring.gpa + u64::from(RING_HEAD),
                self.head.wrapping_add(1),
            ),
            (slot + 4, flags ^ NO_IRQ),
            (slot + 48, signal.wrapping_add(1) as u32),
        ];
        if let Some(table) = &submission.table {
            let at = submission.table_at;
            kept.push((at + 12, table.count.wrapping_add(1)));
            kept.push((at + 12, table.count.saturating_sub(1)));
            kept.push((at + 16, table.stride ^ 64));
            for (i, entry) in table.entries.iter().enumerate().take(spent - 1) {
                let at = at + table.entry_at(i) as u64;
                kept.push((at, entry.id ^ 1));
                kept.push((at + 4, entry.flags ^ READ_ONLY));
                kept.push((at + 8, entry.gpa as u32 ^ 1));
                kept.push((at + 16, entry.size as u32 / 2));
            }
        }
        if let Some(stream) = &submission.stream {
            let at = submission.stream_at;
            kept.push((at + 8, stream.size.wrapping_add(8)));
            kept.push((at + 8, stream.size.wrapping_sub(8)));
        }
        for _ in 0..self.random.within(1..=3) {
            let (gpa, value) = self.random.pick(&kept);
            self.poke(gpa, value.to_le_bytes().to_vec());
        }
        self.events.push(Event::KeptChanged);
    }

    /// A number changes somewhere in the table or the stream, perhaps where the device has yet to look.
    fn overwrite_ahead(&mut self, submission: &Submission) {
        let mut ahead = Vec::new();
        if let Some(table) = &submission.table {
            ahead.extend(
                (0..table.entries.len()).map(|i| submission.table_at + table.entry_at(i) as u64),
            );
        }
        if let Some(stream) = &submission.stream {
            ahead.extend(
                (0..stream.packets.len())
                    .map(|i| submission.stream_at + stream.packet_at(i) as u64),
            );
        }
        if ahead.is_empty() {
            return;
        }
        let gpa = self.random.pick(&ahead) + 4 * self.random.within(0..=6);
        let value = self.random.pick(&[0, 1, 8, 257, 4096, u32::MAX]);
        self.poke(gpa, value.to_le_bytes().to_vec());
        self.unsure(Event::AheadOverwritten);
    }

    fn reset_in_the_middle(&mut self) {
        let enable = self.random.pick(&[0, CONTROL_ENABLE]);
        self.write_control(CONTROL_RESET | enable);
        if self.random.coin() {
            self.run(PLENTY);
        }
        self.write_control(CONTROL_ENABLE);
        self.ring_doorbell();
        self.unsure(Event::ResetInTheMiddle);
    }

    /// Anything at all, one thing after the other.
    pub(crate) fn rave(&mut self) {
        self.events.push(Event::Raving);
        for _ in 0..self.random.within(5..=25) {
            match self.random.within(0..=9) {
                0..=2 => {
                    let allowance = self.random.pick(&[1, 1, 2, 5, PLENTY]);
                    self.run(allowance);
                }
                3 => {
                    let (good, allowance) = (self.random.coin(), self.any_allowance());
                    self.answer(good, allowance);
                }
                4 => {
                    let (gpa, length) = (
                        self.random.edgy(0..=self.world.memory),
                        self.random.within(1..=16),
                    );
                    self.poke_noise(gpa, length as usize);
                }
                5 => {
                    let gpa = self.world.ring.gpa + 4 * self.random.within(0..=8);
                    let value = self.random.any_size() as u32;
                    self.poke(gpa, value.to_le_bytes().to_vec());
                }
                6 => {
                    let (offset, value) = (self.any_offset(), self.random.any_size() as u32);
                    self.write(offset, value);
                }
                7 => self.ring_doorbell(),
                8 => self.write_control(CONTROL_ENABLE),
                _ => {
                    self.keep_in_work();
                    self.small_talk();
                }
            }
        }
    }
}
