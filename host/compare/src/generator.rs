//! Random desks: a guest with a mostly good world, a host that mostly behaves, and twists in both.
//! A desk is drawn whole, from its seed alone, before anything is played: the guest goes by what it believes of the device.

use crate::author::{Author, PLENTY};
use crate::event::Event;
use crate::expected::{Expected, ExpectedLoad};
use crate::held::Held;
use crate::numbers::RING_HEAD;
use crate::submission::{some_submission, Belief, Submission};
use crate::twists;
use crate::twists::ring::Ring;
use crate::world::Scale;
use zelezmut::registers::{CONTROL_ENABLE, CONTROL_RESET, IRQ_ENABLE};
use zelezmut::script::Operation;

/// A random desk: what a desk script says, and which rules it is about.
#[derive(Clone, Debug)]
pub struct Drawn {
    pub seed: u64,
    pub memory: u32,
    pub operations: Vec<Operation>,
    pub expected: Vec<Expected>,
    pub loads: Vec<ExpectedLoad>,
    /// Where the ring's head lies in memory.
    pub head_at: u64,
    /// What else happens in it, in order.
    pub events: Vec<Event>,
}

pub fn draw(seed: u64) -> Drawn {
    let mut author = Author::new(seed);
    author.begin();
    for _ in 0..author.random.within(1..=5) {
        author.round();
    }
    author.end();
    let Author {
        world,
        operations,
        expected,
        loads,
        events,
        ..
    } = author;
    let head_at = world.ring.gpa + u64::from(RING_HEAD);
    Drawn {
        seed,
        memory: world.memory as u32,
        operations,
        expected,
        loads,
        head_at,
        events,
    }
}

impl Author {
    /// Leftovers in memory, then the registers in some order.
    fn begin(&mut self) {
        if self.world.memory <= 16_384 && self.random.percent(30) {
            self.poke_noise(0, self.world.memory as usize);
        }
        if self.random.percent(10) {
            self.ring_doorbell();
        }
        let (gpa, size) = (self.world.ring.gpa, self.world.ring.size);
        self.write_ring(gpa, size);
        self.write_fence(self.world.fence);
        self.events.extend(self.world.events());
        let enabled = self.random.word();
        self.write(IRQ_ENABLE, enabled);
        if self.random.percent(5) {
            self.run(PLENTY);
        }
        self.write_control(CONTROL_ENABLE);
    }

    /// A reset, after which the guest knows again what the device has.
    fn start_over(&mut self) {
        self.events.push(Event::Reset);
        if self.random.coin() {
            self.write_control(CONTROL_RESET | CONTROL_ENABLE);
        } else {
            self.write_control(CONTROL_RESET);
            self.write_control(CONTROL_ENABLE);
        }
        self.held = Held::default();
        self.sure = true;
    }

    /// Some submissions are put into the ring, the doorbell rings, and they are worked off.
    fn round(&mut self) {
        if self.random.percent(if self.sure { 6 } else { 80 }) {
            self.start_over();
        }
        self.keep();
        let submissions = self.put_submissions();
        let mut ring = self.world.ring.clone();
        ring.header.head = self.head;
        ring.header.tail = self.head.wrapping_add(submissions.len() as u32);
        if ring.header.tail < ring.header.head {
            self.events.push(Event::HeadWraps);
        }
        if submissions.is_empty() {
            self.events.push(Event::NoWork);
        }
        let ring = self.twist_ring(ring);
        self.put_ring(&ring);
        self.ring_doorbell();
        for (i, (submission, good)) in submissions.iter().enumerate() {
            let next = submissions.get(i + 1).map(|(next, _)| next);
            self.work_off(submission, *good, next);
            self.head = self.head.wrapping_add(1);
            if self.world.fence_overlaps || submission.belief == Belief::Unsure {
                self.sure = false;
            }
        }
        if self.random.percent(75) {
            self.run(PLENTY);
        }
    }

    /// Puts submissions into the next slots, each with the host's answer to it.
    fn put_submissions(&mut self) -> Vec<(Submission, bool)> {
        let slots = u64::from(self.world.ring.header.count);
        let most = if self.random.percent(15) {
            slots.min(16)
        } else {
            slots.min(3)
        };
        let pending = if self.random.percent(3) {
            0
        } else {
            self.random.within(1..=most)
        };
        let mut floor = self.world.floor.clone();
        let mut submissions = Vec::new();
        for i in 0..pending as u32 {
            let signal = self.next_signal();
            let submission = some_submission(
                &mut self.random,
                &self.world,
                &self.held,
                signal,
                &mut floor,
            );
            let good = self.random.percent(88);
            let head = self.head.wrapping_add(i);
            self.expected
                .extend(submission.aim.map(|aim| Expected { aim, head }));
            self.tell(&submission, good);
            if good && submission.belief == Belief::Waits {
                self.held = submission.held.clone();
            }
            self.put(head, &submission);
            submissions.push((submission, good));
        }
        submissions
    }

    /// What there is to tell of a submission that is answered so, as believed.
    fn tell(&mut self, submission: &Submission, good: bool) {
        self.events.extend(submission.event);
        if submission.goes_on_after_a_grown_packet() {
            self.events.push(Event::GrownPacket);
        }
        let other_tokens = submission.held.has_other_tokens(&self.held);
        match submission.belief {
            Belief::Waits if other_tokens && !good => self.events.push(Event::TokensOfAFailed),
            Belief::Refused if other_tokens => self.events.push(Event::TokensOfARefused),
            _ => {}
        }
    }

    fn next_signal(&mut self) -> u64 {
        let last = self.signal;
        self.signal = match self.random.within(0..=19) {
            0..=12 => last.saturating_add(1),
            13..=14 => last,
            15 => last.saturating_sub(1),
            16..=17 => last.saturating_add(self.random.word().into()),
            18 => 0,
            _ => self.random.any_size(),
        };
        self.signal
    }

    fn put(&mut self, index: u32, submission: &Submission) {
        if let Some(table) = &submission.table {
            let bytes = table.bytes(&mut self.random);
            self.poke(submission.table_at, bytes);
        }
        if let Some(stream) = &submission.stream {
            let bytes = stream.bytes(&mut self.random);
            self.poke(submission.stream_at, bytes);
        }
        let bytes = submission.descriptor.bytes(&mut self.random);
        self.poke(self.world.ring.slot_at(index), bytes);
    }

    /// Writes the ring's header, and its registers where they differ from the world's.
    fn put_ring(&mut self, ring: &Ring) {
        let bytes = ring.header.bytes(&mut self.random);
        self.poke(self.world.ring.gpa, bytes);
        if (ring.gpa, ring.size) != (self.world.ring.gpa, self.world.ring.size) {
            self.write_ring(ring.gpa, ring.size);
        }
    }

    /// Now and then the ring gets a twist. A broken one is tried out and mended, one that is kept stays for the round.
    fn twist_ring(&mut self, ring: Ring) -> Ring {
        let fits = self.world.memory >= u64::from(ring.size);
        let often = if self.world.scale == Scale::Wide {
            60
        } else {
            22
        };
        if !fits || !self.random.percent(often) {
            return ring;
        }
        let mut twisted = ring.clone();
        let twist = self.random.pick(twists::ring::TWISTS);
        let aim = twist(&mut self.random, &mut twisted, self.world.memory);
        self.expected.extend(aim.map(|aim| Expected {
            aim,
            head: self.head,
        }));
        match aim {
            None => ring,
            Some(aim) if !aim.broken() => twisted,
            Some(_) => {
                self.put_ring(&twisted);
                self.ring_doorbell();
                let allowance = self.random.pick(&[1, 2, PLENTY]);
                self.run(allowance);
                self.write_ring(ring.gpa, ring.size);
                ring
            }
        }
    }

    fn end(&mut self) {
        self.keep();
        if self.random.percent(10) {
            self.rave();
        }
        self.say(Operation::State);
    }
}
