//! The guest and the host in one, writing a desk's operations: what they know, and how they say things.

use crate::event::Event;
use crate::expected::{Expected, ExpectedLoad};
use crate::held::Held;
use crate::keeping::Keeper;
use crate::random::Random;
use crate::world::World;
use zelezmut::registers::{
    CONTROL, CONTROL_ENABLE, CONTROL_RESET, DOORBELL, FENCE_GPA_HI, FENCE_GPA_LO, RING_GPA_HI,
    RING_GPA_LO, RING_SIZE,
};
use zelezmut::script::Operation;
use zelezmut::HostAnswer;

/// Allowance enough for every submission that is drawn.
pub(crate) const PLENTY: u16 = u16::MAX;

/// The guest and the host in one, writing the desk's operations.
pub(crate) struct Author {
    pub(crate) random: Random,
    pub(crate) world: World,
    /// The ring's head, and what the device holds, as believed.
    pub(crate) head: u32,
    pub(crate) held: Held,
    /// The units of the next submission that the last answer has carried on into, as believed.
    pub(crate) ahead: usize,
    /// The last signal fence given.
    pub(crate) signal: u64,
    /// The belief holds: nothing was done whose outcome was left open.
    pub(crate) sure: bool,
    /// How often, of a hundred times, something happens between two slices.
    pub(crate) restless: u64,
    /// How the host saves and loads.
    pub(crate) keeper: Keeper,
    pub(crate) operations: Vec<Operation>,
    pub(crate) expected: Vec<Expected>,
    pub(crate) loads: Vec<ExpectedLoad>,
    pub(crate) events: Vec<Event>,
}

impl Author {
    pub(crate) fn new(seed: u64) -> Author {
        let mut random = Random::new(seed);
        let world = World::random(&mut random);
        let restless = random.pick(&[0, 2, 10, 40]);
        let keeper = Keeper::new(seed, world.memory);
        Author {
            head: world.ring.header.head,
            world,
            held: Held::default(),
            ahead: 0,
            signal: random.pick(&[0, 0, 6, u32::MAX.into(), 1 << 63]),
            sure: true,
            restless,
            keeper,
            operations: Vec::new(),
            expected: Vec::new(),
            loads: Vec::new(),
            events: Vec::new(),
            random,
        }
    }

    pub(crate) fn write(&mut self, offset: u32, value: u32) {
        self.operations.push(Operation::Write { offset, value });
    }

    /// Control's other bits are dropped, so they are written as anything now and then.
    pub(crate) fn write_control(&mut self, bits: u32) {
        let others = if self.random.percent(20) {
            self.random.word() & !(CONTROL_ENABLE | CONTROL_RESET)
        } else {
            0
        };
        self.write(CONTROL, bits | others);
    }

    pub(crate) fn write_fence(&mut self, gpa: u64) {
        self.write(FENCE_GPA_LO, gpa as u32);
        self.write(FENCE_GPA_HI, (gpa >> 32) as u32);
    }

    pub(crate) fn write_ring(&mut self, gpa: u64, size: u32) {
        self.write(RING_GPA_LO, gpa as u32);
        self.write(RING_GPA_HI, (gpa >> 32) as u32);
        self.write(RING_SIZE, size);
    }

    /// What would lie above 4 GiB is not there to be written.
    pub(crate) fn poke(&mut self, gpa: u64, bytes: Vec<u8>) {
        if let Ok(address) = u32::try_from(gpa) {
            self.operations.push(Operation::Poke { address, bytes });
        }
    }

    pub(crate) fn poke_noise(&mut self, gpa: u64, length: usize) {
        let mut bytes = vec![0; length];
        self.random.noise(&mut bytes);
        self.poke(gpa, bytes);
    }

    pub(crate) fn say(&mut self, operation: Operation) {
        self.operations.push(operation);
    }

    pub(crate) fn run(&mut self, allowance: u16) {
        self.operations.push(Operation::Run { allowance });
    }

    pub(crate) fn answer(&mut self, good: bool, allowance: u16) {
        let answer = told(good);
        self.operations
            .push(Operation::Answer { answer, allowance });
    }

    /// For a call that is to be refused, or whose run nobody reckons with.
    pub(crate) fn any_allowance(&mut self) -> u16 {
        let few = self.random.within(1..=5) as u16;
        self.random.pick(&[0, 1, few, PLENTY])
    }

    pub(crate) fn ring_doorbell(&mut self) {
        let value = self.random.pick(&[0, 1, u32::MAX]);
        self.write(DOORBELL, value);
    }
}

/// What the host says.
pub(crate) fn told(good: bool) -> HostAnswer {
    if good {
        HostAnswer::Good
    } else {
        HostAnswer::Failed
    }
}
