//! One submission: its contents get their places in memory and a descriptor, and a belief of what will come of it.

use crate::contents::{entry_twist, fill, table_entries, Twisted};
use crate::draft::Draft;
use crate::event::Event;
use crate::floor::Floor;
use crate::held::Held;
use crate::image::{flags, Descriptor, Entry, Range, Stream, Table};
use crate::numbers::DESCRIPTOR;
use crate::packet::is_grown;
use crate::random::Random;
use crate::twists::frame::{Frame, FrameTwist};
use crate::twists::{self, kept, Aim};
use crate::world::World;

/// What a submission is believed to come to.
#[derive(Clone, Copy, Debug, PartialEq, Eq)]
pub enum Belief {
    Waits,
    Refused,
    Unsure,
}

/// A submission that lies in memory.
pub struct Submission {
    pub descriptor: Descriptor,
    pub table: Option<Table>,
    pub stream: Option<Stream>,
    /// Where table and stream really lie, whatever the descriptor says.
    pub table_at: u64,
    pub stream_at: u64,
    pub belief: Belief,
    /// The rule that it alone is about; none if it has no twist, or several.
    pub aim: Option<Aim>,
    /// What makes it unsure.
    pub event: Option<Event>,
    /// What the device holds after it, if it waits and the host says good.
    pub held: Held,
}

impl Submission {
    fn empty(descriptor: Descriptor, held: Held) -> Submission {
        Submission {
            descriptor,
            table: None,
            stream: None,
            table_at: 0,
            stream_at: 0,
            belief: Belief::Waits,
            aim: None,
            event: None,
            held,
        }
    }

    /// Whether a range of its ends with the memory.
    fn ends_at(&self, memory: u64) -> bool {
        let Descriptor { stream, table, .. } = &self.descriptor;
        [stream, table]
            .iter()
            .any(|range| range.size > 0 && range.gpa + u64::from(range.size) == memory)
    }

    /// What it is believed to come to with these twists, and which rule it is about.
    fn judge(&mut self, world: &World, twisted: &Twisted, mut aims: Vec<Aim>) {
        if twisted.muddle {
            self.belief = Belief::Unsure;
            self.event = Some(Event::SeveralFaults);
        }
        if aims.iter().any(Aim::broken) && self.belief == Belief::Waits {
            self.belief = Belief::Refused;
        }
        if aims.is_empty() && self.belief == Belief::Waits && self.ends_at(world.memory) {
            aims.extend(kept("range: end of the memory"));
        }
        self.aim = if aims.len() == 1 { aims.pop() } else { None };
    }

    /// Whether a known packet is longer than its table size, and not the last.
    pub fn goes_on_after_a_grown_packet(&self) -> bool {
        self.stream.as_ref().map_or(false, |stream| {
            stream
                .packets
                .iter()
                .rev()
                .skip(1)
                .any(|packet| is_grown(packet))
        })
    }

    /// The units until it waits, if it does.
    pub fn units(&self) -> usize {
        let entries = self.table.as_ref().map_or(0, |table| table.entries.len());
        let packets = self
            .stream
            .as_ref()
            .map_or(0, |stream| stream.packets.len());
        1 + entries + packets
    }
}

/// Writes a submission for a device that holds this; its parts take their places on the floor.
pub fn some_submission(
    random: &mut Random,
    world: &World,
    before: &Held,
    signal: u64,
    floor: &mut Floor,
) -> Submission {
    let twisted = Twisted::random(random);
    let mut aims = Vec::new();

    let mut entries = if random.percent(88) {
        table_entries(random, world)
    } else {
        Vec::new()
    };
    if twisted.entries {
        aims.extend(entry_twist(random, &mut entries, world.memory));
    }

    let mut draft = Draft::new(random, world, before, entries);
    aims.extend(fill(&mut draft, world.scale, &twisted));
    let Draft {
        live,
        tokens,
        entries,
        packets,
        ..
    } = draft;

    let mut submission = match laid(random, entries, packets, floor) {
        Some(laid) => laid,
        None => return Submission::empty(some_descriptor(random, signal), before.clone()),
    };
    submission.descriptor.signal = signal;
    for _ in 0..twisted.frame {
        aims.extend(frame_twist(random, world, &mut submission));
    }
    submission.judge(world, &twisted, aims);
    submission.held = Held { live, tokens };
    submission
}

fn frame_twist(random: &mut Random, world: &World, submission: &mut Submission) -> Option<Aim> {
    let Submission {
        descriptor,
        table,
        stream,
        ..
    } = submission;
    let mut frame = Frame {
        random,
        memory: world.memory,
        stride: world.ring.header.stride,
        descriptor,
        table: table.as_mut(),
        stream: stream.as_mut(),
    };
    (0..4).find_map(|_| {
        let twist: FrameTwist = frame.random.pick(twists::frame::TWISTS);
        twist(&mut frame)
    })
}

/// A descriptor without ranges.
fn some_descriptor(random: &mut Random, signal: u64) -> Descriptor {
    let no_irq = random.percent(25);
    let flags = flags(random, no_irq);
    Descriptor {
        size: DESCRIPTOR,
        flags,
        stream: Range::default(),
        table: Range::default(),
        signal,
    }
}

fn some_table(random: &mut Random, entries: Vec<Entry>) -> Table {
    let strides: &[u32] = if entries.len() < 8 {
        &[32, 32, 33, 36, 64, 100]
    } else {
        &[32, 32, 33, 40]
    };
    let mut table = Table::new(entries, random.pick(strides));
    table.size += random.pick(&[0, 0, 1, 9]);
    table
}

/// Gives table and stream their places; none if there is not room for both.
fn laid(
    random: &mut Random,
    entries: Vec<Entry>,
    packets: Vec<Vec<u8>>,
    floor: &mut Floor,
) -> Option<Submission> {
    let mut submission = Submission::empty(some_descriptor(random, 0), Held::default());
    // What lies over something else may no longer be what was written.
    let over = random.percent(3);
    let mut place = |random: &mut Random, size: u32| {
        let gpa = if over {
            floor.anywhere(random, size.into())
        } else {
            floor.place(random, size.into())
        };
        gpa.map(|gpa| Range { gpa, size })
    };
    if !packets.is_empty() || random.coin() {
        let stream = Stream::new(packets);
        let size = stream.size + random.pick(&[0, 0, 0, 1, 8, 30]);
        submission.descriptor.stream = place(random, size)?;
        submission.stream_at = submission.descriptor.stream.gpa;
        submission.stream = Some(stream);
    }
    if !entries.is_empty() || random.coin() {
        let table = some_table(random, entries);
        let size = table.size + random.pick(&[0, 0, 1, 5]);
        submission.descriptor.table = place(random, size)?;
        submission.table_at = submission.descriptor.table.gpa;
        submission.table = Some(table);
    }
    if over {
        submission.belief = Belief::Unsure;
        submission.event = Some(Event::Overlap);
    }
    Some(submission)
}
