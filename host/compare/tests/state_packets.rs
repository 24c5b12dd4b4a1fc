//! State packets, every field at every boundary: both fronts come to the same, and both sides of every rule are met.

use compare::player::{step, Said, Seat};
use zelezmut::guest::{self, Clear, Descriptor, Packet, Part, Scissor, Shape, Viewport};
use zelezmut::registers::{CONTROL, CONTROL_ENABLE, DOORBELL, RING_SIZE};
use zelezmut::script::Operation;
use zelezmut::HostAnswer;

const MEMORY: u32 = 4096;
const STREAM: u32 = 512;
const SLOTS: u32 = 1;
/// Where a ring's header keeps its tail.
const TAIL: u32 = 28;

/// Both fronts, and how many submissions they have had.
struct Pair {
    proved: Seat<zelezmut::Desk>,
    plain: Seat<plain::Desk>,
    submitted: u32,
}

impl Pair {
    fn new() -> Pair {
        let mut pair = Pair {
            proved: Seat::new(MEMORY),
            plain: Seat::new(MEMORY),
            submitted: 0,
        };
        pair.poke(0, &guest::ring(SLOTS, 0, 0));
        for (offset, value) in [
            (RING_SIZE, guest::ring_size(SLOTS)),
            (CONTROL, CONTROL_ENABLE),
        ] {
            pair.play(&Operation::Write { offset, value });
        }
        pair
    }

    fn play(&mut self, operation: &Operation) -> Said {
        step(&mut self.proved, &mut self.plain, operation)
            .unwrap_or_else(|difference| panic!("{:?}: {:?}", operation, difference))
    }

    fn poke(&mut self, address: u32, bytes: &[u8]) {
        let bytes = bytes.to_vec();
        self.play(&Operation::Poke { address, bytes });
    }

    /// Puts a submission into the ring and runs.
    fn run(&mut self, packets: &[Packet]) {
        let stream = guest::stream(packets);
        let slot = Descriptor {
            commands: Part::of(STREAM.into(), &stream),
            ..Descriptor::default()
        };
        self.submitted += 1;
        self.poke(STREAM, &stream);
        self.poke(guest::slot_offset(0) as u32, &slot.to_bytes());
        self.poke(TAIL, &self.submitted.to_le_bytes());
        let (offset, value) = (DOORBELL, 1);
        self.play(&Operation::Write { offset, value });
        self.play(&Operation::Run { allowance: 1000 });
    }

    /// Answers. Whether something waited for it comes back.
    fn answer(&mut self, answer: HostAnswer) -> bool {
        let allowance = 0;
        let answered = self.play(&Operation::Answer { answer, allowance });
        matches!(answered, Said::Answered(ran) if ran.answer == 0)
    }
}

/// The bits of floats: every boundary and its neighbours, of both signs.
fn floats() -> Vec<f32> {
    let edges = [
        0u32,
        0x0080_0000,
        0x3f00_0000,
        0x3f80_0000,
        0x7f80_0000,
        0x7fc0_0000,
    ];
    let mut bits: Vec<u32> = edges
        .iter()
        .flat_map(|&edge| [edge.wrapping_sub(1), edge, edge + 1])
        .flat_map(|bits| [bits, bits ^ 1 << 31])
        .collect();
    bits.sort_unstable();
    bits.dedup();
    bits.into_iter().map(f32::from_bits).collect()
}

const VIEWPORT: Viewport = Viewport {
    x: 0.0,
    y: 0.0,
    width: 1.0,
    height: 1.0,
    near: 0.0,
    far: 1.0,
};

const CLEAR: Clear = Clear {
    flags: 0,
    colour: [0.0; 4],
    depth: 0.0,
    stencil: 0,
};

/// Plays each packet as a submission, and holds how many pass.
fn passing(packets: impl Iterator<Item = Packet>) -> usize {
    let mut pair = Pair::new();
    let passes = |&packet: &Packet| {
        pair.run(&[packet]);
        pair.answer(HostAnswer::Good)
    };
    packets.filter(passes).count()
}

/// A field of a viewport.
type Field = fn(&mut Viewport) -> &mut f32;

#[test]
fn every_float_of_a_viewport_at_every_boundary() {
    let fields: [(Field, usize); 6] = [
        (|viewport| &mut viewport.x, 24),
        (|viewport| &mut viewport.y, 24),
        (|viewport| &mut viewport.width, 11),
        (|viewport| &mut viewport.height, 11),
        (|viewport| &mut viewport.near, 11),
        (|viewport| &mut viewport.far, 11),
    ];
    for (field, good) in fields {
        let packets = floats().into_iter().map(|float| {
            let mut viewport = VIEWPORT;
            *field(&mut viewport) = float;
            Packet::Viewport(viewport)
        });
        assert_eq!(passing(packets), good);
    }
}

#[test]
fn near_and_far_in_every_order() {
    let floats = floats();
    let pairs = floats
        .iter()
        .flat_map(|&near| floats.iter().map(move |&far| (near, far)));
    let packets = pairs.map(|(near, far)| {
        Packet::Viewport(Viewport {
            near,
            far,
            ..VIEWPORT
        })
    });
    // Of the eleven that lie within 0 to 1 each is at most itself and those above it; and 0 and -0 are equal both ways.
    assert_eq!(passing(packets), 11 * 12 / 2 + 1);
}

#[test]
fn every_float_of_a_clear_at_every_boundary() {
    for part in 0..4 {
        let packets = floats().into_iter().map(|float| {
            let mut clear = CLEAR;
            clear.colour[part] = float;
            Packet::Clear(clear)
        });
        assert_eq!(passing(packets), 24);
    }
    let depths = floats().into_iter();
    let depths = depths.map(|depth| Packet::Clear(Clear { depth, ..CLEAR }));
    assert_eq!(passing(depths), 11);
    let flags = (0..=9).chain([1 << 31, u32::MAX]);
    let flags = flags.map(|flags| Packet::Clear(Clear { flags, ..CLEAR }));
    assert_eq!(passing(flags), 8);
}

/// Creates texture 1, of blocks: a scissor counts pixels all the same.
fn texture(width: u32, height: u32) -> Packet {
    let shape = Shape {
        format: 64,
        width,
        height,
        mips: 1,
        layers: 1,
        pitch: 0,
    };
    Packet::CreateTexture {
        handle: 1,
        shape,
        backing: None,
    }
}

/// Where a scissor begins and how long it is along a side, at every edge of the side and of the numbers.
fn spans(side: i32) -> Vec<(i32, i32)> {
    let starts = [i32::MIN, -side, -1, 0, 1, side - 1, side, i32::MAX];
    let lengths = [0, 1, side, side + 1, i32::MAX - 1, i32::MAX];
    let starts = starts
        .iter()
        .flat_map(|&start| [start.saturating_sub(1), start]);
    starts
        .flat_map(|start| lengths.map(|length| (start, length)))
        .collect()
}

/// Scissors of a texture of these sides, as many a submission as there may be records: how many leave nothing, and how many do.
fn clips(width: i32, height: i32) -> [u32; 2] {
    let texture = texture(width as u32, height as u32);
    let mut scissors = Vec::new();
    for (x, width) in spans(width) {
        let scissor = |(y, height)| Scissor {
            x,
            y,
            width,
            height,
        };
        scissors.extend(spans(height).into_iter().map(scissor).map(Packet::Scissor));
    }
    let mut pair = Pair::new();
    let mut met = [0; 2];
    for some in scissors.chunks(64) {
        // The texture is the submission's own: the host says that it failed.
        pair.run(&[&[texture, Packet::Target { handle: 1 }], some].concat());
        for i in 0..some.len() as u32 {
            let (answer, record) = pair.plain.front.record(i);
            assert_eq!((answer, record.kind), (0, 4));
            met[usize::from(record.length != 0)] += 1;
        }
        assert!(pair.answer(HostAnswer::Failed));
    }
    met
}

#[test]
fn scissors_at_every_edge_of_targets() {
    for (width, height) in [(1, 1), (2, 5), (16_384, 3), (7, 16_384)] {
        let [empty, left] = clips(width, height);
        assert!(empty > 1_000 && left > 1_000, "{} {}", empty, left);
    }
}

/// A corner is any, and so is a side that is not negative.
#[test]
fn negative_sides_are_refused_whatever_the_corner() {
    let corners = [i32::MIN, -1, 0, 1, i32::MAX];
    let sides = [i32::MIN, i32::MIN + 1, -2, -1, 0, 1, i32::MAX];
    let mut pair = Pair::new();
    let mut good = 0;
    for x in corners {
        for width in sides {
            for height in sides {
                let scissor = Scissor {
                    x,
                    y: 0,
                    width,
                    height,
                };
                let target = Packet::Target { handle: 1 };
                pair.run(&[texture(9, 9), target, Packet::Scissor(scissor)]);
                good += u32::from(pair.answer(HostAnswer::Failed));
            }
        }
    }
    assert_eq!(good, 5 * 3 * 3);
}
