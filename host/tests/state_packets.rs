//! The packets that say how to draw, through the Rust crate: target, viewport, scissor and clear; error 30, and records of kind 4.
mod current;

use current::ticket;
use zelezmut::guest::{self, Clear, Descriptor, Packet, Part, Scissor, Shape, Viewport};
use zelezmut::{registers, Desk, DeviceError, Ended, HostAnswer, Place, Ran};
use zelezmut::{Record, RecordKind, Rectangle};

const MEMORY: usize = 16_384;
const STREAM: usize = 2048;
const HEADER: u32 = 24;

/// A desk whose guest submits streams, one after the other.
struct Night {
    desk: Desk,
    memory: Vec<u8>,
    submitted: u32,
}

impl Night {
    fn new() -> Night {
        let mut night = Night {
            desk: Desk::new(MEMORY),
            memory: vec![0; MEMORY],
            submitted: 0,
        };
        guest::put(&mut night.memory, 0, &guest::ring(1, 0, 0));
        for (offset, value) in [
            (registers::RING_SIZE, guest::ring_size(1)),
            (registers::CONTROL, registers::CONTROL_ENABLE),
        ] {
            night.desk.write(offset, value).unwrap();
        }
        night
    }

    fn submit(&mut self, stream: &[u8]) {
        let slot = Descriptor {
            commands: Part::of(STREAM as u64, stream),
            fence: 7,
            ..Descriptor::default()
        };
        self.submitted += 1;
        guest::put(&mut self.memory, STREAM, stream);
        guest::put(&mut self.memory, guest::slot_offset(0), &slot.to_bytes());
        guest::put_tail(&mut self.memory, 0, self.submitted);
        self.desk.write(registers::DOORBELL, 1).unwrap();
    }

    fn run(&mut self, allowance: u16) -> Ran {
        self.desk.run(&mut self.memory, allowance).unwrap()
    }

    fn answer(&mut self, answer: HostAnswer) {
        let ticket = ticket(&self.desk);
        let ran = self.desk.answer(&mut self.memory, ticket, answer, 100);
        assert_eq!(ran.unwrap().ended, Ended::Idle);
    }

    /// The records that packets wait with, after which the host says good; or the error, and where it arose.
    fn judge(&mut self, packets: &[Packet]) -> Result<Vec<Record>, (DeviceError, u32)> {
        self.submit(&guest::stream(packets));
        if self.run(u16::MAX).ended == Ended::Waiting {
            let records = self.desk.records().collect();
            self.answer(HostAnswer::Good);
            return Ok(records);
        }
        let report = self.desk.last_error().unwrap();
        match report.place {
            Place::Packet(at) => Err((report.error, at)),
            place => panic!("{:?} is no packet's error: {}", report, place),
        }
    }
}

fn texture(handle: u32, width: u32, height: u32) -> Packet {
    let shape = Shape {
        format: 1,
        width,
        height,
        mips: 1,
        layers: 1,
        pitch: 0,
    };
    Packet::CreateTexture {
        handle,
        shape,
        backing: None,
    }
}

fn buffer(handle: u32) -> Packet {
    Packet::CreateBuffer {
        handle,
        size: 64,
        backing: None,
    }
}

fn target(handle: u32) -> Packet {
    Packet::Target { handle }
}

fn destroy(handle: u32) -> Packet {
    Packet::Destroy { handle }
}

fn scissor(x: i32, y: i32, width: i32, height: i32) -> Packet {
    Packet::Scissor(Scissor {
        x,
        y,
        width,
        height,
    })
}

const VIEWPORT: Viewport = Viewport {
    x: -3.0,
    y: 1e30,
    width: f32::MIN_POSITIVE,
    height: 32.0,
    near: -0.0,
    far: 1.0,
};

const CLEAR: Clear = Clear {
    flags: 7,
    colour: [-1.0, 0.0, f32::MAX, 0.5],
    depth: 1.0,
    stencil: u32::MAX,
};

fn clips(left: u32, top: u32, width: u32, height: u32) -> Record {
    Record::Clips(Rectangle {
        left,
        top,
        width,
        height,
    })
}

/// The bytes of packets, which is how far into the stream the next one stands.
fn behind(packets: &[Packet]) -> u32 {
    HEADER
        + packets
            .iter()
            .map(|p| p.to_bytes().len() as u32)
            .sum::<u32>()
}

#[test]
fn a_scissor_is_clipped_to_the_target() {
    const MIN: i32 = i32::MIN;
    const MAX: i32 = i32::MAX;
    for ((x, width), (left, across)) in [
        ((0, 32), (0, 32)),
        ((0, MAX), (0, 32)),
        ((-8, 24), (0, 16)),
        ((-8, 9), (0, 1)),
        ((31, 1), (31, 1)),
        ((31, MAX), (31, 1)),
        ((5, 6), (5, 6)),
        ((-1, 34), (0, 32)),
        ((MIN + 2, MAX), (0, 1)),
    ] {
        for ((y, height), (top, down)) in [
            ((0, 16), (0, 16)),
            ((15, 2), (15, 1)),
            ((-3, 5), (0, 2)),
            ((7, MAX), (7, 9)),
        ] {
            let packets = [texture(1, 32, 16), target(1), scissor(x, y, width, height)];
            let clipped = Ok(vec![clips(left, top, across, down)]);
            assert_eq!(Night::new().judge(&packets), clipped);
        }
    }
}

#[test]
fn an_empty_clip_is_a_record_of_zeros() {
    const MIN: i32 = i32::MIN;
    const MAX: i32 = i32::MAX;
    let empty = [(0, 0), (-8, 8), (-8, 7), (32, 1), (MIN, MAX), (MAX, MAX)];
    for (start, length) in empty {
        for packet in [scissor(start, 2, length, 9), scissor(2, start, 9, length)] {
            let records = Night::new().judge(&[texture(1, 32, 32), target(1), packet]);
            let records = records.unwrap();
            assert_eq!(records, [clips(0, 0, 0, 0)], "{:?}", packet);
            assert_eq!(records[0].kind(), RecordKind::Clips);
            assert_eq!(records[0].rectangle().map(Rectangle::is_empty), Some(true));
        }
    }
}

#[test]
fn a_target_is_a_live_texture() {
    let before = [texture(1, 4, 4), buffer(2), texture(3, 4, 4), destroy(3)];
    assert_eq!(Night::new().judge(&before), Ok(Vec::new()));
    for handle in [0, 2, 3, 4, u32::MAX] {
        let packets = [&before[..], &[target(handle)]].concat();
        let refused = Err((DeviceError::BadHandle, behind(&before)));
        assert_eq!(Night::new().judge(&packets), refused);
    }
    let packets = [&before[..], &[target(1)]].concat();
    assert_eq!(Night::new().judge(&packets), Ok(Vec::new()));
}

#[test]
fn a_scissor_needs_a_target() {
    let whole = scissor(0, 0, 4, 4);
    let two = [texture(1, 4, 4), texture(2, 3, 3)];
    for before in [
        &[][..],
        &[target(1), destroy(1)],
        &[target(1), destroy(1), texture(1, 4, 4)],
        &[target(1), target(2), destroy(2)],
    ] {
        let before = [&two[..], before].concat();
        let packets = [&before[..], &[whole]].concat();
        let refused = Err((DeviceError::BadState, behind(&before)));
        assert_eq!(Night::new().judge(&packets), refused, "{:?}", before);
    }
    for (before, side) in [
        (&[target(1), destroy(2)][..], 4),
        (&[target(1), target(2), destroy(1)], 3),
        (&[target(1), destroy(1), texture(1, 2, 2), target(1)], 2),
    ] {
        let packets = [&two[..], before, &[whole]].concat();
        let clipped = Ok(vec![clips(0, 0, side, side)]);
        assert_eq!(Night::new().judge(&packets), clipped, "{:?}", before);
    }
}

#[test]
fn a_target_ends_with_its_submission() {
    for ended in ["good", "failed", "refused", "reset"] {
        let mut night = Night::new();
        assert_eq!(night.judge(&[texture(1, 4, 4)]), Ok(Vec::new()));
        let sets = [target(1), scissor(0, 0, 1, 1)];
        match ended {
            "good" => assert_eq!(night.judge(&sets), Ok(vec![clips(0, 0, 1, 1)])),
            "refused" => assert!(night.judge(&[target(1), target(9)]).is_err()),
            _ => {
                night.submit(&guest::stream(&sets));
                assert_eq!(night.run(100).ended, Ended::Waiting);
            }
        }
        if ended == "failed" {
            night.answer(HostAnswer::Failed);
        } else if ended == "reset" {
            let control = registers::CONTROL_RESET | registers::CONTROL_ENABLE;
            night.desk.write(registers::CONTROL, control).unwrap();
            guest::put(&mut night.memory, 0, &guest::ring(1, 0, 0));
            night.submitted = 0;
        }
        let refused = Err((DeviceError::BadState, HEADER));
        assert_eq!(night.judge(&[scissor(0, 0, 1, 1)]), refused, "{}", ended);
    }
}

/// In every slicing a submission has the target that it set, and no more units than packets and an opening.
#[test]
fn a_target_is_kept_from_slice_to_slice() {
    let packets = [
        texture(1, 32, 16),
        target(1),
        Packet::Viewport(VIEWPORT),
        scissor(-8, 4, 24, 100),
        Packet::Clear(CLEAR),
    ];
    for slice in 1..=6 {
        let mut night = Night::new();
        night.submit(&guest::stream(&packets));
        let mut units = 0;
        while !matches!(night.run(0).ended, Ended::Waiting) {
            units += night.run(slice).units;
        }
        assert_eq!(units, 6);
        let records: Vec<Record> = night.desk.records().collect();
        assert_eq!(records, [clips(0, 4, 16, 12)]);
        assert_eq!(night.desk.waiting().unwrap().records, 1);
    }
}

fn is_good(viewport: Viewport) -> bool {
    match Night::new().judge(&[Packet::Viewport(viewport)]) {
        Ok(records) => records.is_empty(),
        Err(refused) => {
            assert_eq!(refused, (DeviceError::BadState, HEADER));
            false
        }
    }
}

/// The fields of a viewport.
const FIELDS: [fn(&mut Viewport) -> &mut f32; 6] = [
    |viewport| &mut viewport.x,
    |viewport| &mut viewport.y,
    |viewport| &mut viewport.width,
    |viewport| &mut viewport.height,
    |viewport| &mut viewport.near,
    |viewport| &mut viewport.far,
];

#[test]
fn a_viewport_of_what_is_not_finite_or_has_no_sides_is_30() {
    assert!(is_good(VIEWPORT));
    let not_finite = [f32::INFINITY, f32::NEG_INFINITY, f32::NAN, -f32::NAN];
    for (i, field) in FIELDS.iter().enumerate() {
        let with = |float| {
            let mut viewport = VIEWPORT;
            *field(&mut viewport) = float;
            viewport
        };
        assert!(not_finite.iter().all(|&float| !is_good(with(float))));
        let is_side = i == 2 || i == 3;
        let not_above_0 = [0.0, -0.0, -f32::MIN_POSITIVE];
        assert!(!is_side || not_above_0.iter().all(|&float| !is_good(with(float))));
    }
}

#[test]
fn a_viewport_of_other_depths_is_30() {
    let after = |float: f32| f32::from_bits(float.to_bits() + 1);
    for (near, far, good) in [
        (0.0, -0.0, true),
        (0.5, 0.5, true),
        (after(0.5), 0.5, false),
        (1.0, 1.0, true),
        (0.0, after(1.0), false),
        (after(1.0), after(1.0), false),
        (-f32::MIN_POSITIVE, 1.0, false),
        (f32::from_bits(1), 0.0, false),
    ] {
        let viewport = Viewport {
            near,
            far,
            ..VIEWPORT
        };
        assert_eq!(is_good(viewport), good, "{:?}", viewport);
    }
}

#[test]
fn a_clear_that_breaks_a_rule_is_30() {
    let judge = |clear| Night::new().judge(&[unknown(), Packet::Clear(clear)]);
    let refused = Err((DeviceError::BadState, HEADER + 8));
    assert_eq!(judge(CLEAR), Ok(Vec::new()));
    assert_eq!(judge(Clear { flags: 0, ..CLEAR }), Ok(Vec::new()));
    for flags in [8, 9, 1 << 31, u32::MAX] {
        assert_eq!(judge(Clear { flags, ..CLEAR }), refused);
    }
    for bad in [f32::INFINITY, f32::NEG_INFINITY, f32::NAN, -f32::NAN] {
        for part in 0..4 {
            let mut colour = CLEAR.colour;
            colour[part] = bad;
            let clear = Clear {
                flags: 0,
                colour,
                ..CLEAR
            };
            assert_eq!(judge(clear), refused, "{:?}", clear);
        }
        assert_eq!(
            judge(Clear {
                depth: bad,
                ..CLEAR
            }),
            refused
        );
    }
    for depth in [-1.0, -f32::MIN_POSITIVE, 1.000_000_1] {
        assert_eq!(judge(Clear { depth, ..CLEAR }), refused);
    }
    assert_eq!(
        judge(Clear {
            depth: -0.0,
            ..CLEAR
        }),
        Ok(Vec::new())
    );
}

/// A packet that does nothing.
fn unknown() -> Packet {
    Packet::Unknown {
        opcode: 1537,
        size: 8,
    }
}

#[test]
fn sides_come_before_the_64_records_and_those_before_none() {
    let mut packets = vec![texture(1, 32, 16), target(1)];
    packets.extend([scissor(40, 0, 1, 1); 64]);
    let behind = behind(&packets);
    assert_eq!(
        Night::new().judge(&packets),
        Ok(vec![clips(0, 0, 0, 0); 64])
    );
    for (last, error) in [
        (scissor(0, 0, 1, 1), Some(DeviceError::TooMany)),
        (scissor(0, 0, 0, 0), Some(DeviceError::TooMany)),
        (scissor(0, 0, -1, 1), Some(DeviceError::BadState)),
        (scissor(0, 0, 1, i32::MIN), Some(DeviceError::BadState)),
        (target(9), Some(DeviceError::BadHandle)),
        (target(1), None),
        (Packet::Viewport(VIEWPORT), None),
        (Packet::Clear(CLEAR), None),
    ] {
        let packets = [&packets[..], &[last]].concat();
        let judged = Night::new().judge(&packets);
        assert_eq!(judged.err(), error.map(|error| (error, behind)));
    }
}

#[test]
fn longer_packets_pass_and_shorter_ones_are_17() {
    let before = [texture(1, 4, 4), target(1)];
    for packet in [
        target(1),
        Packet::Viewport(VIEWPORT),
        scissor(0, 0, 1, 1),
        Packet::Clear(CLEAR),
    ] {
        let judge = |bytes: Vec<u8>| {
            let mut packets: Vec<Vec<u8>> = before.iter().map(Packet::to_bytes).collect();
            packets.push(bytes);
            let mut night = Night::new();
            night.submit(&guest::stream_of(&packets));
            night.run(100);
            night.desk.last_error().map(|report| report.error)
        };
        // What is appended would be no number.
        assert_eq!(judge(packet.grown(&[u32::MAX; 3])), None);
        let mut short = packet.to_bytes();
        short.truncate(short.len() - 4);
        let size = short.len() as u32;
        short[4..8].copy_from_slice(&size.to_le_bytes());
        assert_eq!(judge(short), Some(DeviceError::BadPacket));
    }
}

/// Desks compare by meaning, and the target is a part of it while its submission is in work.
#[test]
fn another_target_is_another_desk() {
    let skipped = Packet::Unknown {
        opcode: 1023,
        size: 16,
    };
    let mut nights = [skipped, target(1), target(2)].map(|last| {
        let mut night = Night::new();
        night.submit(&guest::stream(&[texture(1, 4, 4), texture(2, 4, 4), last]));
        assert_eq!(night.run(100).ended, Ended::Waiting);
        night
    });
    for (i, one) in nights.iter().enumerate() {
        for (j, other) in nights.iter().enumerate() {
            assert_eq!(one.desk == other.desk, i == j, "{} and {}", i, j);
        }
    }
    nights
        .iter_mut()
        .for_each(|night| night.answer(HostAnswer::Good));
    assert!(nights.iter().all(|night| night.desk == nights[0].desk));
}

#[test]
fn error_30_is_told_in_words() {
    let mut night = Night::new();
    assert!(night.judge(&[scissor(0, 0, 1, 1)]).is_err());
    assert_eq!(
        night.desk.last_error().unwrap().to_string(),
        "error 30 at byte 24 of the stream, fence 7: a viewport, clear or scissor breaks a rule, or a scissor has no target"
    );
    assert_eq!(night.desk.completed_fence(), 7);
}
