//! The reader of streams held against the front: what the front has checked is read to its end, and where the front refuses a stream
//! or a packet's size, so does the reader.
use std::collections::BTreeMap;
use zelezmut::guest::{self, Clear, Descriptor, Packet, Part, Viewport};
use zelezmut::{registers, Desk, DeviceError, Ended, Place};

const MEMORY: usize = 4096;
const STREAM: usize = 1024;

/// The same in every run.
struct Numbers(u64);

impl Numbers {
    fn below(&mut self, bound: usize) -> usize {
        self.0 ^= self.0 << 13;
        self.0 ^= self.0 >> 7;
        self.0 ^= self.0 << 17;
        (self.0 >> 16) as usize % bound
    }

    fn handle(&mut self) -> u32 {
        1 + self.below(8) as u32 % 3
    }

    /// 0, 1, and now and then a number that is neither.
    fn float(&mut self) -> f32 {
        let any = f32::from_bits(self.0 as u32);
        [0.0, -0.0, 0.5, 1.0, 0.5, any][self.below(6)]
    }

    /// Between the opcodes that are known, and those.
    fn opcode(&mut self) -> u32 {
        [255, 1023, 1535, 1807][self.below(4)] + self.below(9) as u32
    }

    fn packet(&mut self) -> Packet {
        match self.below(11) {
            0 => Packet::Destroy {
                handle: self.handle(),
            },
            1 | 2 => Packet::CopyBuffer {
                destination: self.handle(),
                source: self.handle(),
                destination_offset: 0,
                source_offset: 8,
                size: 16,
                writeback: false,
            },
            3 => Packet::Target {
                handle: self.handle(),
            },
            4 => Packet::Viewport(Viewport {
                x: self.float(),
                y: self.float(),
                width: 1.0,
                height: self.float(),
                near: 0.0,
                far: self.float(),
            }),
            5 => Packet::Clear(Clear {
                flags: self.below(9) as u32,
                colour: [(); 4].map(|()| self.float()),
                depth: self.float(),
                stencil: 0,
            }),
            6 => self.import(),
            7 => Packet::Release { token: 1 },
            _ => Packet::Unknown {
                opcode: self.opcode(),
                size: 8 + 4 * self.below(12) as u32,
            },
        }
    }

    /// No token is bound to anything.
    fn import(&mut self) -> Packet {
        Packet::Import {
            handle: 2 + self.handle(),
            token: self.below(2) as u64,
        }
    }

    /// Packets, some of them grown; then a byte here and there is another one, often one of a header.
    fn stream(&mut self) -> Vec<u8> {
        let mut packets: Vec<Vec<u8>> = (0..self.below(6))
            .map(|_| self.packet().grown(&[7, 7, 7][self.below(4)..]))
            .collect();
        packets.splice(0..0, (1..=3).map(create));
        let starts: Vec<usize> = packets
            .iter()
            .scan(24, |at, packet| {
                *at += packet.len();
                Some(*at - packet.len())
            })
            .collect();
        let mut bytes = guest::stream_of(&packets);
        for _ in 0..self.below(3) {
            let at = match self.below(8) {
                0 => self.below(12),
                1 => self.below(bytes.len()),
                2 => starts[self.below(starts.len())] + 40,
                _ => starts[self.below(starts.len())] + 4 + self.below(2),
            };
            if let Some(byte) = bytes.get_mut(at) {
                *byte = [0, 2, 4, 8, 12, 16, 40, 48, 255][self.below(9)];
            }
        }
        bytes
    }
}

/// Every stream begins with these, so that copies have buffers to go between.
fn create(handle: u32) -> Vec<u8> {
    let create = Packet::CreateBuffer {
        handle,
        size: 64,
        backing: None,
    };
    create.to_bytes()
}

/// What the front makes of a stream: its error and the place, and the units beside the opening's.
fn judged(stream: &[u8]) -> (Option<(DeviceError, Place)>, usize) {
    let mut memory = vec![0; MEMORY];
    let slot = Descriptor {
        commands: Part::of(STREAM as u64, stream),
        ..Descriptor::default()
    };
    guest::put(&mut memory, 0, &guest::ring(1, 0, 1));
    guest::put(&mut memory, guest::slot_offset(0), &slot.to_bytes());
    guest::put(&mut memory, STREAM, stream);
    let mut desk = Desk::new(MEMORY);
    for (offset, value) in [
        (registers::RING_SIZE, guest::ring_size(1)),
        (registers::CONTROL, registers::CONTROL_ENABLE),
        (registers::DOORBELL, 1),
    ] {
        desk.write(offset, value).unwrap();
    }
    let ran = desk.run(&mut memory, u16::MAX).unwrap();
    let error = desk.last_error().map(|report| (report.error, report.place));
    assert_eq!(error.is_none(), ran.ended == Ended::Waiting);
    (error, usize::from(ran.units) - 1)
}

/// How many packets are read, and the error behind them.
fn read(stream: &[u8]) -> (usize, Option<(DeviceError, Place)>) {
    let packets = match guest::decode(stream) {
        Ok(packets) => packets,
        Err(wrong) => return (0, Some((wrong.error, Place::Nowhere))),
    };
    let mut good = 0;
    for packet in packets {
        match packet {
            Ok(_) => good += 1,
            Err(wrong) => {
                let place = wrong.packet.map_or(Place::Nowhere, Place::Packet);
                return (good, Some((wrong.error, place)));
            }
        }
    }
    (good, None)
}

#[test]
fn the_reader_and_the_front_agree() {
    let mut numbers = Numbers(1);
    let mut met = BTreeMap::new();
    for _ in 0..10_000 {
        let stream = numbers.stream();
        let (refused, units) = judged(&stream);
        let (good, wrong) = read(&stream);
        let number = refused.map_or(0, |(error, _)| error.number());
        *met.entry(number).or_insert(0) += 1;
        match refused {
            None => assert_eq!((good, wrong), (units, None), "{:?}", stream),
            Some((DeviceError::BadStream | DeviceError::BadPacket, _)) => {
                assert_eq!(wrong, refused, "{:?}", stream);
            }
            // The reader knows no handles, and no shapes; of a copy it may tell the flags before the front tells the handle.
            Some((_, Place::Packet(at))) => match wrong {
                Some((DeviceError::BadCopy, Place::Packet(there))) if there == at => (),
                Some((_, Place::Packet(there))) => assert!(there > at, "{:?}", stream),
                _ => assert_eq!(wrong, None, "{:?}", stream),
            },
            Some(other) => panic!("{:?}: {:?}", other, stream),
        }
    }
    for error in [0, 16, 17, 18, 26, 29, 30] {
        let times = met.get(&error).copied().unwrap_or(0);
        assert!(times > 100, "error {}: {:?}", error, met);
    }
}

/// Whatever bytes there are: it ends, and every packet lies within them.
#[test]
fn any_bytes_are_read_or_told() {
    let mut numbers = Numbers(2);
    let mut good = 0;
    for _ in 0..10_000 {
        let mut stream = numbers.stream();
        let length = numbers.below(stream.len() + 1);
        let from = numbers.below(length + 1);
        for byte in &mut stream[from..length] {
            *byte = numbers.below(256) as u8;
        }
        let mut at = 24;
        for read in guest::decode(&stream).into_iter().flatten().flatten() {
            assert_eq!(read.offset as usize, at);
            assert_eq!(read.bytes, &stream[at..at + read.bytes.len()]);
            at += read.bytes.len();
            good += 1;
        }
        assert!(at <= stream.len());
    }
    assert!(good > 1000, "{}", good);
}
