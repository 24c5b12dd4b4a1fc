//! Listings through the crate: the text, its lines with names and numbers, and the arrow at the packet that was refused.
mod night;

use night::Night;
use zelezmut::dump::{self, Field, Line, Value, What};
use zelezmut::guest::{self, Backing, Clear, Packet, Scissor, Shape, Viewport};
use zelezmut::{DeviceError, Place};

/// One of each packet that there is, and one that nobody knows.
fn every_packet() -> Vec<Packet> {
    vec![
        Packet::CreateBuffer {
            handle: 1,
            size: u64::MAX,
            backing: Some(Backing { id: 5, offset: 64 }),
        },
        Packet::CreateTexture {
            handle: 2,
            shape: Shape {
                format: 1,
                width: 32,
                height: 16,
                mips: 1,
                layers: 1,
                pitch: 128,
            },
            backing: None,
        },
        Packet::Destroy { handle: u32::MAX },
        Packet::DirtyRange {
            handle: 1,
            offset: 16,
            size: 32,
        },
        Packet::CopyBuffer {
            destination: 3,
            source: 4,
            destination_offset: 5,
            source_offset: 6,
            size: 7,
            writeback: true,
        },
        Packet::Target { handle: 2 },
        Packet::Viewport(Viewport {
            x: 0.0,
            y: -0.0,
            width: 1.0,
            height: f32::from_bits(0x7fc0_0000),
            near: 0.0,
            far: 1.0,
        }),
        Packet::Scissor(Scissor {
            x: i32::MIN,
            y: i32::MAX,
            width: -1,
            height: 0,
        }),
        Packet::Clear(Clear {
            flags: 7,
            colour: [0.0, 0.5, 1.0, 1.0],
            depth: 1.0,
            stencil: 255,
        }),
        Packet::Export {
            handle: 2,
            token: 7_000_000_000,
        },
        Packet::Import {
            handle: 20,
            token: 7_000_000_000,
        },
        Packet::Release { token: 1 },
        Packet::Unknown {
            opcode: 1537,
            size: 64,
        },
    ]
}

const EVERY_LINE: &str = "\
0x00000018 CreateBuffer size_bytes=40 handle=1 size=18446744073709551615 backing_id=5 backing_offset=64
0x00000040 CreateTexture size_bytes=56 handle=2 format=1 width=32 height=16 mips=1 layers=1 pitch=128 backing_id=0 backing_offset=0
0x00000078 Destroy size_bytes=16 handle=4294967295
0x00000088 DirtyRange size_bytes=32 handle=1 offset=16 size=32
0x000000a8 CopyBuffer size_bytes=48 dst=3 src=4 dst_offset=5 src_offset=6 size=7 flags=1
0x000000d8 Target size_bytes=16 handle=2
0x000000e8 Viewport size_bytes=32 x=0 y=2147483648 width=1065353216 height=2143289344 near=0 far=1065353216
0x00000108 Scissor size_bytes=24 x=-2147483648 y=2147483647 width=-1 height=0
0x00000120 Clear size_bytes=36 flags=7 red=0 green=1056964608 blue=1065353216 alpha=1065353216 depth=1065353216 stencil=255
0x00000144 Export size_bytes=24 handle=2 token=7000000000
0x0000015c Import size_bytes=24 handle=20 token=7000000000
0x00000174 Release size_bytes=16 token=1
0x00000184 UNKNOWN size_bytes=64 opcode=1537
";

#[test]
fn every_packet_has_its_line() {
    let stream = guest::stream(&every_packet());
    let text = dump::text(&stream, false);
    for (i, (line, expected)) in text.lines().zip(EVERY_LINE.lines()).enumerate() {
        assert_eq!(line, expected, "line {}", i + 1);
    }
    assert_eq!(text, EVERY_LINE);
    assert_eq!(
        dump::text(&stream, true),
        EVERY_LINE.replace("UNKNOWN", "STOPPED")
    );
}

/// The same packets as another reader of the crate decodes them.
#[test]
fn lines_are_where_the_packets_are() {
    let stream = guest::stream(&every_packet());
    let lines: Vec<Line> = dump::lines(&stream, false).collect();
    let decoded = guest::decode(&stream).unwrap();
    assert_eq!(decoded.clone().count(), lines.len());
    for (line, packet) in lines.iter().zip(decoded) {
        let packet = packet.unwrap();
        assert_eq!(line.offset(), packet.offset);
        let size = match *line.what() {
            What::Packet { size, .. } | What::Unknown { size, .. } => size,
            ref other => panic!("{:?}", other),
        };
        assert_eq!(size as usize, packet.bytes.len());
    }
    let again: String = lines.iter().map(|line| format!("{}\n", line)).collect();
    assert_eq!(again, EVERY_LINE);
}

#[test]
fn a_line_has_names_and_numbers() {
    let stream = guest::stream(&every_packet());
    let mut lines = dump::lines(&stream, false);
    let buffer = lines.next().unwrap();
    assert_eq!(
        buffer.field("size"),
        Some(Value::Unsigned(u64::MAX)),
        "{:?}",
        buffer
    );
    assert_eq!(buffer.field("token"), None);
    let scissor = lines.find(|line| line.field("x") == Some(Value::Signed(i32::MIN)));
    let field = |name: &str, value| Field {
        name: name.to_string(),
        value: Value::Signed(value),
    };
    assert_eq!(
        scissor.unwrap().what(),
        &What::Packet {
            name: "Scissor".to_string(),
            size: 24,
            fields: vec![
                field("x", i32::MIN),
                field("y", i32::MAX),
                field("width", -1),
                field("height", 0),
            ],
        }
    );
    let unknown = lines.last().unwrap();
    let (size, opcode) = (64, 1537);
    assert_eq!(unknown.what(), &What::Unknown { size, opcode });
    assert_eq!(unknown.field("opcode"), None);
    let stopped = dump::lines(&stream, true).last().unwrap();
    assert_eq!(stopped.what(), &What::Stopped { size, opcode });
    assert_eq!(
        format!("{:>45}|", stopped),
        " 0x00000184 STOPPED size_bytes=64 opcode=1537|"
    );
}

/// Whole, every shorter one has a bad header; with the size in the header that is left, it is cut within a packet or between two.
#[test]
fn a_cut_stream_is_listed_up_to_the_cut() {
    let whole = guest::stream(&every_packet());
    for length in 0..whole.len() {
        assert_eq!(dump::text(&whole[..length], false), "error=16\n");
    }
    let line = dump::lines(&whole[..9], true).next().unwrap();
    assert_eq!(
        (line.offset(), line.what()),
        (0, &What::Error(DeviceError::BadStream))
    );
    for length in 24..whole.len() {
        let mut cut = whole[..length].to_vec();
        cut[8..12].copy_from_slice(&(length as u32).to_le_bytes());
        let lines: Vec<Line> = dump::lines(&cut, false).collect();
        let decoded: Vec<_> = guest::decode(&cut).unwrap().collect();
        assert_eq!(lines.len(), decoded.len());
        for (line, decoded) in lines.iter().zip(decoded) {
            match (line.what(), decoded) {
                (What::Error(error), Err(bad)) => {
                    let told = (*error, Some(line.offset()));
                    assert_eq!(told, (bad.error, bad.packet));
                    assert_eq!(line.as_str(), "error=17");
                }
                (What::Error(_), _) | (_, Err(_)) => panic!("{}", line),
                (_, Ok(packet)) => assert_eq!(line.offset(), packet.offset),
            }
        }
    }
}

#[test]
fn nothing_is_listed_of_a_stream_without_packets() {
    assert_eq!(dump::text(&guest::stream(&[]), true), "");
    assert_eq!(dump::lines(&guest::stream(&[]), true).next(), None);
    assert_eq!(dump::text(&[], false), "error=16\n");
}

/// Longer than a stream whose listing has its room at once; the text is more than four times as long.
#[test]
fn a_long_stream_is_listed_whole() {
    let packet = Packet::Unknown {
        opcode: u32::MAX,
        size: 8,
    };
    let count = 20_000;
    let stream = guest::stream(&vec![packet; count]);
    let text = dump::text(&stream, false);
    assert!(text.len() > 6 * stream.len());
    assert_eq!(text.lines().count(), count);
    let last = format!(
        "0x{:08x} UNKNOWN size_bytes=8 opcode=4294967295\n",
        stream.len() - 8
    );
    assert!(text.ends_with(&last));
    // Bytes behind the stream's size are not looked at, and need no room of their own.
    let longer = [stream, vec![7; 1 << 20]].concat();
    assert_eq!(dump::text(&longer, false), text);
}

#[test]
fn the_arrow_is_at_the_packet_that_the_desk_names() {
    let mut night = Night::new();
    let packets = [
        Packet::Unknown { opcode: 7, size: 8 },
        Packet::Destroy { handle: 9 },
        Packet::Target { handle: 1 },
    ];
    night.submit(1, &[5], &packets);
    night.run(100);
    let place = night.desk.last_error().unwrap().place;
    let stream = guest::stream(&packets);
    let arrowed = "   0x00000018 UNKNOWN size_bytes=8 opcode=7\n\
        -> 0x00000020 Destroy size_bytes=16 handle=9\n   \
        0x00000030 Target size_bytes=16 handle=1\n";
    assert_eq!(dump::with_arrow(&stream, false, place), arrowed);
    let without = arrowed.replace("->", "  ");
    for nowhere in [Place::Nowhere, Place::Entry(32), Place::Packet(33)] {
        assert_eq!(dump::with_arrow(&stream, false, nowhere), without);
    }
    // A packet that is cut short has no line but that of its error.
    let mut cut = stream;
    cut[36] = 12;
    assert_eq!(
        dump::with_arrow(&cut, false, Place::Packet(32)),
        "   0x00000018 UNKNOWN size_bytes=8 opcode=7\n-> error=17\n"
    );
}
