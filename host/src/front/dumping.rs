//! A dump over random bytes and lengths, with canaries beside all that it is lent; and what it leaves of the buffer.
use super::fuzz::{rounds, BESIDE, UNTOUCHED};
use super::*;
use crate::guest::{self, Packet};
use crate::numbers::Numbers;

/// Bytes that are lent, between bytes that nobody may touch.
fn fenced(bytes: &[u8]) -> Vec<u8> {
    let beside = [UNTOUCHED; BESIDE];
    [&beside[..], bytes, &beside].concat()
}

/// Dumps into a buffer of this many bytes: the answer, and the bytes written. What is behind these, and beside the buffer, is as before.
fn dump_fenced(stream: &[u8], strict: u32, room: usize, numbers: &mut Numbers) -> (u32, Vec<u8>) {
    let mut buffer = fenced(&numbers.memory(room));
    let (lent, before) = (fenced(stream), buffer.clone());
    // SAFETY: pointers and lengths of two slices that are apart.
    let said = unsafe {
        library::zelezmut_dump(
            lent[BESIDE..][..stream.len()].as_ptr(),
            stream.len(),
            strict,
            buffer[BESIDE..][..room].as_mut_ptr(),
            room,
        )
    };
    let (answer, written) = dumped(said);
    assert_eq!(lent, fenced(stream));
    assert!(answer == 0 || written == 0);
    assert_eq!(buffer[..BESIDE], before[..BESIDE]);
    assert_eq!(buffer[BESIDE + written..], before[BESIDE + written..]);
    (answer, buffer[BESIDE..][..written].to_vec())
}

/// A stream of some packets, whole or with some bytes that are others, or cut, or noise.
fn stream(numbers: &mut Numbers) -> Vec<u8> {
    if numbers.next() % 8 == 0 {
        let length = numbers.next() as usize % 100;
        return numbers.memory(length);
    }
    let packets: Vec<Packet> = (0..numbers.next() % 6)
        .map(|_| match numbers.next() % 4 {
            0 => Packet::Destroy {
                handle: numbers.next() as u32,
            },
            1 => Packet::Release {
                token: numbers.next(),
            },
            2 => Packet::DirtyRange {
                handle: numbers.next() as u32,
                offset: numbers.next(),
                size: numbers.next(),
            },
            _ => Packet::Unknown {
                opcode: numbers.next() as u32,
                size: 8 + 4 * (numbers.next() as u32 % 4),
            },
        })
        .collect();
    let mut stream = guest::stream(&packets);
    if numbers.next() % 4 == 0 {
        let at = numbers.next() as usize % stream.len();
        stream[at] = numbers.next() as u8;
    }
    if numbers.next() % 4 == 0 {
        stream.truncate(numbers.next() as usize % (stream.len() + 1));
    }
    stream
}

/// Any stream, any buffer: it is refused exactly if the buffer is too short, and the text is never longer than it is said to be.
#[test]
fn no_dump_goes_over_a_fence() {
    let rounds = rounds();
    let mut numbers = Numbers(17);
    let (mut done, mut too_short, mut to_the_byte) = (0, 0, 0);
    for _ in 0..rounds {
        let stream = stream(&mut numbers);
        let strict = [0, 1, 2, u32::MAX][numbers.next() as usize % 4];
        let longest = 10 * stream.len() + 90;
        let (answer, text) = dump_fenced(&stream, strict, longest, &mut numbers);
        assert_eq!(answer, 0);
        assert_eq!(dump(&stream, strict != 0, longest), (0, text.clone()));
        let room = match numbers.next() % 3 {
            0 => text.len(),
            1 => text.len().saturating_sub(1),
            _ => numbers.next() as usize % (2 * text.len() + 10),
        };
        let again = dump_fenced(&stream, strict, room, &mut numbers);
        if room < text.len() {
            assert_eq!(again, (6, Vec::new()));
            too_short += 1;
        } else {
            to_the_byte += u64::from(room == text.len() && room > 0);
            assert_eq!(again, (0, text));
            done += 1;
        }
    }
    for count in [done, too_short, to_the_byte] {
        assert!(count >= rounds / 10, "{} of {}", count, rounds);
    }
}
