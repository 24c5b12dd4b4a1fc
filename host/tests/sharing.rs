//! Surfaces that programs share, through the Rust crate: export, import and release; errors 28 and 29; names and tokens of a desk.
mod current;
mod night;

use current::ticket;
use night::Night;
use zelezmut::guest::{Backing, Packet, Scissor, Shape};
use zelezmut::{registers, DeviceError, Ended, HostAnswer, Place, Range, Record};

const HEADER: u32 = 24;

/// The records that packets wait with, after which the host says good; or the error, and where it arose.
fn judge(night: &mut Night, packets: &[Packet]) -> Result<Vec<Record>, (DeviceError, Place)> {
    night.submit(1, &[5], packets);
    if night.run(u16::MAX) == Ended::Waiting {
        let records = night.desk.records().collect();
        answer(night, HostAnswer::Good);
        return Ok(records);
    }
    let report = night.desk.last_error().unwrap();
    Err((report.error, report.place))
}

fn answer(night: &mut Night, answer: HostAnswer) {
    let ticket = ticket(&night.desk);
    assert_eq!(night.answer(ticket, answer, 100), Ok(Ended::Idle));
}

/// What the first packet of a submission is refused with.
fn refused(night: &Night, packet: Packet) -> Option<DeviceError> {
    match judge(&mut night.clone(), &[packet]) {
        Ok(_) => None,
        Err((error, place)) => {
            assert_eq!(place, Place::Packet(HEADER), "{:?}", packet);
            Some(error)
        }
    }
}

const SHAPE: Shape = Shape {
    format: 1,
    width: 8,
    height: 4,
    mips: 1,
    layers: 1,
    pitch: 32,
};

fn texture_of(handle: u32, shape: Shape) -> Packet {
    Packet::CreateTexture {
        handle,
        shape,
        backing: None,
    }
}

fn texture(handle: u32) -> Packet {
    texture_of(handle, SHAPE)
}

fn backed(handle: u32) -> Packet {
    Packet::CreateTexture {
        handle,
        shape: SHAPE,
        backing: Some(Backing { id: 5, offset: 64 }),
    }
}

fn buffer(handle: u32) -> Packet {
    Packet::CreateBuffer {
        handle,
        size: 64,
        backing: None,
    }
}

fn destroy(handle: u32) -> Packet {
    Packet::Destroy { handle }
}

fn dirty(handle: u32) -> Packet {
    Packet::DirtyRange {
        handle,
        offset: 32,
        size: 16,
    }
}

fn export(handle: u32, token: u64) -> Packet {
    Packet::Export { handle, token }
}

fn import(handle: u32, token: u64) -> Packet {
    Packet::Import { handle, token }
}

fn release(token: u64) -> Packet {
    Packet::Release { token }
}

fn range(handle: u32, gpa: u64, length: u64) -> Range {
    Range {
        handle,
        id: 5,
        gpa,
        length,
    }
}

#[test]
fn records_carry_the_name_of_their_packet() {
    let mut night = Night::new();
    let packets = [backed(4), export(4, 7), import(9, 7), dirty(9), dirty(4)];
    let records = [
        Record::Backs(range(4, 8256, 128)),
        Record::Reads(range(9, 8288, 16)),
        Record::Reads(range(4, 8288, 16)),
    ];
    assert_eq!(judge(&mut night, &packets), Ok(records.to_vec()));
    // The first name is gone, and the resource is there.
    let second = [Record::Reads(range(9, 8288, 16))];
    let packets = [destroy(4), dirty(9)];
    assert_eq!(judge(&mut night, &packets), Ok(second.to_vec()));
    assert_eq!(refused(&night, dirty(4)), Some(DeviceError::BadHandle));
}

/// The packets are good, and leave these names and tokens.
fn leaves(
    night: &mut Night,
    packets: &[Packet],
    names: &[(u32, u32)],
    tokens: &[(u64, Option<u32>)],
) {
    assert_eq!(judge(night, packets), Ok(Vec::new()));
    assert_eq!(night.desk.names(), names);
    assert_eq!(night.desk.tokens(), tokens);
}

#[test]
fn the_lowest_name_tells_which_resource_it_is() {
    let mut night = Night::new();
    let two = [(4, 4), (6, 6)];
    leaves(&mut night, &[texture(4), texture(6)], &two, &[]);
    let mut tokens = [(1, Some(6)), (u64::MAX, Some(4))];
    leaves(
        &mut night,
        &[export(4, u64::MAX), export(6, 1)],
        &two,
        &tokens,
    );
    let higher = [(4, 4), (6, 6), (9, 4)];
    leaves(&mut night, &[import(9, u64::MAX)], &higher, &tokens);
    let lower = [(2, 2), (4, 2), (6, 6), (9, 2)];
    tokens[1].1 = Some(2);
    leaves(&mut night, &[import(2, u64::MAX)], &lower, &tokens);
    tokens[1].1 = Some(4);
    leaves(&mut night, &[destroy(2)], &higher, &tokens);
    tokens[1].1 = Some(9);
    leaves(&mut night, &[destroy(4)], &[(6, 6), (9, 9)], &tokens);
}

#[test]
fn a_token_is_spent_once_it_is_released_or_its_resource_is_gone() {
    let mut night = Night::new();
    let packets = [texture(6), texture(9), export(6, 1), export(9, 5)];
    let mut tokens = [(1, Some(6)), (5, Some(9))];
    leaves(&mut night, &packets, &[(6, 6), (9, 9)], &tokens);
    tokens[0].1 = None;
    leaves(&mut night, &[release(1)], &[(6, 6), (9, 9)], &tokens);
    tokens[1].1 = None;
    leaves(&mut night, &[destroy(9)], &[(6, 6)], &tokens);
    // A new resource of that name is another one.
    leaves(&mut night, &[texture(9)], &[(6, 6), (9, 9)], &tokens);
    for token in [1, 5] {
        let bad = [export(6, token), export(9, token)];
        assert!(bad
            .iter()
            .all(|&packet| refused(&night, packet) == Some(DeviceError::BadToken)));
        let unbound = [import(3, token), release(token)];
        assert!(unbound
            .iter()
            .all(|&packet| refused(&night, packet) == Some(DeviceError::UnboundToken)));
    }
}

/// Textures 1 and 5 have tokens 7 and 9; token 8 is spent. 2 has two mips, 3 two layers, and 4 is a buffer.
fn shared() -> Night {
    let mut night = Night::new();
    let packets = [
        texture(1),
        texture_of(2, Shape { mips: 2, ..SHAPE }),
        texture_of(3, Shape { layers: 2, ..SHAPE }),
        buffer(4),
        texture(5),
        export(1, 7),
        export(5, 9),
        export(5, 8),
        release(8),
    ];
    assert_eq!(judge(&mut night, &packets), Ok(Vec::new()));
    night
}

#[test]
fn every_rule_has_its_number_and_its_turn() {
    let night = shared();
    let broken = |packets: &[Packet], error: DeviceError| {
        for &packet in packets {
            assert_eq!(refused(&night, packet), Some(error), "{:?}", packet);
        }
    };
    // Whatever the token is, the handle comes first, and the shape second.
    for token in [0, 7, 8, 10] {
        broken(
            &[export(0, token), export(6, token)],
            DeviceError::BadHandle,
        );
        let shapes = [export(2, token), export(3, token), export(4, token)];
        broken(&shapes, DeviceError::BadShape);
        let taken = [import(0, token), import(1, token), import(4, token)];
        broken(&taken, DeviceError::BadHandle);
    }
    let bad = [export(1, 0), export(1, 8), export(1, 9), export(5, 7)];
    broken(&bad, DeviceError::BadToken);
    for token in [0, 8, 10, u64::MAX] {
        let unbound = [import(6, token), release(token)];
        broken(&unbound, DeviceError::UnboundToken);
    }
    let good = [export(1, 7), export(1, 10), export(5, u64::MAX)];
    for packet in good.into_iter().chain([import(6, 7), release(9)]) {
        assert_eq!(refused(&night, packet), None, "{:?}", packet);
    }
}

#[test]
fn the_same_token_on_the_same_resource_changes_nothing() {
    let night = shared();
    let mut other = night.clone();
    let again = [import(6, 7), export(6, 7), export(1, 7), destroy(6)];
    assert_eq!(judge(&mut other, &again), Ok(Vec::new()));
    assert_eq!(other.desk.names(), night.desk.names());
    assert_eq!(other.desk.tokens(), night.desk.tokens());
}

#[test]
fn there_are_64_names_at_most() {
    let mut night = Night::new();
    let packets: Vec<Packet> = [texture(1), export(1, 7)]
        .into_iter()
        .chain((2..=64).map(|name| import(name, 7)))
        .collect();
    assert_eq!(judge(&mut night, &packets), Ok(Vec::new()));
    assert_eq!(
        night.desk.names(),
        (1..=64).map(|n| (n, 1)).collect::<Vec<_>>()
    );
    for (packet, error) in [
        (import(65, 7), DeviceError::TooMany),
        (texture(65), DeviceError::TooMany),
        (import(64, 7), DeviceError::BadHandle),
        (import(65, 8), DeviceError::UnboundToken),
    ] {
        assert_eq!(refused(&night, packet), Some(error), "{:?}", packet);
    }
    // Any name that is destroyed gives back one of the 64.
    let moved = [destroy(1), import(65, 7)];
    assert_eq!(judge(&mut night, &moved), Ok(Vec::new()));
    assert_eq!(
        night.desk.names(),
        (2..=65).map(|n| (n, 2)).collect::<Vec<_>>()
    );
    assert_eq!(night.desk.tokens(), [(7, Some(2))]);
}

#[test]
fn there_are_256_tokens_at_most_until_a_reset() {
    let mut night = Night::new();
    let packets: Vec<Packet> = [texture(1), texture(2)]
        .into_iter()
        .chain((1..=256).map(|token| export(1, token)))
        .collect();
    assert_eq!(judge(&mut night, &packets), Ok(Vec::new()));
    assert_eq!(night.desk.tokens().len(), 256);
    // Tokens that are spent were used.
    assert_eq!(judge(&mut night, &[release(3)]), Ok(Vec::new()));
    for (packet, error) in [
        (export(1, 257), Some(DeviceError::TooMany)),
        (export(1, 0), Some(DeviceError::BadToken)),
        (export(2, 256), Some(DeviceError::BadToken)),
        (export(1, 256), None),
        (import(3, 256), None),
    ] {
        assert_eq!(refused(&night, packet), error, "{:?}", packet);
    }
    night.start(registers::CONTROL_RESET | registers::CONTROL_ENABLE);
    assert_eq!((night.desk.names(), night.desk.tokens()), (vec![], vec![]));
    let packets = [texture(2), export(2, 3)];
    assert_eq!(judge(&mut night, &packets), Ok(Vec::new()));
    assert_eq!(night.desk.tokens(), [(3, Some(2))]);
}

#[test]
fn what_was_refused_or_failed_has_used_no_token() {
    let night = shared();
    let packets = [
        export(1, 10),
        import(6, 10),
        destroy(1),
        release(9),
        release(7),
    ];
    let unchanged = |after: &Night| {
        assert_eq!(after.desk.names(), night.desk.names());
        assert_eq!(after.desk.tokens(), night.desk.tokens());
    };
    let mut failed = night.clone();
    failed.submit(1, &[5], &packets);
    assert_eq!(failed.run(u16::MAX), Ended::Waiting);
    // What is in work is nobody's yet.
    unchanged(&failed);
    answer(&mut failed, HostAnswer::Failed);
    unchanged(&failed);
    let mut refused = night.clone();
    let twice: Vec<Packet> = packets.into_iter().chain([release(7)]).collect();
    let at = HEADER + 24 + 24 + 16 + 16 + 16;
    let expected = (DeviceError::UnboundToken, Place::Packet(at));
    assert_eq!(judge(&mut refused, &twice), Err(expected));
    unchanged(&refused);
    for mut night in [failed, refused] {
        assert_eq!(judge(&mut night, &packets), Ok(Vec::new()));
        let tokens = [(7, None), (8, None), (9, None), (10, Some(6))];
        assert_eq!(night.desk.tokens(), tokens);
    }
}

#[test]
fn a_target_is_a_name() {
    let night = shared();
    let scissor = Packet::Scissor(Scissor {
        x: 0,
        y: 0,
        width: 8,
        height: 4,
    });
    let target = Packet::Target { handle: 6 };
    let drawn = [import(6, 7), target, destroy(1), scissor];
    assert!(judge(&mut night.clone(), &drawn).is_ok());
    // The texture lives on as 1, and is no target any more.
    let ended = [import(6, 7), target, destroy(6), scissor];
    let at = HEADER + 24 + 16 + 16;
    let expected = (DeviceError::BadState, Place::Packet(at));
    assert_eq!(judge(&mut night.clone(), &ended), Err(expected));
}
