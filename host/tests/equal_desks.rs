//! Desks compare by what they mean: how they came there, in how many slices and by which rows, says nothing.
mod current;
mod night;

use current::ticket;
use night::Night;
use zelezmut::guest::{Backing, Packet, Shape};
use zelezmut::{registers, Desk, Ended, HostAnswer};

const BACKING: Option<Backing> = Some(Backing { id: 5, offset: 64 });

/// Works in such slices until nothing is left to do; what waits gets this answer.
fn rest(night: &mut Night, slice: u16, answer: HostAnswer) {
    loop {
        match night.run(slice) {
            Ended::Idle => return,
            Ended::Paused => (),
            Ended::Waiting => {
                let ticket = ticket(&night.desk);
                night.answer(ticket, answer, slice).unwrap();
            }
        }
    }
}

/// A night after one submission, with a good answer. All are of fence 1.
fn after(packets: &[Packet]) -> Night {
    let mut night = Night::new();
    night.submit(1, &[5], packets);
    rest(&mut night, 100, HostAnswer::Good);
    assert_eq!(night.desk.last_error(), None);
    night
}

fn create(handle: u32) -> Packet {
    Packet::CreateBuffer {
        handle,
        size: 256,
        backing: BACKING,
    }
}

fn dirty(handle: u32, size: u64) -> Packet {
    Packet::DirtyRange {
        handle,
        offset: 0,
        size,
    }
}

const SHAPE: Shape = Shape {
    format: 1,
    width: 5,
    height: 3,
    mips: 2,
    layers: 1,
    pitch: 20,
};

#[test]
fn slices_say_nothing() {
    let good = [create(1), create(2), dirty(1, 8), dirty(2, 8)];
    let refused = [create(3), dirty(3, 8), dirty(4, 8), create(4)];
    for (ids, packets) in [
        (&[5, 6, 7][..], &good[..]),
        (&[5], &refused),
        (&[4, 5, 4], &good),
        (&[], &[]),
    ] {
        for answer in [HostAnswer::Good, HostAnswer::Failed] {
            let mut whole = after(&[create(9)]);
            whole.submit(1, ids, packets);
            let before = whole.clone();
            rest(&mut whole, 1000, answer);
            for slice in [1, 2, 3, 4, 7] {
                let mut sliced = before.clone();
                rest(&mut sliced, slice, answer);
                assert_eq!(sliced.memory, whole.memory);
                assert_eq!(sliced.desk, whole.desk);
                assert_ne!(sliced.desk, before.desk);
            }
        }
    }
}

#[test]
fn units_count_and_not_how_they_were_spent() {
    let mut submitted = after(&[create(1)]);
    submitted.submit(1, &[5, 6], &[create(2), dirty(1, 8), dirty(2, 8)]);
    let sliced = |slices: &[u16]| {
        let mut night = submitted.clone();
        for &units in slices {
            night.run(units);
        }
        night.desk
    };
    for units in 0..6 {
        assert_eq!(sliced(&vec![1; units.into()]), sliced(&[units]));
        assert_ne!(sliced(&[units]), sliced(&[units + 1]), "unit {}", units);
    }
    assert_eq!(sliced(&[6]), sliced(&[7]));
}

#[test]
fn resources_are_a_map_by_handle() {
    let one = after(&[create(1), create(2), create(3)]);
    let other = after(&[create(3), create(1), create(2)]);
    assert_eq!(one.desk, other.desk);
    // Their rows have moved.
    let gone = Packet::Destroy { handle: 4 };
    let moved = after(&[create(4), create(1), create(2), create(3), gone]);
    assert_eq!(one.desk, moved.desk);
    // Their rows stand in the other table: a submission that creates turns the tables, one that creates nothing does not.
    let mut twice = after(&[create(2), create(1)]);
    twice.submit(1, &[5], &[create(3)]);
    rest(&mut twice, 100, HostAnswer::Good);
    assert_eq!(one.desk, twice.desk);
    // So do those of a submission in work, which goes back to the same slot.
    let [mut one, mut twice] = [one, twice];
    one.submit(1, &[5], &[]);
    rest(&mut one, 100, HostAnswer::Good);
    for night in [&mut one, &mut twice] {
        night.submit(1, &[5], &[dirty(3, 8), create(4)]);
        assert_eq!(night.run(100), Ended::Waiting);
    }
    assert_eq!(one.desk, twice.desk);
}

/// Packets of which each comes to another device.
fn variants() -> Vec<Packet> {
    let buffer = |handle, size, backing| Packet::CreateBuffer {
        handle,
        size,
        backing,
    };
    let texture = |shape, backing| Packet::CreateTexture {
        handle: 1,
        shape,
        backing,
    };
    let at = |id, offset| Some(Backing { id, offset });
    vec![
        Packet::Unknown { opcode: 9, size: 8 },
        buffer(1, 256, BACKING),
        buffer(2, 256, BACKING),
        buffer(1, 255, BACKING),
        buffer(1, 256, None),
        buffer(1, 256, at(6, 64)),
        buffer(1, 256, at(5, 65)),
        texture(SHAPE, None),
        texture(SHAPE, BACKING),
        texture(Shape { pitch: 24, ..SHAPE }, BACKING),
        texture(Shape { format: 2, ..SHAPE }, BACKING),
        texture(Shape { width: 4, ..SHAPE }, BACKING),
        texture(Shape { height: 2, ..SHAPE }, BACKING),
        texture(Shape { mips: 1, ..SHAPE }, BACKING),
        texture(Shape { layers: 2, ..SHAPE }, BACKING),
    ]
}

#[test]
fn other_resources_are_another_desk() {
    let waiting: Vec<Night> = variants()
        .iter()
        .map(|&packet| {
            let mut night = Night::new();
            night.submit(1, &[5, 6], &[packet]);
            assert_eq!(night.run(100), Ended::Waiting);
            night
        })
        .collect();
    let answered = |answer| {
        let mut nights = waiting.clone();
        nights.iter_mut().for_each(|night| rest(night, 100, answer));
        nights
    };
    let good = answered(HostAnswer::Good);
    for nights in [&waiting, &good] {
        for (i, night) in nights.iter().enumerate() {
            for (j, other) in nights.iter().enumerate() {
                assert_eq!(night.desk == other.desk, i == j, "{} and {}", i, j);
            }
        }
    }
    // Nothing is left of a submission that failed, nor of one that a reset has dropped.
    let failed = answered(HostAnswer::Failed);
    assert!(failed.iter().all(|night| night.desk == failed[0].desk));
    let control = registers::CONTROL_RESET | registers::CONTROL_ENABLE;
    for mut night in waiting {
        night.write(registers::CONTROL, control);
        assert_eq!(night.desk, Night::new().desk);
    }
}

/// Two textures, and what programs do with their tokens.
fn sharing(packets: &[Packet]) -> Night {
    let texture = |handle| Packet::CreateTexture {
        handle,
        shape: Shape { mips: 1, ..SHAPE },
        backing: None,
    };
    let created = [texture(1), texture(2)];
    after(&[&created, packets].concat())
}

fn export(handle: u32, token: u64) -> Packet {
    Packet::Export { handle, token }
}

fn import(handle: u32, token: u64) -> Packet {
    Packet::Import { handle, token }
}

#[test]
fn other_names_or_tokens_are_another_desk() {
    let release = |token| Packet::Release { token };
    let destroy = |handle| Packet::Destroy { handle };
    let nights: Vec<Night> = [
        &[][..],
        &[export(1, 7)],
        &[export(1, 8)],
        &[export(2, 7)],
        &[export(1, 7), release(7)],
        &[export(1, 7), export(1, 8)],
        &[export(1, 7), export(2, 8)],
        &[export(1, 7), import(3, 7)],
        &[export(1, 7), import(4, 7)],
        &[export(2, 7), import(3, 7)],
        &[export(1, 7), import(3, 7), release(7)],
        &[export(1, 7), import(3, 7), destroy(1)],
        &[export(1, 7), destroy(1)],
    ]
    .into_iter()
    .map(sharing)
    .collect();
    for (i, night) in nights.iter().enumerate() {
        for (j, other) in nights.iter().enumerate() {
            assert_eq!(night.desk == other.desk, i == j, "{} and {}", i, j);
        }
    }
}

#[test]
fn tokens_are_a_map_and_names_have_no_history() {
    let one = sharing(&[export(1, 7), export(2, 8)]);
    let other = sharing(&[export(2, 8), export(1, 7)]);
    assert_eq!(one.desk, other.desk);
    // Which of its names a resource had first says nothing.
    let first = sharing(&[export(1, 7), import(3, 7)]);
    let moved = [
        export(1, 7),
        import(3, 7),
        Packet::Destroy { handle: 1 },
        import(1, 7),
    ];
    assert_eq!(sharing(&moved).desk, first.desk);
    // Nor does it for a submission in work.
    let mut begun = [
        sharing(&[export(1, 7), export(2, 8)]),
        sharing(&[export(2, 8), export(1, 7)]),
    ];
    begun[0].submit(1, &[5], &[import(3, 8)]);
    begun[1].submit(1, &[5], &[import(3, 8)]);
    for night in &mut begun {
        assert_eq!(night.run(100), Ended::Waiting);
    }
    assert_eq!(begun[0].desk, begun[1].desk);
}

#[test]
fn other_registers_are_another_desk() {
    assert_ne!(Desk::new(16), Desk::new(17));
    let night = after(&[create(1)]);
    for (offset, value) in [
        (registers::RING_GPA_LO, 64),
        (registers::RING_GPA_HI, 1),
        (registers::RING_SIZE, 64),
        (registers::CONTROL, 0),
        (registers::CONTROL, 3),
        (registers::FENCE_GPA_LO, 64),
        (registers::FENCE_GPA_HI, 1),
        (registers::IRQ_ENABLE, 1),
        (registers::IRQ_ACK, registers::IRQ_FENCE),
        // No register shows that it rang.
        (registers::DOORBELL, 0),
    ] {
        let mut other = night.clone();
        other.write(offset, value);
        assert_ne!(other.desk, night.desk, "{:x}", offset);
    }
    let mut same = night.clone();
    same.write(registers::IRQ_ACK, registers::IRQ_ERROR);
    same.write(registers::CONTROL, registers::CONTROL_ENABLE);
    assert_eq!(same.desk, night.desk);
}

#[test]
fn tickets_are_left_out() {
    let mut night = Night::new();
    night.submit(1, &[5], &[create(1)]);
    assert_eq!(night.run(100), Ended::Waiting);
    let clone = night.desk.clone();
    assert_ne!(ticket(&clone), ticket(&night.desk));
    assert_eq!(clone, night.desk);
}
