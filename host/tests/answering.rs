//! The host's answer and the run behind it, in one call: what it comes to, what it costs, and when it is refused.
mod current;

use current::ticket;
use zelezmut::guest::{self, Backing, Descriptor, Entry, Packet, Part};
use zelezmut::{registers, Desk, DeviceError, Ended, HostAnswer, Ran, Record, Refused};

const MEMORY: usize = 16_384;
const SLOTS: u32 = 4;
const TABLE: usize = 1024;
const STREAMS: usize = 2048;
const STREAM: usize = 1024;
const TAIL: usize = 28;
const FENCE_PAGE: usize = 512;

const ANSWERS: [HostAnswer; 2] = [HostAnswer::Good, HostAnswer::Failed];
const ENTRY: Entry = Entry {
    id: 5,
    gpa: 8192,
    size: 4096,
    read_only: false,
};

/// A desk whose guest submits one thing after the other, also while one waits. Fences count from 1.
#[derive(Clone)]
struct Night {
    desk: Desk,
    memory: Vec<u8>,
    submitted: u32,
}

/// All that can be seen of a night.
#[derive(Debug, PartialEq)]
struct Seen {
    registers: Vec<u32>,
    records: Vec<Record>,
    memory: Vec<u8>,
}

impl Night {
    fn new() -> Night {
        let mut night = Night {
            desk: Desk::new(MEMORY),
            memory: vec![0; MEMORY],
            submitted: 0,
        };
        guest::put(&mut night.memory, 0, &guest::ring(SLOTS, 0, 0));
        guest::put(&mut night.memory, TABLE, &guest::table(&[ENTRY]));
        for (offset, value) in [
            (registers::RING_SIZE, guest::ring_size(SLOTS)),
            (registers::FENCE_GPA_LO, FENCE_PAGE as u32),
            (registers::CONTROL, registers::CONTROL_ENABLE),
        ] {
            night.desk.write(offset, value).unwrap();
        }
        night
    }

    /// Puts a submission with a table of one entry behind those before it: two units, and one a packet.
    fn submit(&mut self, packets: &[Packet]) {
        let slot = self.submitted % SLOTS;
        self.submitted += 1;
        let stream = guest::stream(packets);
        let at = STREAMS + slot as usize * STREAM;
        let descriptor = Descriptor {
            commands: Part::of(at as u64, &stream),
            table: Part::of(TABLE as u64, &guest::table(&[ENTRY])),
            fence: self.submitted.into(),
            silent: false,
        };
        guest::put(&mut self.memory, at, &stream);
        guest::put(
            &mut self.memory,
            guest::slot_offset(slot),
            &descriptor.to_bytes(),
        );
        guest::put(&mut self.memory, TAIL, &self.submitted.to_le_bytes());
        self.desk.write(registers::DOORBELL, 1).unwrap();
    }

    fn run(&mut self, allowance: u16) -> Result<Ran, Refused> {
        self.desk.run(&mut self.memory, allowance)
    }

    fn answer(&mut self, answer: HostAnswer, allowance: u16) -> Result<Ran, Refused> {
        let ticket = ticket(&self.desk);
        self.desk
            .answer(&mut self.memory, ticket, answer, allowance)
    }

    fn seen(&self) -> Seen {
        let value = |&offset| self.desk.read(offset).unwrap();
        Seen {
            registers: registers::READABLE.iter().map(value).collect(),
            records: self.desk.records().collect(),
            memory: self.memory.clone(),
        }
    }

    fn error(&self) -> Option<(DeviceError, u64, u32)> {
        let report = self.desk.last_error()?;
        Some((report.error, report.fence, report.count))
    }
}

fn ran(units: u16, ended: Ended) -> Result<Ran, Refused> {
    Ok(Ran { units, ended })
}

fn create(handle: u32) -> Packet {
    Packet::CreateBuffer {
        handle,
        size: 64,
        backing: Some(Backing { id: 5, offset: 0 }),
    }
}

fn dirty(handle: u32) -> Packet {
    Packet::DirtyRange {
        handle,
        offset: 0,
        size: 16,
    }
}

/// Submission 1, which creates buffer 1, waits for the host.
fn waiting() -> Night {
    let mut night = Night::new();
    night.submit(&[create(1)]);
    assert_eq!(night.run(100), ran(3, Ended::Waiting));
    night
}

/// Behind it: 2 creates buffer 2 and waits, 3 is refused whatever was answered, 4 waits.
fn waiting_before_three() -> Night {
    let mut night = waiting();
    night.submit(&[create(2), dirty(2)]);
    night.submit(&[dirty(9)]);
    night.submit(&[create(3)]);
    night
}

#[test]
fn an_answer_that_carries_on_is_an_answer_and_a_run() {
    for first in ANSWERS {
        for second in ANSWERS {
            for allowance in (0..=10).chain([u16::MAX]) {
                let mut joined = waiting_before_three();
                let mut apart = joined.clone();
                for answer in [first, second] {
                    let said = joined.answer(answer, allowance);
                    assert_eq!(apart.answer(answer, 0), ran(0, Ended::Paused));
                    assert_eq!(said, apart.run(allowance));
                    assert_eq!(joined.seen(), apart.seen());
                    // So that something waits for the second answer.
                    assert_eq!(joined.run(100), apart.run(100));
                }
                assert_eq!(joined.seen(), apart.seen());
            }
        }
    }
}

#[test]
fn units_go_up_to_the_allowance_and_settling_costs_none() {
    for answer in ANSWERS {
        for allowance in 0..=6 {
            let mut night = waiting_before_three();
            let expected = match allowance {
                0..=3 => ran(allowance, Ended::Paused),
                _ => ran(4, Ended::Waiting),
            };
            assert_eq!(night.answer(answer, allowance), expected);
            assert_eq!(night.desk.completed_fence(), 1);
        }
    }
}

#[test]
fn the_run_goes_on_over_a_refusal_to_the_next_that_waits() {
    let mut night = waiting_before_three();
    assert_eq!(night.answer(HostAnswer::Good, 100), ran(4, Ended::Waiting));
    assert_eq!(night.desk.records().count(), 2);
    assert_eq!(
        night.answer(HostAnswer::Failed, 100),
        ran(3 + 3, Ended::Waiting)
    );
    assert_eq!(night.error(), Some((DeviceError::BadHandle, 3, 2)));
    assert_eq!(night.desk.completed_fence(), 3);
    let range = night.desk.record(0).unwrap().range().unwrap();
    assert_eq!(range.handle, 3);
    assert_eq!(night.answer(HostAnswer::Good, 100), ran(1, Ended::Idle));
    assert_eq!(night.desk.completed_fence(), 4);
}

#[test]
fn the_run_finds_the_resources_that_the_answer_left() {
    let destroys_1 = || {
        let mut night = waiting();
        night.submit(&[Packet::Destroy { handle: 1 }]);
        night
    };
    let mut night = destroys_1();
    assert_eq!(night.answer(HostAnswer::Good, 100), ran(3, Ended::Waiting));
    assert_eq!(night.error(), None);
    let mut night = destroys_1();
    assert_eq!(
        night.answer(HostAnswer::Failed, 100),
        ran(3 + 1, Ended::Idle)
    );
    // The host's own error, 27, was the first of two.
    assert_eq!(night.error(), Some((DeviceError::BadHandle, 2, 2)));
}

#[test]
fn an_allowance_of_0_only_settles() {
    for (answer, error) in [
        (HostAnswer::Good, None),
        (HostAnswer::Failed, Some((DeviceError::HostFailed, 1, 1))),
    ] {
        let mut night = waiting();
        let mut expected = night.memory.clone();
        guest::put(&mut expected, 24, &1u32.to_le_bytes());
        guest::put(&mut expected, FENCE_PAGE, b"FENC\x03\x00\x01\x00");
        guest::put(&mut expected, FENCE_PAGE + 8, &1u64.to_le_bytes());
        assert_eq!(night.answer(answer, 0), ran(0, Ended::Paused));
        assert!(night.memory == expected);
        assert_eq!(night.desk.completed_fence(), 1);
        assert_eq!(night.error(), error);
        // The doorbell's flag still stands: one unit finds no more work.
        assert_eq!(night.run(0), ran(0, Ended::Paused));
        assert_eq!(night.run(100), ran(1, Ended::Idle));
    }
}

#[test]
fn a_disabled_desk_settles_and_runs_nothing() {
    for answer in ANSWERS {
        for allowance in [0, 1, u16::MAX] {
            let mut night = waiting_before_three();
            night.desk.write(registers::CONTROL, 0).unwrap();
            assert_eq!(night.answer(answer, allowance), ran(0, Ended::Idle));
            assert_eq!(night.desk.completed_fence(), 1);
        }
    }
}

#[test]
fn an_answer_is_refused_whole_where_nothing_waits() {
    let idle = Night::new();
    let mut rung = Night::new();
    rung.submit(&[create(1)]);
    let mut paused = rung.clone();
    assert_eq!(paused.run(2), ran(2, Ended::Paused));
    let mut settled = waiting_before_three();
    assert_eq!(settled.answer(HostAnswer::Good, 0), ran(0, Ended::Paused));
    // What a run would spend there, had the refused answer left it all.
    for (night, left) in [(idle, 0), (rung, 3), (paused, 1), (settled, 4)] {
        for answer in ANSWERS {
            for allowance in [0, 1, 100, u16::MAX] {
                let mut night = night.clone();
                let before = night.seen();
                assert_eq!(night.answer(answer, allowance), Err(Refused::NothingWaits));
                assert_eq!(night.seen(), before);
                assert_eq!(night.run(100).map(|ran| ran.units), Ok(left));
            }
        }
    }
}

#[test]
fn an_answer_is_refused_whole_over_another_memory() {
    for length in [0, 1, MEMORY - 1, MEMORY + 1] {
        for answer in ANSWERS {
            for allowance in [0, 1, 100, u16::MAX] {
                // One waits and work pends behind it; and one that nothing waits in, where 1 comes before 3.
                let mut rung = Night::new();
                rung.submit(&[create(1)]);
                for (mut night, left) in [(waiting_before_three(), 0), (rung, 3)] {
                    let before = night.seen();
                    let mut other = vec![0xEE; length];
                    let ticket = ticket(&night.desk);
                    assert_eq!(
                        night.desk.answer(&mut other, ticket, answer, allowance),
                        Err(Refused::OtherMemory)
                    );
                    assert!(other.iter().all(|&byte| byte == 0xEE));
                    assert_eq!(night.seen(), before);
                    assert_eq!(night.run(100), ran(left, Ended::Waiting));
                }
            }
        }
    }
}

#[test]
fn a_night_is_worked_off_by_answers_alone() {
    for allowance in [1, 2, 7, u16::MAX] {
        let mut night = Night::new();
        night.submit(&[create(1)]);
        let mut ran = night.run(allowance).unwrap();
        let (mut units, mut answers) = (ran.units, 0);
        while ran.ended != Ended::Idle {
            ran = match ran.ended {
                Ended::Waiting => {
                    answers += 1;
                    if night.submitted < 10 {
                        night.submit(&[dirty(1)]);
                    }
                    night.answer(HostAnswer::Good, allowance).unwrap()
                }
                _ => night.run(allowance).unwrap(),
            };
            units += ran.units;
        }
        // Three units each, and one that finds no more work.
        assert_eq!((answers, units), (10, 31));
        assert_eq!(night.desk.completed_fence(), 10);
        assert_eq!(night.error(), None);
    }
}
