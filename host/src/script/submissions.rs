//! The submissions of a night, each with its stream as it was when the front opened it.
use super::{Operation, Player, Script};
use crate::guest::{self, Part};
use crate::{registers, Desk, Ended, ErrorReport, HostAnswer};
use std::collections::VecDeque;
use std::iter::FusedIterator;
use std::slice;

/// A submission that the front has opened.
#[derive(Clone, Debug, PartialEq, Eq)]
pub struct Submission {
    /// Its signal fence.
    pub fence: u64,
    /// Where its descriptor says that the stream is; the default, zeros, if it has none.
    pub commands: Part,
    /// The stream's bytes when the front opened it; `None` if they do not lie within memory.
    pub stream: Option<Vec<u8>>,
    /// What became of it.
    pub outcome: Outcome,
}

/// What became of a submission.
#[derive(Clone, Copy, Debug, PartialEq, Eq, Hash)]
pub enum Outcome {
    /// It has not ended.
    InWork,
    /// The host answered good.
    Accepted,
    /// It broke a rule, or the host answered failed: what the error registers said then.
    Refused(ErrorReport),
    /// A reset or a load ended it.
    Dropped,
}

impl Outcome {
    /// Of a submission that has just settled with an error.
    fn refused(desk: &Desk) -> Outcome {
        desk.last_error().map_or(Outcome::Dropped, Outcome::Refused)
    }
}

/// The submissions of a script, in the order of their openings, played on a new desk.
///
/// ```
/// use zelezmut::script::{self, Operation};
///
/// let bytes = script::encode(4096, &[Operation::Run { allowance: 16 }]);
/// let script = script::decode(&bytes);
/// assert_eq!(script::submissions(&script).next(), None);
/// ```
pub fn submissions(script: &Script) -> Submissions<'_> {
    Submissions {
        watch: Watch::new(Player::new(script.memory)),
        operations: script.operations.iter(),
        ended: VecDeque::new(),
    }
}

/// The submissions of a script, as [`submissions`] gives them. One that the script leaves in work is the last.
#[derive(Clone, Debug)]
pub struct Submissions<'a> {
    watch: Watch,
    operations: slice::Iter<'a, Operation>,
    ended: VecDeque<Submission>,
}

impl Iterator for Submissions<'_> {
    type Item = Submission;

    fn next(&mut self) -> Option<Submission> {
        while self.ended.is_empty() {
            match self.operations.next() {
                Some(operation) => self.ended.extend(self.watch.play(operation)),
                None => return self.watch.in_work.take(),
            }
        }
        self.ended.pop_front()
    }
}

impl FusedIterator for Submissions<'_> {}

/// Plays operations as a [`Player`] does, and tells of every submission that the front has opened since.
#[derive(Clone, Debug)]
pub struct Watch {
    player: Player,
    in_work: Option<Submission>,
}

impl Watch {
    /// Goes on where a player is.
    pub fn new(player: Player) -> Watch {
        Watch {
            player,
            in_work: None,
        }
    }

    /// Plays an operation and gives the submissions that ended meanwhile, in order.
    pub fn play(&mut self, operation: &Operation) -> Vec<Submission> {
        let mut ended = Vec::new();
        match *operation {
            Operation::Run { allowance } => self.run(allowance, &mut ended),
            Operation::Answer { answer, allowance } => {
                let only_answer = Operation::Answer {
                    answer,
                    allowance: 0,
                };
                if self.answer(&only_answer, answer, &mut ended) {
                    self.run(allowance, &mut ended);
                }
            }
            Operation::AnswerElsewhere {
                answer,
                allowance,
                length,
            } => {
                let only_answer = Operation::AnswerElsewhere {
                    answer,
                    allowance: 0,
                    length,
                };
                if self.answer(&only_answer, answer, &mut ended) {
                    self.run_elsewhere(allowance, length, &mut ended);
                }
            }
            Operation::RunElsewhere { allowance, length } => {
                self.run_elsewhere(allowance, length, &mut ended);
            }
            _ => {
                self.player.play(operation);
                ended.extend(self.settled(Outcome::Dropped));
            }
        }
        ended
    }

    /// Runs a unit at a time, so that every opening is seen: it comes to the same as one run.
    fn run(&mut self, allowance: u16, ended: &mut Vec<Submission>) {
        for _ in 0..allowance {
            let opening = self.opening();
            let Player { desk, memory } = &mut self.player;
            let ran = desk.run(memory, 1);
            if let Some((submission, head)) = opening {
                // What is refused at its opening has settled by now: the ring's head has moved on.
                if desk.is_in_work() || head != head_of(desk, memory) {
                    self.in_work = Some(submission);
                }
            }
            ended.extend(self.settled(Outcome::refused(&self.player.desk)));
            if !matches!(ran, Ok(ran) if ran.ended == Ended::Paused) {
                return;
            }
        }
    }

    /// The other memory has only zeros, and no ring, so nothing is opened.
    fn run_elsewhere(&mut self, allowance: u16, length: u32, ended: &mut Vec<Submission>) {
        let run = Operation::RunElsewhere { allowance, length };
        self.player.play(&run);
        ended.extend(self.settled(Outcome::refused(&self.player.desk)));
    }

    /// Plays an operation that only answers: whether the answer was taken.
    fn answer(
        &mut self,
        operation: &Operation,
        answer: HostAnswer,
        ended: &mut Vec<Submission>,
    ) -> bool {
        let waited = self.player.desk.waiting().is_some();
        self.player.play(operation);
        let desk = &self.player.desk;
        let taken = waited && !desk.is_in_work();
        let outcome = match answer {
            HostAnswer::Good => Outcome::Accepted,
            HostAnswer::Failed => Outcome::refused(desk),
        };
        ended.extend(self.settled(outcome));
        taken
    }

    /// The submission that the next unit opens if it opens one, and the ring's head now.
    fn opening(&self) -> Option<(Submission, Option<u32>)> {
        let Player { desk, memory } = &self.player;
        if desk.is_in_work() {
            return None;
        }
        let descriptor = guest::at_head(memory, ring_of(desk))?;
        let submission = Submission {
            fence: descriptor.fence,
            commands: descriptor.commands,
            stream: descriptor.commands.within(memory).map(<[u8]>::to_vec),
            outcome: Outcome::InWork,
        };
        Some((submission, head_of(desk, memory)))
    }

    /// The submission that was in work and is no more.
    fn settled(&mut self, outcome: Outcome) -> Option<Submission> {
        if self.player.desk.is_in_work() {
            return None;
        }
        let submission = self.in_work.take()?;
        Some(Submission {
            outcome,
            ..submission
        })
    }
}

/// The address of the ring.
fn ring_of(desk: &Desk) -> u64 {
    let half = |offset| u64::from(desk.read(offset).unwrap_or(0));
    half(registers::RING_GPA_HI) << 32 | half(registers::RING_GPA_LO)
}

/// The head of the ring.
fn head_of(desk: &Desk, memory: &[u8]) -> Option<u32> {
    guest::head(memory, ring_of(desk))
}

#[cfg(test)]
mod tests {
    use super::*;
    use crate::guest::{Descriptor, Packet};
    use crate::script::decode;
    use crate::{DeviceError, Place};

    const STREAM: u32 = 1024;
    const SLOTS: u32 = 4;

    fn poke(address: u32, bytes: &[u8]) -> Operation {
        let bytes = bytes.to_vec();
        Operation::Poke { address, bytes }
    }

    fn write(offset: u32, value: u32) -> Operation {
        Operation::Write { offset, value }
    }

    /// An enabled device, and pending submissions with this stream.
    fn pending(stream: &[u8], fences: &[u64]) -> Watch {
        let mut watch = Watch::new(Player::new(4096));
        let tail = fences.len() as u32;
        let mut operations = vec![
            poke(0, &guest::ring(SLOTS, 0, tail)),
            poke(STREAM, stream),
            write(registers::RING_SIZE, guest::ring_size(SLOTS)),
            write(registers::CONTROL, registers::CONTROL_ENABLE),
            write(registers::DOORBELL, 1),
        ];
        for (&fence, slot) in fences.iter().zip(0..) {
            let submission = Descriptor {
                commands: Part::of(STREAM.into(), stream),
                fence,
                ..Descriptor::default()
            };
            operations.push(poke(
                guest::slot_offset(slot) as u32,
                &submission.to_bytes(),
            ));
        }
        for operation in &operations {
            assert_eq!(watch.play(operation), []);
        }
        watch
    }

    fn unknown() -> Vec<u8> {
        guest::stream(&[Packet::Unknown { opcode: 9, size: 8 }])
    }

    const RUN: Operation = Operation::Run { allowance: 100 };

    fn answer(answer: HostAnswer, allowance: u16) -> Operation {
        Operation::Answer { answer, allowance }
    }

    fn outcomes(ended: Vec<Submission>) -> Vec<(u64, Outcome)> {
        let outcome = |submission: Submission| (submission.fence, submission.outcome);
        ended.into_iter().map(outcome).collect()
    }

    fn refused(fence: u64, error: DeviceError, place: Place, count: u32) -> (u64, Outcome) {
        let report = ErrorReport {
            error,
            place,
            fence,
            count,
        };
        (fence, Outcome::Refused(report))
    }

    #[test]
    fn an_answer_ends_a_submission() {
        let mut watch = pending(&unknown(), &[7, 8]);
        assert_eq!(watch.play(&RUN), []);
        let elsewhere = Operation::RunElsewhere {
            allowance: 9,
            length: 5,
        };
        assert_eq!(watch.play(&elsewhere), []);
        let ended = watch.play(&answer(HostAnswer::Good, 100));
        assert_eq!(ended[0].stream, Some(unknown()));
        assert_eq!(ended[0].commands, Part::of(1024, &unknown()));
        assert_eq!(outcomes(ended), [(7, Outcome::Accepted)]);
        let elsewhere = Operation::AnswerElsewhere {
            answer: HostAnswer::Failed,
            allowance: 9,
            length: 4096,
        };
        let failed = refused(8, DeviceError::HostFailed, Place::Nowhere, 1);
        assert_eq!(outcomes(watch.play(&elsewhere)), [failed]);
        assert_eq!(watch.play(&answer(HostAnswer::Good, 100)), []);
    }

    /// All of them in one run, each with its own error.
    #[test]
    fn a_run_may_end_several() {
        let bad = guest::stream(&[Packet::Destroy { handle: 9 }]);
        let mut watch = pending(&bad, &[1, 2, 3]);
        let far = Descriptor {
            commands: Part {
                gpa: 1 << 40,
                size: 99,
            },
            fence: 2,
            ..Descriptor::default()
        };
        watch.play(&poke(guest::slot_offset(1) as u32, &far.to_bytes()));
        let ended = watch.play(&RUN);
        assert_eq!(ended[1].stream, None);
        let at = Place::Packet(24);
        let expected = [
            refused(1, DeviceError::BadHandle, at, 1),
            refused(2, DeviceError::OutsideMemory, Place::Nowhere, 2),
            refused(3, DeviceError::BadHandle, at, 3),
        ];
        assert_eq!(outcomes(ended), expected);
    }

    #[test]
    fn a_reset_and_a_load_drop_what_is_in_work() {
        let file = Desk::new(4096).save().expect("a desk at rest");
        let reset = write(registers::CONTROL, registers::CONTROL_RESET);
        for drop in [reset, Operation::Load { file }] {
            let mut watch = pending(&unknown(), &[7]);
            assert_eq!(watch.play(&Operation::Run { allowance: 1 }), []);
            assert_eq!(outcomes(watch.play(&drop)), [(7, Outcome::Dropped)]);
            assert_eq!(watch.in_work, None);
        }
    }

    /// A ring that is empty or bad opens nothing.
    #[test]
    fn no_submission_is_made_up() {
        let mut empty = pending(&unknown(), &[]);
        assert_eq!(empty.play(&RUN), []);
        let mut bad = pending(&unknown(), &[7]);
        bad.play(&poke(0, b"nope"));
        assert_eq!(bad.play(&RUN), []);
        let error = bad.player.desk.last_error().map(|report| report.error);
        assert_eq!(error, Some(DeviceError::BadRing));
        assert_eq!((empty.in_work, bad.in_work), (None, None));
    }

    #[test]
    fn what_a_script_leaves_in_work_is_its_last_submission() {
        let watch = pending(&unknown(), &[7]);
        let script = Script {
            memory: 4096,
            operations: vec![Operation::Run { allowance: 1 }],
            fault: None,
        };
        let mut submissions = Submissions {
            watch,
            operations: script.operations.iter(),
            ended: VecDeque::new(),
        };
        let last = submissions.next().expect("a submission");
        assert_eq!((last.fence, last.outcome), (7, Outcome::InWork));
        assert_eq!(submissions.next(), None);
    }

    /// A watch comes to what a player comes to, operation by operation.
    #[test]
    fn watching_changes_nothing() {
        let script = decode(include_bytes!("../../../crates/program_replay/stdin"));
        let mut player = Player::new(script.memory);
        let mut watch = Watch::new(player.clone());
        let mut ended = 0;
        for operation in &script.operations {
            player.play(operation);
            ended += watch.play(operation).len();
            assert_eq!(watch.player.desk, player.desk);
            assert_eq!(watch.player.memory, player.memory);
        }
        let in_work = usize::from(watch.in_work.is_some());
        assert_eq!(submissions(&script).count(), ended + in_work);
        assert!(ended > 20);
    }
}
