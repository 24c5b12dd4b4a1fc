//! Single calls on a front: the same call again and again, all its arguments in turn.

use crate::bench::Bench;
use crate::cases::{texture, Case, Mode, COPY, LONGEST_CHAIN};
use crate::stream_pairs::Dumps;
use crate::files::shares::full_file;
use crate::host::Host;
use crate::numbers::MOST_RECORDS;
use crate::player::{saved, Seat};
use zelezmut::registers::{READABLE, WRITABLE};
use zelezmut::{Form, LONGEST_SAVED_DESK};

#[derive(Clone, Copy, Debug, PartialEq, Eq)]
pub enum Call {
    /// The value 1 to every register that can be written.
    Write,
    /// Every register that can be read.
    Read,
    /// Every record of a submission that waits with 64.
    Record,
    /// A run of an enabled device that has nothing to do.
    Run,
    /// A good answer to a submission of one unknown packet, nothing live, and no run.
    Answer,
    /// The same, and a run until the next such submission waits.
    AnswerAndRun,
    /// A full desk is saved into a buffer that any desk fits, or loaded from what it was saved as.
    Save,
    Load,
    /// The same in form 2, with as many names and tokens as there may be.
    SaveForm2,
    LoadForm2,
    /// What the full desk is saved as moves to form 2.
    Move,
    /// The packed size of a texture of 15 mips with so many layers.
    PackedSize {
        layers: u32,
    },
    /// The same, with a sum over every mip of every layer in the plain program's place.
    EveryMip {
        layers: u32,
    },
    /// A walk over all pairs of two dumps and all their differing offsets.
    Difference(Dumps),
}

pub const CALLS: [Call; 6] = [
    Call::Write,
    Call::Read,
    Call::Record,
    Call::Run,
    Call::Answer,
    Call::AnswerAndRun,
];

pub const SAVING: [Call; 5] = [
    Call::Save,
    Call::Load,
    Call::SaveForm2,
    Call::LoadForm2,
    Call::Move,
];

impl Call {
    pub fn key(self) -> String {
        let key = match self {
            Call::Write => "write",
            Call::Read => "read",
            Call::Record => "record",
            Call::Run => "idle-run",
            Call::Answer => "answer",
            Call::AnswerAndRun => "answer-and-run",
            Call::Save => "save",
            Call::Load => "load",
            Call::SaveForm2 => "save-form-2",
            Call::LoadForm2 => "load-form-2",
            Call::Move => "move",
            Call::PackedSize { layers } => return format!("packed-{}-layers", layers),
            Call::EveryMip { layers } => return format!("every-mip-{}-layers", layers),
            Call::Difference(dumps) => dumps.key(),
        };
        key.to_string()
    }

    /// What exactly is called.
    pub fn input(self) -> String {
        let input = match self {
            Call::Write => "the value 1 to each of the 9 registers that can be written, in turn",
            Call::Read => "each of the 19 registers that can be read, in turn",
            Call::Record => "each of the 64 records of a waiting submission, in turn",
            Call::Run => "a run of 65,535 units on an enabled device that has nothing to do",
            Call::Answer => "a good answer with allowance 0 to a waiting submission of one unknown packet, nothing live; each to a device of its own",
            Call::AnswerAndRun => "as answer, with allowance 65,535 and another such submission behind it, which waits after its two units",
            Call::Save => "a desk with 64 resources is saved: buffers and textures in turn, half of them backed, created in no order of their handles",
            Call::Load => "the same desk is loaded with what it is saved as",
            Call::SaveForm2 => "a desk with 64 names and 256 tokens is saved in form 2: 24 textures and 8 buffers, each texture under two names, 8 of them under a third, every other token bound",
            Call::LoadForm2 => "the same desk is loaded with what it is saved as",
            Call::Move => "what the desk of save is saved as, with 64 resources, is moved from form 1 to form 2",
            Call::PackedSize { layers } => {
                return format!("the packed size of a texture of format 1, 16,384 by 1, with 15 mips; layers: {}", layers)
            }
            Call::EveryMip { layers } => {
                return format!("the same, layers: {}; in the plain program's place stands a sum over every mip of every layer", layers)
            }
            Call::Difference(dumps) => dumps.input(),
        };
        input.to_string()
    }

    fn arguments(self) -> Vec<u32> {
        match self {
            Call::Write => WRITABLE.to_vec(),
            Call::Read => READABLE.to_vec(),
            Call::Record => (0..MOST_RECORDS as u32).collect(),
            Call::Run
            | Call::Answer
            | Call::AnswerAndRun
            | Call::Save
            | Call::Load
            | Call::SaveForm2
            | Call::LoadForm2
            | Call::Move
            | Call::Difference(_) => vec![0],
            Call::PackedSize { layers } | Call::EveryMip { layers } => vec![layers],
        }
    }

    /// The form that its file is of.
    fn form(self) -> Form {
        match self {
            Call::SaveForm2 | Call::LoadForm2 => Form::Two,
            _ => Form::One,
        }
    }

    /// Whether a device can take the call only once.
    fn is_answer(self) -> bool {
        matches!(self, Call::Answer | Call::AnswerAndRun)
    }
}

/// A call with its fronts made ready for it: an answer needs a new one each time, that waits.
pub struct Calls<F> {
    call: Call,
    arguments: Vec<u32>,
    pub benches: Vec<Bench<F>>,
    /// What the first desk is saved as, if it is full, and a buffer for that.
    file: Vec<u8>,
    buffer: Vec<u8>,
    /// Two streams, where their difference is asked for.
    dumps: [Vec<u8>; 2],
}

impl<F: Host> Calls<F> {
    /// Ready for so many rounds.
    pub fn new(call: Call, rounds: usize) -> Calls<F> {
        let bench = || -> Bench<F> {
            match call {
                Call::Write
                | Call::Read
                | Call::PackedSize { .. }
                | Call::EveryMip { .. }
                | Call::Difference(_) => Bench::new(Case::Unknown),
                Call::Record => waiting(COPY),
                Call::Save | Call::Load | Call::Move => Bench::new(Case::Mixed),
                Call::SaveForm2 | Call::LoadForm2 => full(),
                Call::Run => idle(Case::Unknown),
                Call::Answer => waiting(Case::OneUnknown { live: 0 }),
                Call::AnswerAndRun => {
                    let mut bench = Bench::waiting(Case::OneUnknown { live: 0 });
                    bench.arm_behind();
                    bench
                }
            }
        };
        let benches = if call.is_answer() { rounds } else { 1 };
        let benches: Vec<Bench<F>> = (0..benches).map(|_| bench()).collect();
        let form = call.form();
        let (_, length, buffer) = saved(&benches[0].seat.front, form, LONGEST_SAVED_DESK);
        Calls {
            call,
            arguments: call.arguments(),
            benches,
            file: buffer[..length].to_vec(),
            buffer,
            dumps: match call {
                Call::Difference(dumps) => dumps.streams(),
                _ => Default::default(),
            },
        }
    }

    /// The calls of a round.
    pub fn calls(&self) -> u64 {
        self.arguments.len() as u64
    }

    /// Calls in the rounds that are marked. The others are gone through too: what they cost cancels in a difference. Gives the
    /// sum of what the calls said.
    pub fn play(&mut self, rounds: &[bool]) -> u64 {
        let steps: Vec<(u32, bool)> = rounds
            .iter()
            .flat_map(|&marked| {
                self.arguments
                    .iter()
                    .map(move |&argument| (argument, marked))
            })
            .collect();
        let Seat { front, memory } = &mut self.benches[0].seat;
        let (file, buffer) = (&self.file, &mut self.buffer);
        match self.call {
            Call::Write => sum(&steps, |offset| front.wrote(offset, 1).into()),
            Call::Read => sum(&steps, |offset| front.value(offset).into()),
            Call::Record => sum(&steps, |i| front.length(i)),
            Call::Run => sum(&steps, |_| front.spent(memory).into()),
            Call::Answer => answers(&mut self.benches, rounds, |Seat { front, memory }| {
                front.answered(memory).into()
            }),
            Call::AnswerAndRun => answers(&mut self.benches, rounds, |Seat { front, memory }| {
                front.carried_on(memory).into()
            }),
            Call::Save => sum(&steps, |_| front.saved(buffer) as u64),
            Call::Load | Call::LoadForm2 => sum(&steps, |_| front.loaded(file).into()),
            Call::SaveForm2 => sum(&steps, |_| front.saved_form_2(buffer) as u64),
            Call::Move => sum(&steps, |_| F::moved(file, buffer) as u64),
            Call::PackedSize { .. } => sum(&steps, |layers| {
                F::packed_size(texture(LONGEST_CHAIN, layers))
            }),
            Call::EveryMip { .. } => sum(&steps, |layers| {
                F::packed_or_summed(texture(LONGEST_CHAIN, layers))
            }),
            Call::Difference(_) => {
                let [first, second] = &self.dumps;
                sum(&steps, |_| F::walked(first, second))
            }
        }
    }
}

fn waiting<F: Host>(case: Case) -> Bench<F> {
    let mut bench = Bench::new(case);
    bench.arm();
    bench.run_until_waiting(Mode::Whole);
    bench
}

/// As many names and tokens as there may be.
fn full<F: Host>() -> Bench<F> {
    let mut bench: Bench<F> = Bench::new(Case::Unknown);
    let front = &mut bench.seat.front;
    assert!(front.loaded(&full_file().bytes()), "a good file");
    bench
}

/// A run finds the ring empty, and the doorbell is clear again.
fn idle<F: Host>(case: Case) -> Bench<F> {
    let mut bench: Bench<F> = Bench::new(case);
    bench.seat.front.spent(&mut bench.seat.memory);
    bench
}

fn sum(steps: &[(u32, bool)], mut call: impl FnMut(u32) -> u64) -> u64 {
    let mut sum = 0_u64;
    for &(argument, marked) in steps {
        if marked {
            sum = sum.wrapping_add(call(argument));
        }
    }
    sum
}

fn answers<F: Host>(
    benches: &mut [Bench<F>],
    rounds: &[bool],
    mut call: impl FnMut(&mut Seat<F>) -> u64,
) -> u64 {
    let mut sum = 0;
    for (bench, &marked) in benches.iter_mut().zip(rounds) {
        if marked {
            sum += call(&mut bench.seat);
        }
    }
    sum
}
