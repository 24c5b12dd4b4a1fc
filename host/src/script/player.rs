//! Plays the operations of a script on a desk, and gives the transcript's lines.
use super::{Operation, Script};
use crate::{registers, saved, BadFile, Desk, Form, HostAnswer, Ran, Refused, Ticket};

/// A desk and its memory, on which operations are played one by one.
#[derive(Clone, Debug)]
pub struct Player {
    pub(super) desk: Desk,
    pub(super) memory: Vec<u8>,
}

impl Player {
    /// A new desk, and a memory of so many zeros.
    pub fn new(memory: u32) -> Player {
        Player {
            desk: Desk::new(memory as usize),
            memory: vec![0; memory as usize],
        }
    }

    /// A desk and a memory as they are, to play on with: a night that began elsewhere. The memory may have any length; nothing runs if it
    /// is not the desk's.
    pub fn with(desk: Desk, memory: Vec<u8>) -> Player {
        Player { desk, memory }
    }

    /// Plays an operation and gives its line, without a line's end.
    pub fn play(&mut self, operation: &Operation) -> String {
        match *operation {
            Operation::Poke { address, ref bytes } => {
                poke(&mut self.memory, address as usize, bytes);
                "poke".to_string()
            }
            Operation::Write { offset, value } => {
                format!("write {}", number(self.desk.write(offset, value)))
            }
            Operation::Read { offset } => {
                let read = self.desk.read(offset);
                format!("read {} {}", number(read), read.unwrap_or(0))
            }
            Operation::Run { allowance } => ran("run", self.desk.run(&mut self.memory, allowance)),
            Operation::Record { index } => record(&self.desk, index),
            Operation::Answer { answer, allowance } => {
                answered(&mut self.desk, &mut self.memory, answer, allowance)
            }
            Operation::State => state(&self.desk, &self.memory),
            Operation::RunElsewhere { allowance, length } => {
                let mut elsewhere = vec![0; length as usize];
                ran("run", self.desk.run(&mut elsewhere, allowance))
            }
            Operation::AnswerElsewhere {
                answer,
                allowance,
                length,
            } => {
                let mut elsewhere = vec![0; length as usize];
                answered(&mut self.desk, &mut elsewhere, answer, allowance)
            }
            Operation::Save { form, length } => save(&self.desk, form, length),
            Operation::Load { ref file } => loaded(self.desk.load(file)),
            Operation::Move { length, ref file } => moved(file, length),
        }
    }

    /// The desk as the operations played have left it.
    pub fn desk(&self) -> &Desk {
        &self.desk
    }

    /// The memory as the operations played have left it.
    pub fn memory(&self) -> &[u8] {
        &self.memory
    }
}

/// Plays a script on a new desk and gives its transcript, a line an operation, and a last line where the script has a fault.
pub fn transcript(script: &Script) -> String {
    let mut player = Player::new(script.memory);
    let mut lines = String::new();
    for operation in &script.operations {
        lines.push_str(&player.play(operation));
        lines.push('\n');
    }
    if let Some(fault) = script.fault {
        lines.push_str(&fault.line());
        lines.push('\n');
    }
    lines
}

/// The call's answer.
fn number<T>(called: Result<T, Refused>) -> u32 {
    called.map_or_else(refusal, |_| 0)
}

fn refusal(refused: Refused) -> u32 {
    refused
        .number()
        .unwrap_or_else(|| unreachable!("the current ticket is never stale"))
}

/// The bytes that fall outside memory are dropped.
fn poke(memory: &mut [u8], address: usize, bytes: &[u8]) {
    if let Some(part) = memory.get_mut(address..) {
        let count = part.len().min(bytes.len());
        part[..count].copy_from_slice(&bytes[..count]);
    }
}

/// The line of a call that runs.
fn ran(call: &str, ran: Result<Ran, Refused>) -> String {
    match ran {
        Ok(ran) => format!("{} 0 {} {}", call, ran.units, ran.ended),
        Err(refused) => format!("{} {} 0 idle", call, refusal(refused)),
    }
}

/// A script's answers are for what waits, whatever that is. Where nothing does, no ticket is right, and the front says so.
fn answered(desk: &mut Desk, memory: &mut [u8], answer: HostAnswer, allowance: u16) -> String {
    let waiting = desk.waiting();
    let ticket = waiting.map_or(Ticket::NONE, |waiting| waiting.ticket);
    ran("answer", desk.answer(memory, ticket, answer, allowance))
}

fn record(desk: &Desk, index: u32) -> String {
    match desk.record(index) {
        Ok(record) => {
            let [kind, handle, id, gpa, length] = record.numbers();
            format!("record 0 {} {} {} {} {}", kind, handle, id, gpa, length)
        }
        Err(refused) => format!("record {} 0 0 0 0 0", refusal(refused)),
    }
}

/// What every byte of a buffer is before a save or a move.
const UNWRITTEN: u8 = 0xAA;

fn save(desk: &Desk, form: Form, length: u32) -> String {
    let mut buffer = vec![UNWRITTEN; length as usize];
    let saved = desk.save_as_into(form, &mut buffer);
    let (answer, written) = (number(saved), saved.unwrap_or(0));
    format!("save {} {} {}", answer, written, hash(&buffer))
}

fn moved(file: &[u8], length: u32) -> String {
    let mut buffer = vec![UNWRITTEN; length as usize];
    let moved = saved::move_form_into(file, &mut buffer);
    let (answer, written) = match moved {
        Ok(written) => (0, written),
        Err(refused) => (refused.number(), 0),
    };
    format!("move {} {} {}", answer, written, hash(&buffer))
}

fn loaded(loaded: Result<(), BadFile>) -> String {
    let (answer, place) = match loaded {
        Ok(()) => (0, 0),
        Err(bad) => (bad.number(), bad.place()),
    };
    format!("load {} {}", answer, place)
}

fn state(desk: &Desk, memory: &[u8]) -> String {
    let mut line = "state".to_string();
    for offset in registers::READABLE {
        if let Ok(value) = desk.read(offset) {
            line.push_str(&format!(" {:x}={}", offset, value));
        }
    }
    line.push_str(&format!(" memory={}", hash(memory)));
    line
}

const HASH_START: u64 = 0xCBF2_9CE4_8422_2325;
const HASH_PRIME: u64 = 0x100_0000_01B3;

/// FNV-1a, 64 bits.
fn hash(bytes: &[u8]) -> u64 {
    bytes.iter().fold(HASH_START, |hash, &byte| {
        (hash ^ u64::from(byte)).wrapping_mul(HASH_PRIME)
    })
}

#[cfg(test)]
mod tests {
    use super::*;

    #[test]
    fn the_hash_is_fnv_1a() {
        assert_eq!(hash(b""), HASH_START);
        assert_eq!(hash(b"a"), 0xAF63_DC4C_8601_EC8C);
        assert_eq!(hash(b"foobar"), 0x8594_4171_F739_67E8);
    }

    /// The line of a save or a move that wrote these bytes into a buffer of 100 more.
    fn written(call: &str, file: &[u8]) -> String {
        let mut whole = file.to_vec();
        whole.resize(file.len() + 100, UNWRITTEN);
        format!("{} 0 {} {}", call, file.len(), hash(&whole))
    }

    /// The line of one that was refused with this answer, and so many bytes for it.
    fn refused(call: &str, answer: u32, length: usize) -> String {
        format!("{} {} 0 {}", call, answer, hash(&vec![UNWRITTEN; length]))
    }

    #[test]
    fn a_desk_is_saved_in_both_forms_and_a_file_is_moved() {
        let mut player = Player::new(64);
        for (form, short) in [(Form::One, 95), (Form::Two, 107)] {
            let file = player.desk().save_as(form).unwrap();
            assert_eq!(file.len(), short + 1);
            let other = player.desk().save_as(form.other()).unwrap();
            let mut save = |length: usize| {
                let length = length as u32;
                player.play(&Operation::Save { form, length })
            };
            assert_eq!(save(file.len() + 100), written("save", &file));
            assert_eq!(save(short), refused("save", 6, short));
            let mut moved = |file: &[u8], length: usize| {
                let (length, file) = (length as u32, file.to_vec());
                player.play(&Operation::Move { length, file })
            };
            assert_eq!(moved(&other, file.len() + 100), written("move", &file));
            assert_eq!(moved(&other, short), refused("move", 6, short));
            assert_eq!(moved(&other[..90], 0), refused("move", 7, 0));
        }
        let mut detailed = player.desk().save_as(Form::Two).unwrap();
        for (place, value) in [(64, 18), (76, 1), (80, 24)] {
            detailed[place] = value;
        }
        let line = player.play(&Operation::Move {
            length: 5,
            file: detailed,
        });
        assert_eq!(line, refused("move", 8, 5));
    }

    #[test]
    fn a_loaded_desk_has_its_own_memory_length() {
        let mut player = Player::new(64);
        let file = player.desk().save().unwrap();
        let mut line = |operation| player.play(&operation);
        let mut other = file.clone();
        other[80] = 65;
        let short = file[..90].to_vec();
        assert_eq!(line(Operation::Load { file: short }), "load 7 88");
        assert_eq!(line(Operation::Run { allowance: 1 }), "run 0 0 idle");
        assert_eq!(line(Operation::Load { file: other }), "load 0 0");
        assert_eq!(line(Operation::Run { allowance: 1 }), "run 1 0 idle");
        let (answer, allowance) = (HostAnswer::Good, 1);
        assert_eq!(
            line(Operation::Answer { answer, allowance }),
            "answer 1 0 idle"
        );
        let length = 65;
        assert_eq!(
            line(Operation::RunElsewhere { allowance, length }),
            "run 0 0 idle"
        );
        // An old file, without its number.
        let file = file[4..].to_vec();
        assert_eq!(line(Operation::Load { file }), "load 0 0");
        assert_eq!(line(Operation::Run { allowance: 1 }), "run 0 0 idle");
    }

    #[test]
    fn a_poke_past_the_end_is_dropped() {
        let mut memory = [0; 4];
        poke(&mut memory, 2, &[1, 2, 3]);
        assert_eq!(memory, [0, 0, 1, 2]);
        poke(&mut memory, 4, &[9]);
        poke(&mut memory, 5, &[9]);
        poke(&mut memory, u32::MAX as usize, &[9]);
        assert_eq!(memory, [0, 0, 1, 2]);
    }
}
