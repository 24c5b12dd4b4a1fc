//! Nights in which a host does little else than load, save and move: for files of all kinds, one after the other.

use super::drawn::{some_loading, Loading};
use super::good::some_file;
use super::{File, Kind};
use crate::event::Event;
use crate::expected::ExpectedLoad;
use crate::generator::Drawn;
use crate::random::Random;
use zelezmut::script::Operation;
use zelezmut::{Form, LONGEST_SAVED_DESK};

/// The files of a night.
const FILES: usize = 10;

/// The bytes of a file of form 1 that has no resources.
pub const SHORTEST: usize = 96;

/// A desk without memory, into which files are loaded. What one of them left the next one finds.
pub fn draw(seed: u64) -> Drawn {
    let mut random = Random::new(seed);
    let mut drawn = Drawn {
        seed,
        memory: 0,
        operations: Vec::new(),
        expected: Vec::new(),
        loads: Vec::new(),
        head_at: 0,
        events: Vec::new(),
    };
    // The file that was loaded last, if it was good.
    let mut last = Vec::new();
    for _ in 0..FILES {
        let file = some_file(&mut random);
        let Loading { bytes, told, event } = some_loading(&mut random, file);
        if told.map_or(false, |told| told.place.is_none()) {
            last = bytes.clone();
        }
        let at = drawn.operations.len();
        drawn
            .loads
            .extend(told.map(|told| ExpectedLoad { at, told }));
        drawn.events.extend(event);
        drawn.operations.push(Operation::Load {
            file: bytes.clone(),
        });
        behind(&mut random, &mut drawn, (bytes, &last));
    }
    drawn
}

/// What may follow a load of a file, after another that was good: a save, a move of either, there and back, or a run that finds another
/// memory.
fn behind(random: &mut Random, drawn: &mut Drawn, (file, last): (Vec<u8>, &[u8])) {
    match random.within(0..=9) {
        0..=2 => {
            let form = random.pick(&Form::ALL);
            let length = some_length(random, saved_length(last, form));
            drawn.operations.push(Operation::Save { form, length });
        }
        3 => drawn.operations.push(Operation::Run { allowance: 1 }),
        4 => {
            let moves = there_and_back(random, last);
            drawn
                .events
                .extend(Some(Event::MovedThereAndBack).filter(|_| moves.len() > 1));
            drawn.operations.extend(moves);
        }
        5..=6 => {
            let length = some_length(random, moved_length(&file));
            drawn.operations.push(Operation::Move { length, file });
        }
        _ => (),
    }
}

/// The bytes of a good file's desk in this form, if that has fields for it.
fn saved_length(file: &[u8], form: Form) -> usize {
    let mut file = File::read(file);
    file.set_kind(match form {
        Form::One => Kind::One,
        Form::Two => Kind::Two,
    });
    file.bytes().len()
}

/// What a file has in its other form, be it that it has any.
pub fn moved_length(file: &[u8]) -> usize {
    saved_length(file, File::read(file).kind.form().other())
}

/// A good file, moved to the other form and back.
pub fn there_and_back(random: &mut Random, file: &[u8]) -> Vec<Operation> {
    let mut moves = Vec::new();
    let mut file = file.to_vec();
    for _ in 0..2 {
        let mut buffer = vec![0; LONGEST_SAVED_DESK];
        let (answer, length) = plain::move_form(&file, &mut buffer);
        let exact = moved_length(&file) as u32;
        let length_of_buffer = random.pick(&[exact, exact, LONGEST_SAVED_DESK as u32]);
        moves.push(Operation::Move {
            length: length_of_buffer,
            file,
        });
        if answer != 0 {
            break;
        }
        buffer.truncate(length);
        file = buffer;
    }
    moves
}

/// Of a buffer for a file of so many bytes: as long, a little shorter or longer, or anything.
pub fn some_length(random: &mut Random, file: usize) -> u32 {
    let any = random.index(LONGEST_SAVED_DESK + 100);
    let longer = file + random.within(1..=60) as usize;
    random.pick(&[0, file - 1, file - 1, file, file, longer, any]) as u32
}
