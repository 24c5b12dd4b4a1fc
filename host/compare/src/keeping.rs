//! A host that saves its desk and loads files: what the desk was saved as, what nobody saved, and what is no saved desk.

use crate::author::{Author, PLENTY};
use crate::event::Event;
use crate::expected::ExpectedLoad;
use crate::files::drawn::{some_loading, Loading};
use crate::files::good::{of_some_kind, some_numbers, some_rows};
use crate::files::night::{moved_length, some_length, there_and_back, SHORTEST};
use crate::files::shares::{some_names, some_shareable};
use crate::files::{number, File, Kind};
use crate::held::Held;
use crate::numbers::MOST_NAMES;
use crate::player::{saved, Said, Seat};
use crate::random::Random;
use zelezmut::registers::CONTROL_ENABLE;
use zelezmut::script::{Operation, LONGEST_MEMORY};
use zelezmut::Form;

/// What a host needs for that, with a random source of its own: a desk in which nothing is saved is what it was before.
pub(crate) struct Keeper {
    random: Random,
    /// How often, of a hundred times, it does something.
    often: u64,
    /// The desk so far, on the plain program: it only says what to aim at.
    played: Seat<plain::Desk>,
    operations: usize,
    /// What the desk was saved as on the way.
    files: Vec<File>,
}

impl Keeper {
    pub(crate) fn new(seed: u64, memory: u64) -> Keeper {
        let mut random = Random::new(!seed);
        Keeper {
            often: random.pick(&[0, 0, 0, 0, 20, 60]),
            random,
            played: Seat::new(memory as u32),
            operations: 0,
            files: Vec::new(),
        }
    }

    /// Plays the desk on until here, and gives what the last operation said.
    fn catch_up(&mut self, operations: &[Operation]) -> Said {
        let mut said = Said::Nothing;
        for operation in &operations[self.operations..] {
            said = self.played.play(operation);
        }
        self.operations = operations.len();
        said
    }
}

impl Author {
    /// Between two rounds, the host saves and loads.
    pub(crate) fn keep(&mut self) {
        if !self.keeper.random.percent(self.keeper.often) {
            return;
        }
        for _ in 0..self.keeper.random.within(1..=3) {
            match self.keeper.random.within(0..=17) {
                0..=2 => self.save(),
                3..=4 => self.save_and_load(),
                5 => self.load_earlier(),
                6 => self.load_made_up(),
                7 => self.load_for_other_memory(),
                8 => self.move_there_and_back(),
                9..=10 => self.move_something(),
                11 => self.keep_names_alone(),
                _ => self.load_something(),
            }
        }
    }

    /// While a submission may be in work.
    pub(crate) fn keep_in_work(&mut self) {
        if !self.keeper.random.percent(self.keeper.often / 2) {
            return;
        }
        match self.keeper.random.within(0..=5) {
            0..=2 => self.save(),
            3 => {
                let file = self.made_up();
                self.load_in_work(Loading::good(&file));
            }
            _ => {
                let file = self.some_file();
                let loading = some_loading(&mut self.keeper.random, file);
                self.load_in_work(loading);
            }
        }
    }

    /// Into a buffer that is long enough or not.
    fn save(&mut self) {
        let form = self.keeper.random.pick(&Form::ALL);
        let length = self.saved(form).map_or(SHORTEST, |file| file.len());
        let length = some_length(&mut self.keeper.random, length);
        self.say(Operation::Save { form, length });
    }

    /// What the desk is saved as, if it can be.
    fn saved(&mut self, form: Form) -> Option<Vec<u8>> {
        self.keeper.catch_up(&self.operations);
        let (answer, length, mut file) = saved(&self.keeper.played.front, form, form.longest());
        if answer != 0 {
            return None;
        }
        file.truncate(length);
        self.keeper.files.push(File::read(&file));
        Some(file)
    }

    /// Nothing changes: what is believed of the desk stays so.
    fn save_and_load(&mut self) {
        let form = self.keeper.random.pick(&Form::ALL);
        if let Some(file) = self.saved(form) {
            self.events.push(Event::SavedAndLoaded);
            let length = file.len() as u32;
            self.say(Operation::Save { form, length });
            self.say(Operation::Load { file });
        }
    }

    /// A good file in its other form, and what it became back, if it goes.
    fn move_there_and_back(&mut self) {
        let file = self.some_file().bytes();
        let moves = there_and_back(&mut self.keeper.random, &file);
        if moves.len() > 1 {
            self.events.push(Event::MovedThereAndBack);
        }
        moves.into_iter().for_each(|operation| self.say(operation));
    }

    /// A device that form 1 has no fields for because of other names alone: no run leads there, but a file does.
    fn keep_names_alone(&mut self) {
        let mut file = self.made_up();
        file.set_kind(Kind::Two);
        file.set_tokens(Vec::new());
        file.detail = 0;
        some_shareable(&mut self.keeper.random, &mut file);
        if file.names.is_empty() && file.rows.len() < MOST_NAMES {
            let names = some_names(&mut self.keeper.random, &file, 1);
            file.set_names(names);
        }
        let bytes = file.bytes();
        self.load_at_rest(Loading::good(&file));
        self.save();
        let length = some_length(&mut self.keeper.random, moved_length(&bytes));
        self.say(Operation::Move {
            length,
            file: bytes,
        });
    }

    /// Anything, into a buffer that is long enough or not.
    fn move_something(&mut self) {
        let file = self.some_file();
        let random = &mut self.keeper.random;
        let file = some_loading(random, file).bytes;
        let length = some_length(random, moved_length(&file));
        self.say(Operation::Move { length, file });
    }

    fn load_earlier(&mut self) {
        if !self.keeper.files.is_empty() {
            self.events.push(Event::LoadedEarlier);
            let file = self.keeper.random.pick(&self.keeper.files);
            self.load_at_rest(Loading::good(&file));
        }
    }

    fn load_made_up(&mut self) {
        self.events.push(Event::LoadedMadeUp);
        let file = self.made_up();
        self.load_at_rest(Loading::good(&file));
    }

    /// A good file for this world's memory and ring, with resources that its entries may back.
    fn made_up(&mut self) -> File {
        let ids: Vec<u32> = self
            .world
            .usual_entries
            .iter()
            .map(|entry| entry.id)
            .collect();
        let random = &mut self.keeper.random;
        let few = random.within(0..=6) as usize;
        let count = random.pick(&[0, few, few, few, few, MOST_NAMES - 1, MOST_NAMES]);
        let rows = some_rows(random, count, &ids);
        let file = File::new(some_numbers(random), rows);
        let mut file = of_some_kind(random, file);
        if random.percent(70) {
            let (ring, fence) = (self.world.ring.gpa, self.world.fence);
            file.set_long(number::RING_GPA_LO, ring);
            file.set_long(number::FENCE_GPA_LO, fence);
            file.numbers[number::RING_SIZE] = self.world.ring.size;
        }
        file.set_memory(self.world.memory);
        file
    }

    /// A good file to begin with: one that was saved earlier, or a made-up one.
    fn some_file(&mut self) -> File {
        if self.keeper.files.is_empty() || self.keeper.random.coin() {
            self.made_up()
        } else {
            self.keeper.random.pick(&self.keeper.files)
        }
    }

    fn load_something(&mut self) {
        let file = self.some_file();
        let loading = some_loading(&mut self.keeper.random, file);
        self.load_at_rest(loading);
    }

    /// A device for another memory: nothing runs, until a file says this one's length again.
    fn load_for_other_memory(&mut self) {
        let mut file = self.some_file();
        let own = self.world.memory;
        let random = &mut self.keeper.random;
        let any = random.any_size();
        file.set_memory(random.pick(&[0, own + 1, own.wrapping_sub(1), 4096, any]));
        self.load_at_rest(Loading::good(&file));
    }

    /// Says it, and whether the file was good.
    fn load(&mut self, loading: Loading) -> bool {
        let at = self.operations.len();
        self.loads
            .extend(loading.told.map(|told| ExpectedLoad { at, told }));
        self.events.extend(loading.event);
        self.say(Operation::Load {
            file: loading.bytes,
        });
        matches!(self.keeper.catch_up(&self.operations), Said::Loaded(0, _))
    }

    fn load_at_rest(&mut self, loading: Loading) {
        let file = File::read(&loading.bytes);
        if self.load(loading) {
            self.held = Held::of(&file);
            self.sure = true;
            self.settle_in(file);
        }
    }

    /// What was in work is gone, and stands in the ring still.
    fn load_in_work(&mut self, loading: Loading) {
        let file = File::read(&loading.bytes);
        if self.load(loading) {
            self.unsure(Event::LoadedInTheMiddle);
            self.settle_in(file);
            self.ring_doorbell();
        } else {
            self.events.push(Event::RefusedInTheMiddle);
        }
    }

    /// The guest's world goes on with what a good file said, as far as that goes with the world.
    fn settle_in(&mut self, mut file: File) {
        let own = self.world.memory;
        if file.memory() != own {
            self.nothing_runs(file.memory());
            file.set_memory(own);
            self.load(Loading::good(&file));
        }
        let (gpa, size) = (self.world.ring.gpa, self.world.ring.size);
        let ring = (
            file.long(number::RING_GPA_LO),
            file.numbers[number::RING_SIZE],
        );
        if ring != (gpa, size) {
            self.write_ring(gpa, size);
        }
        if file.long(number::FENCE_GPA_LO) != self.world.fence {
            self.write_fence(self.world.fence);
        }
        if file.numbers[number::CONTROL] != CONTROL_ENABLE {
            self.write_control(CONTROL_ENABLE);
        }
    }

    /// The device is for a memory of so many bytes, which is not there.
    fn nothing_runs(&mut self, memory: u64) {
        self.run(PLENTY);
        let allowance = self.any_allowance();
        self.answer(true, allowance);
        if let Some(length) = u32::try_from(memory)
            .ok()
            .filter(|length| *length <= LONGEST_MEMORY)
        {
            self.say(Operation::RunElsewhere { allowance, length });
        }
        if self.keeper.random.coin() {
            self.save();
        }
    }
}
