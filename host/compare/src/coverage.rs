//! What the desks of a run reached. A comparison that meets no rule says nothing, so tests hold these counts to a least number.

use crate::carried::{self, Carried, CARRIED};
use crate::detail::{self, Detail, Errors, DETAILS};
use crate::event::{Event, EVENTS};
use crate::expected::{Expected, ExpectedLoad};
use crate::files::bad::Bad;
use crate::files::twists::BAD_FILE;
use crate::files::File;
use crate::floats::{Edge, EDGES};
use crate::front::{Ended, Front, Ran, Record};
use crate::generator::Drawn;
use crate::numbers::error::{RING, STATE};
use crate::player::{Said, Seat};
use crate::saving::{self, Kept, Saving, SAVINGS};
use crate::sharing::{self, Shares, Sharing, SHARINGS};
use crate::twists::{Aim, Outcome};
use std::collections::{BTreeMap, BTreeSet};
use std::fmt;
use zelezmut::registers::IRQ_STATUS;
use zelezmut::script::Operation;
use zelezmut::Form;

/// Something that every run of many desks meets.
#[derive(Clone, Copy, Debug, PartialEq, Eq, PartialOrd, Ord)]
pub enum Met {
    /// An error, where the error registers showed it.
    Error(u32),
    /// Where an error arose, where the error registers showed it, and what became of that.
    Detail(Detail),
    /// A call, and its answer.
    Answer(&'static str, u32),
    /// How a run ended.
    Ended(&'static str),
    /// What became of an answer and the run behind it.
    Carried(Carried),
    /// A record of this kind, of a submission that came to wait.
    Record(u32),
    /// What a scissor left of its target, in such a record.
    Clip(Clip),
    /// What became of names and tokens.
    Sharing(Sharing),
    /// What became of a save or a load.
    Saving(Saving),
    /// Where a file was bad.
    Bad(Bad),
    /// A float of a viewport or clear that came to what was aimed at.
    Float(&'static str),
    /// The IRQ status after an operation.
    Status(u32),
    Event(Event),
}

/// What is left of a scissor.
#[derive(Clone, Copy, Debug, PartialEq, Eq, PartialOrd, Ord)]
pub enum Clip {
    Empty,
    /// It begins in the target's first column and row, or in a later one.
    FromTheCorner,
    FromWithin,
}

impl Clip {
    fn of(record: &Record) -> Clip {
        match (record.handle, record.id, record.gpa, record.length) {
            (0, 0, 0, 0) => Clip::Empty,
            (0, 0, _, _) => Clip::FromTheCorner,
            _ => Clip::FromWithin,
        }
    }
}

const CLIPS: [Clip; 3] = [Clip::Empty, Clip::FromTheCorner, Clip::FromWithin];

/// The kind of a clipped scissor's record.
const CLIPPED: u32 = 4;

/// The call answers that there are.
const ANSWERS: [(&str, u32); 24] = [
    ("write", 0),
    ("write", 2),
    ("read", 0),
    ("read", 2),
    ("run", 0),
    ("run", 1),
    ("record", 0),
    ("record", 4),
    ("answer", 0),
    ("answer", 1),
    ("answer", 3),
    ("save", 0),
    ("save", 5),
    ("save", 6),
    ("save", 8),
    (SAVE_FORM_2, 0),
    (SAVE_FORM_2, 5),
    (SAVE_FORM_2, 6),
    ("load", 0),
    ("load", 7),
    ("move", 0),
    ("move", 6),
    ("move", 7),
    ("move", 8),
];

const SAVE_FORM_2: &str = "save in form 2";

const IDLE: &str = "idle";
const WAITING: &str = "waiting";
const PAUSED: &str = "paused";

impl Met {
    /// All that there is to meet in desks; where files are bad has nights of its own.
    fn all() -> impl Iterator<Item = Met> {
        let errors = (RING..=STATE).map(Met::Error);
        let details = DETAILS.iter().copied().map(Met::Detail);
        let answers = ANSWERS
            .iter()
            .map(|&(call, answer)| Met::Answer(call, answer));
        let endings = [IDLE, WAITING, PAUSED].map(Met::Ended);
        let carried = CARRIED.iter().copied().map(Met::Carried);
        let records = (1..=CLIPPED).map(Met::Record);
        let clips = CLIPS.iter().copied().map(Met::Clip);
        let sharings = SHARINGS.iter().copied().map(Met::Sharing);
        let savings = SAVINGS.iter().copied().map(Met::Saving);
        let floats = EDGES.iter().map(|Edge { name, .. }| Met::Float(name));
        let statuses = (0..=3).map(Met::Status);
        let events = EVENTS.iter().copied().map(Met::Event);
        errors
            .chain(details)
            .chain(answers)
            .chain(endings)
            .chain(carried)
            .chain(records)
            .chain(clips)
            .chain(sharings)
            .chain(savings)
            .chain(floats)
            .chain(statuses)
            .chain(events)
    }

    fn group(self) -> &'static str {
        match self {
            Met::Error(_) => "error",
            Met::Detail(_) => "detail",
            Met::Answer(..) => "answer",
            Met::Ended(_) => "ending",
            Met::Carried(_) => "carried",
            Met::Record(_) => "record",
            Met::Clip(_) => "clip",
            Met::Sharing(_) => "sharing",
            Met::Saving(_) => "saving",
            Met::Bad(_) => "bad file",
            Met::Float(_) => "float",
            Met::Status(_) => "status",
            Met::Event(_) => "event",
        }
    }

    fn name(self) -> String {
        match self {
            Met::Error(number) | Met::Record(number) | Met::Status(number) => number.to_string(),
            Met::Detail(detail) => format!("{:?}", detail),
            Met::Answer(call, answer) => format!("{} {}", call, answer),
            Met::Ended(ended) => ended.to_string(),
            Met::Carried(carried) => format!("{:?}", carried),
            Met::Clip(clip) => format!("{:?}", clip),
            Met::Sharing(sharing) => format!("{:?}", sharing),
            Met::Saving(saving) => format!("{:?}", saving),
            Met::Bad(bad) => bad.to_string(),
            Met::Float(name) => name.to_string(),
            Met::Event(event) => format!("{:?}", event),
        }
    }
}

/// How often a rule was aimed at, and how often the desk then came to what the aim says.
#[derive(Clone, Copy, Debug, Default)]
pub struct Aimed {
    pub times: u64,
    pub met: u64,
}

#[derive(Clone, Debug, Default)]
pub struct Coverage {
    pub desks: u64,
    pub operations: u64,
    pub units: u64,
    pub met: BTreeMap<Met, u64>,
    pub aims: BTreeMap<Aim, Aimed>,
    /// The most records that a submission had.
    pub most_records: u32,
}

/// What is told of one desk while it is played.
pub struct Watch {
    head_at: usize,
    /// The error registers after the last operation, and the names and tokens.
    registers: Errors,
    shares: Shares,
    kept: Kept,
    /// How many operations were played, and what the loads among them said.
    operations: usize,
    loaded: BTreeMap<usize, (u32, usize)>,
    errors: BTreeSet<u32>,
    /// The ring's heads at which a submission waited.
    waited: BTreeSet<u32>,
}

impl Watch {
    pub fn new(drawn: &Drawn) -> Watch {
        Watch {
            head_at: drawn.head_at as usize,
            registers: Errors::default(),
            shares: Shares::default(),
            kept: Kept::default(),
            operations: 0,
            loaded: BTreeMap::new(),
            errors: BTreeSet::new(),
            waited: BTreeSet::new(),
        }
    }

    fn head(&self, memory: &[u8]) -> Option<u32> {
        let bytes = memory.get(self.head_at..self.head_at + 4)?;
        Some(u32::from_le_bytes(bytes.try_into().ok()?))
    }
}

impl Coverage {
    fn count(&mut self, met: Met) {
        *self.met.entry(met).or_insert(0) += 1;
    }

    /// Counts what an operation came to.
    pub fn operation<F: Front>(
        &mut self,
        watch: &mut Watch,
        operation: &Operation,
        said: &Said,
        seat: &Seat<F>,
    ) {
        self.operations += 1;
        self.answers(watch, said, seat);
        self.savings(watch, operation, said, seat);
        if *said == Said::Loaded(0, 0) {
            // What there is of errors, names and tokens came from a file: no submission made it.
            watch.registers = Errors::of(&seat.front);
            watch.shares = Shares::of(&seat.front);
        }
        let (before, after) = (watch.registers, Errors::of(&seat.front));
        for carried in carried::seen(operation, said, before, after) {
            self.count(Met::Carried(carried));
        }
        self.shares(watch, operation, seat);
        self.errors(watch, operation, after);
        let (_, status) = seat.front.read(IRQ_STATUS);
        self.count(Met::Status(status));
        watch.operations += 1;
    }

    /// Counts a call's answer, and what came with it.
    fn answers<F: Front>(&mut self, watch: &mut Watch, said: &Said, seat: &Seat<F>) {
        match said {
            Said::Nothing => {}
            Said::Wrote(answer) => self.count(Met::Answer("write", *answer)),
            Said::Read(answer, _) => self.count(Met::Answer("read", *answer)),
            Said::Recorded(answer, _) => self.count(Met::Answer("record", *answer)),
            Said::Answered(ran) | Said::AnsweredElsewhere(ran, _) => {
                self.count(Met::Answer("answer", ran.answer));
                self.ran(watch, *ran, seat);
            }
            Said::Ran(ran) | Said::RanElsewhere(ran, _) => {
                self.count(Met::Answer("run", ran.answer));
                if ran.answer == 0 {
                    self.count(Met::Ended(match ran.ended {
                        Ended::Idle => IDLE,
                        Ended::Waiting => WAITING,
                        Ended::Paused => PAUSED,
                    }));
                }
                self.ran(watch, *ran, seat);
            }
            Said::Saved(Form::One, answer, ..) => self.count(Met::Answer("save", *answer)),
            Said::Saved(Form::Two, answer, ..) => self.count(Met::Answer(SAVE_FORM_2, *answer)),
            Said::Loaded(answer, _) => self.count(Met::Answer("load", *answer)),
            Said::Moved(answer, ..) => self.count(Met::Answer("move", *answer)),
        }
    }

    /// Counts what a run spent, by itself or behind an answer, and that it came upon a submission that waits.
    fn ran<F: Front>(&mut self, watch: &mut Watch, ran: Ran, seat: &Seat<F>) {
        self.units += u64::from(ran.units);
        if ran.ended == Ended::Waiting && ran.units > 0 {
            if watch.kept.loaded {
                self.count(Met::Saving(Saving::WorkedOn));
            }
            watch.waited.extend(watch.head(&seat.memory));
            self.records(seat);
        }
    }

    fn records<F: Front>(&mut self, seat: &Seat<F>) {
        let mut records = 0;
        while let (0, record) = seat.front.record(records) {
            self.count(Met::Record(record.kind));
            if record.kind == CLIPPED {
                self.count(Met::Clip(Clip::of(&record)));
            }
            records += 1;
        }
        self.most_records = self.most_records.max(records);
    }

    fn savings<F: Front>(
        &mut self,
        watch: &mut Watch,
        operation: &Operation,
        said: &Said,
        seat: &Seat<F>,
    ) {
        let (before, memory) = (watch.kept, seat.memory.len());
        watch.kept = Kept::of(&seat.front, before);
        for saving in saving::seen(operation, said, (before, watch.kept), memory) {
            self.count(Met::Saving(saving));
        }
        if let (Operation::Load { file }, Said::Loaded(answer, place)) = (operation, said) {
            watch.loaded.insert(watch.operations, (*answer, *place));
            if *answer == 0 {
                watch.kept.loaded = true;
                watch.kept.elsewhere = File::read(file).memory() != memory as u64;
            } else {
                let seen = Bad::seen(file, *place).into_iter();
                seen.for_each(|bad| self.count(Met::Bad(bad)));
            }
        }
    }

    fn shares<F: Front>(&mut self, watch: &mut Watch, operation: &Operation, seat: &Seat<F>) {
        let shares = Shares::of(&seat.front);
        let errors = (watch.registers, Errors::of(&seat.front));
        for sharing in sharing::seen(operation, (&watch.shares, &shares), errors) {
            self.count(Met::Sharing(sharing));
        }
        watch.shares = shares;
    }

    /// Of several errors in one operation only the last can be seen.
    fn errors(&mut self, watch: &mut Watch, operation: &Operation, after: Errors) {
        let before = watch.registers;
        if before.count != after.count {
            watch.errors.insert(after.code);
            self.count(Met::Error(after.code));
        }
        for detail in detail::seen(operation, before, after) {
            self.count(Met::Detail(detail));
        }
        watch.registers = after;
    }

    /// Counts a desk that was played to its end.
    pub fn desk(&mut self, drawn: &Drawn, watch: &Watch) {
        self.desks += 1;
        for event in &drawn.events {
            self.count(Met::Event(*event));
        }
        for Expected { aim, head } in &drawn.expected {
            let met = match aim.outcome {
                Outcome::Kept => watch.waited.contains(head),
                Outcome::Broken(error) => watch.errors.contains(&error),
            };
            // One count for the rule, whatever the float, and one for the float, whatever the rule.
            let aimed = self
                .aims
                .entry(Aim {
                    float: None,
                    ..*aim
                })
                .or_default();
            aimed.times += 1;
            aimed.met += u64::from(met);
            if let Some(name) = aim.float.filter(|_| met) {
                self.count(Met::Float(name));
            }
        }
        for ExpectedLoad { at, told } in &drawn.loads {
            let said = told.place.map_or((0, 0), |place| (BAD_FILE, place));
            let aimed = self.aims.entry(told.aim).or_default();
            aimed.times += 1;
            aimed.met += u64::from(watch.loaded.get(at) == Some(&said));
        }
    }

    /// What was met fewer times than asked for, of all that there is.
    pub fn rarely_met(&self, least: u64) -> Vec<String> {
        self.rarely(least, Met::all())
    }

    /// Where files were bad fewer times than asked for, of all places that there are.
    pub fn rarely_bad(&self, least: u64) -> Vec<String> {
        self.rarely(least, Bad::all().map(Met::Bad))
    }

    fn rarely(&self, least: u64, of: impl Iterator<Item = Met>) -> Vec<String> {
        of.map(|met| (met, self.met.get(&met).copied().unwrap_or(0)))
            .filter(|&(_, times)| times < least)
            .map(|(met, times)| format!("{} {}: {}", met.group(), met.name(), times))
            .collect()
    }

    /// The rules that were aimed at and met, on one side or the other, fewer times than asked for.
    pub fn rarely_hit(&self, least: u64) -> Vec<String> {
        self.aims
            .iter()
            .filter(|(_, aimed)| aimed.met < least)
            .map(|(aim, aimed)| format!("{}: {} of {}", aim, aimed.met, aimed.times))
            .collect()
    }
}

impl fmt::Display for Coverage {
    fn fmt(&self, f: &mut fmt::Formatter<'_>) -> fmt::Result {
        write!(
            f,
            "{} desks, {} operations, {} units",
            self.desks, self.operations, self.units
        )?;
        let mut group = "";
        for (met, times) in &self.met {
            if met.group() != group {
                group = met.group();
                write!(f, "\n{:<8}", group)?;
            }
            write!(f, "{}: {}  ", met.name(), times)?;
        }
        write!(f, "\nrules aimed at, on which side: times (times met)")?;
        for (aim, aimed) in &self.aims {
            let Aimed { times, met } = aimed;
            write!(f, "\n  {:<58} {:>6} ({})", aim.to_string(), times, met)?;
        }
        Ok(())
    }
}
