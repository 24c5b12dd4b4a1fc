//! What is measured, by which name, and with which goal.

use crate::bench::Bench;
use crate::calls::{Call, Calls, CALLS, SAVING};
use crate::cases::{Case, Mode, Published, Way, MODES, PUBLISHED};
use crate::stream_pairs::DUMPS;
use crate::host::Host;
use crate::listings::{Listing, Listings, LISTINGS};
use crate::numbers::{MOST_LAYERS, MOST_NAMES};

/// A line of the tables.
#[derive(Clone, Debug)]
pub struct Measure {
    /// What tables and command lines call it, together with its task's mode.
    pub key: String,
    pub task: Task,
    /// The most instructions that the proved front may take for one of the plain program.
    pub goal: f64,
}

impl Measure {
    /// What readers call it.
    pub fn title(&self) -> &str {
        PUBLISHED
            .iter()
            .find(|published| published.key == self.key)
            .map_or(&self.key, |published| published.title)
    }
}

#[derive(Clone, Copy, Debug, PartialEq, Eq)]
pub enum Task {
    /// A published case, through the fronts' common face.
    Published(Case, Mode),
    /// A submission from doorbell to good answer in one run, in each front's own words.
    Submission(Case),
    /// A submission of a night without a pause: it comes while another waits, and the host goes on from that one to this, in each
    /// front's own words.
    Night(Case, Way),
    /// A call by itself, in each front's own words.
    Call(Call),
    /// A stream is listed, in each front's own words.
    List(Listing),
}

/// How many there are of what grows.
const COUNTS: [usize; 5] = [1, 8, 16, 32, 64];

/// All that is measured. The goals stand here alone.
pub fn measures() -> Vec<Measure> {
    let groups = [
        (0.75, published(|case| case != Case::Share)),
        (3.0, published(|case| case == Case::Share)),
        (1.05, growing()),
        (1.05, textures()),
        (1.05, state_packets()),
        (1.25, vec![one_packet(0)]),
        (0.75, vec![one_packet(MOST_NAMES)]),
        (1.25, night(0)),
        (0.75, night(MOST_NAMES)),
        (2.0, calls()),
        (3.0, SAVING.map(call).into()),
        (1.0, LISTINGS.map(listing).into()),
        (1.05, layers()),
        (1.05, vec![every_mip(1)]),
        (0.01, vec![every_mip(MOST_LAYERS)]),
        (1.5, differences()),
    ];
    let with_goal = |(goal, group): (f64, Vec<(String, Task)>)| {
        group
            .into_iter()
            .map(move |(key, task)| Measure { key, task, goal })
    };
    groups.into_iter().flat_map(with_goal).collect()
}

/// Those of the published cases that are asked for.
fn published(asked: fn(Case) -> bool) -> Vec<(String, Task)> {
    let in_modes = |Published { key, case, .. }: Published| {
        MODES.map(|mode| (key.to_string(), Task::Published(case, mode)))
    };
    let cases = PUBLISHED.into_iter();
    cases
        .filter(|published| asked(published.case))
        .flat_map(in_modes)
        .collect()
}

/// Resources and entries, few to as many as there may be. What is looked for stands last.
fn growing() -> Vec<(String, Task)> {
    let dirty = COUNTS.map(|live| {
        let (row, entries) = (live - 1, 1);
        (
            format!("dirty-{}-live", live),
            Case::Dirty { live, row, entries },
        )
    });
    let copy = COUNTS.map(|live| {
        // A copy needs two.
        let live = live.max(2);
        let (from, to) = (live - 2, live - 1);
        (format!("copy-{}-live", live), Case::Copy { live, from, to })
    });
    let create = COUNTS.map(|count| {
        let live = count - 1;
        (format!("create-beside-{}", live), Case::Create { live })
    });
    let table = COUNTS.map(|entries| (format!("table-of-{}", entries), Case::Table { entries }));
    let last = COUNTS.map(|entries| {
        let (live, row) = (1, 0);
        (
            format!("dirty-last-of-{}", entries),
            Case::Dirty { live, row, entries },
        )
    });
    let target = COUNTS.map(|live| {
        let row = live - 1;
        (format!("target-{}-live", live), Case::Target { live, row })
    });
    [dirty, copy, create, table, last, target]
        .into_iter()
        .flatten()
        .map(|(key, case)| (key, Task::Submission(case)))
        .collect()
}

fn textures() -> Vec<(String, Task)> {
    let texture = |mips| {
        let task = Task::Submission(Case::DirtyTexture { mips });
        (format!("dirty-{}-mips", mips), task)
    };
    [1, 6, 15].map(texture).into()
}

fn state_packets() -> Vec<(String, Task)> {
    [
        ("viewport", Case::Viewport),
        ("clear", Case::Clear),
        ("scissor", Case::Scissor),
    ]
    .map(|(key, case)| (key.to_string(), Task::Submission(case)))
    .into()
}

fn one_packet(live: usize) -> (String, Task) {
    let task = Task::Submission(Case::OneUnknown { live });
    (format!("one-packet-{}-live", live), task)
}

fn night(live: usize) -> Vec<(String, Task)> {
    let case = Case::OneUnknown { live };
    vec![
        (
            format!("night-{}-live", live),
            Task::Night(case, Way::Joined),
        ),
        (
            format!("night-apart-{}-live", live),
            Task::Night(case, Way::Apart),
        ),
    ]
}

fn calls() -> Vec<(String, Task)> {
    CALLS.map(call).into()
}

/// One layer, and as many as there may be: what a texture costs does not grow with them.
fn layers() -> Vec<(String, Task)> {
    let counts = [1, MOST_LAYERS];
    let create = counts.map(|layers| {
        let task = Task::Submission(Case::CreateTexture { layers });
        (format!("create-{}-layers", layers), task)
    });
    let packed = counts.map(|layers| call(Call::PackedSize { layers }));
    [create, packed].concat()
}

/// The packed size against a sum over every mip of every layer, which does grow.
fn every_mip(layers: u32) -> (String, Task) {
    call(Call::EveryMip { layers })
}

/// A walk over two dumps.
fn differences() -> Vec<(String, Task)> {
    DUMPS.map(|dumps| call(Call::Difference(dumps))).into()
}

fn call(call: Call) -> (String, Task) {
    (call.key(), Task::Call(call))
}

fn listing(listing: Listing) -> (String, Task) {
    (listing.key().to_string(), Task::List(listing))
}

impl Task {
    /// What a number is of.
    pub fn piece(self) -> &'static str {
        match self {
            Task::Night(..) => "submission",
            Task::Submission(case) if case.is_small() => "submission",
            Task::Published(..) | Task::Submission(_) => "unit",
            Task::Call(_) => "call",
            Task::List(_) => "packet",
        }
    }

    /// What tables and command lines call it: how it is run, or of what its number is if not of a unit.
    pub fn mode(self) -> &'static str {
        match self {
            Task::Published(_, mode) => mode.key(),
            Task::Submission(case) if !case.is_small() => Mode::Whole.key(),
            _ => self.piece(),
        }
    }

    pub fn input(self) -> String {
        match self {
            Task::Published(case, _) | Task::Submission(case) => case.input(),
            Task::Night(case, Way::Joined) => format!(
                "{}; it comes while the one before it waits: doorbell, and a good answer to that with allowance 65,535",
                case.input()
            ),
            Task::Night(case, Way::Apart) => format!(
                "{}; it comes while the one before it waits: doorbell, a good answer to that with allowance 0, and a run of 65,535 units",
                case.input()
            ),
            Task::Call(call) => call.input(),
            Task::List(listing) => listing.input(),
        }
    }

    /// Whether times are taken too: of the published cases and of small submissions.
    pub fn is_timed(self) -> bool {
        match self {
            Task::Published(..) | Task::Night(..) => true,
            Task::Submission(case) => case.is_small(),
            Task::Call(_) | Task::List(_) => false,
        }
    }
}

/// A task set up on a front.
pub enum Ready<F> {
    Published(Bench<F>, Mode),
    Submission(Bench<F>, u64),
    Night(Bench<F>, Way),
    Calls(Calls<F>),
    Listings(Listings),
}

impl<F: Host> Ready<F> {
    /// Ready for so many rounds; a submission is for any number.
    pub fn new(task: Task, rounds: usize) -> Ready<F> {
        match task {
            Task::Published(case, mode) => Ready::Published(Bench::new(case), mode),
            Task::Submission(case) => {
                let bench = Bench::new(case);
                let pieces = if case.is_small() { 1 } else { bench.units };
                Ready::Submission(bench, pieces)
            }
            Task::Night(case, way) => Ready::Night(Bench::waiting(case), way),
            Task::Call(call) => Ready::Calls(Calls::new(call, rounds)),
            Task::List(listing) => Ready::Listings(Listings::new(listing)),
        }
    }

    /// What a round's number is divided by: its units, its calls, its packets, or 1.
    pub fn pieces(&self) -> u64 {
        match self {
            Ready::Published(bench, _) => bench.units,
            Ready::Submission(_, pieces) => *pieces,
            Ready::Night(..) => 1,
            Ready::Calls(calls) => calls.calls(),
            Ready::Listings(listings) => listings.packets,
        }
    }

    /// Plays the rounds that are marked. In the others all is only made ready: what that costs cancels in a difference. Gives
    /// the sum of what single calls said.
    pub fn play(&mut self, rounds: &[bool]) -> u64 {
        match self {
            Ready::Published(bench, mode) => {
                play_armed(bench, rounds, Bench::arm, |bench| bench.submission(*mode))
            }
            Ready::Submission(bench, _) => {
                play_armed(bench, rounds, Bench::arm, Bench::submission_at_once)
            }
            Ready::Night(bench, way) => {
                play_armed(bench, rounds, Bench::arm_behind, |bench| bench.next(*way))
            }
            Ready::Calls(calls) => return calls.play(rounds),
            Ready::Listings(listings) => return listings.play::<F>(rounds),
        }
        0
    }

    /// The fronts that it plays on.
    pub fn benches(&self) -> &[Bench<F>] {
        match self {
            Ready::Published(bench, _) | Ready::Submission(bench, _) | Ready::Night(bench, _) => {
                std::slice::from_ref(bench)
            }
            Ready::Calls(calls) => &calls.benches,
            Ready::Listings(_) => &[],
        }
    }
}

fn play_armed<F: Host>(
    bench: &mut Bench<F>,
    rounds: &[bool],
    arm: impl Fn(&mut Bench<F>),
    mut submission: impl FnMut(&mut Bench<F>),
) {
    for &marked in rounds {
        arm(bench);
        if marked {
            submission(bench);
        }
    }
}
