//! Random share packets against a model that keeps resources by number and
//! spends tokens at once, and is copied whole at every submission.

use crate::hostile::Random;
use crate::scene::*;
use std::collections::{BTreeMap, BTreeSet};

/// What a model resource is.
#[derive(Clone, Copy, Debug, PartialEq)]
enum Kind {
    Buffer,
    Surface,
    /// A texture of two layers.
    Array,
}

/// A packet as the model takes it.
#[derive(Clone, Copy, Debug)]
enum Step {
    Create(u32, Kind),
    Destroy(u32),
    Export(u32, u64),
    Import(u32, u64),
    Release(u64),
    Target(u32),
    Scissor,
}

impl Step {
    fn packet(self) -> Vec<u8> {
        match self {
            Step::Create(handle, Kind::Buffer) => create_buffer(handle, 16, 0, 0),
            Step::Create(handle, Kind::Surface) => create_texture(handle, (1, 2, 2, 1, 1, 0), 0, 0),
            Step::Create(handle, Kind::Array) => create_texture(handle, (1, 2, 2, 1, 2, 0), 0, 0),
            Step::Destroy(handle) => destroy(handle),
            Step::Export(handle, token) => export(handle, token),
            Step::Import(handle, token) => import(handle, token),
            Step::Release(token) => release(token),
            Step::Target(handle) => target(handle),
            Step::Scissor => scissor((0, 0), (1, 1)),
        }
    }
}

#[derive(Clone, Debug, Default)]
struct Model {
    /// The kind of every resource ever made, by its number.
    made: Vec<Kind>,
    /// The number behind each name.
    names: BTreeMap<u32, usize>,
    /// The number each token is bound to, none if it is spent.
    tokens: BTreeMap<u64, Option<usize>>,
    target: Option<u32>,
    scissors: usize,
}

impl Model {
    fn kind(&self, handle: u32) -> Option<Kind> {
        self.names.get(&handle).map(|number| self.made[*number])
    }

    fn lowest(&self, number: usize) -> u32 {
        let mut names = self.names.iter().filter(|(_, of)| **of == number);
        names.next().map_or(0, |(name, _)| *name)
    }

    fn bound(&self, token: u64) -> Option<usize> {
        self.tokens.get(&token).copied().flatten()
    }

    /// Does the step and gives its error, or 0.
    fn take(&mut self, step: Step) -> u32 {
        match step {
            Step::Create(handle, kind) => self.create(handle, kind),
            Step::Destroy(handle) => self.destroy(handle),
            Step::Export(handle, token) => self.export(handle, token),
            Step::Import(handle, token) => self.import(handle, token),
            Step::Release(token) => self.release(token),
            Step::Target(handle) => self.set_target(handle),
            Step::Scissor => self.scissor(),
        }
    }

    fn create(&mut self, handle: u32, kind: Kind) -> u32 {
        if handle == 0 || self.names.contains_key(&handle) {
            return 18;
        }
        if self.names.len() == 64 {
            return 19;
        }
        self.names.insert(handle, self.made.len());
        self.made.push(kind);
        0
    }

    fn destroy(&mut self, handle: u32) -> u32 {
        let number = match self.names.remove(&handle) {
            None => return 18,
            Some(number) => number,
        };
        if self.target == Some(handle) {
            self.target = None;
        }
        if self.lowest(number) == 0 {
            for bound in self.tokens.values_mut() {
                *bound = bound.filter(|of| *of != number);
            }
        }
        0
    }

    fn export(&mut self, handle: u32, token: u64) -> u32 {
        let number = match self.names.get(&handle) {
            None => return 18,
            Some(number) => *number,
        };
        if self.made[number] != Kind::Surface {
            return 20;
        }
        match self.tokens.get(&token) {
            _ if token == 0 => 28,
            Some(bound) if *bound == Some(number) => 0,
            Some(_) => 28,
            None if self.tokens.len() == 256 => 19,
            None => {
                self.tokens.insert(token, Some(number));
                0
            }
        }
    }

    fn import(&mut self, handle: u32, token: u64) -> u32 {
        if handle == 0 || self.names.contains_key(&handle) {
            return 18;
        }
        let number = match self.bound(token) {
            None => return 29,
            Some(number) => number,
        };
        if self.names.len() == 64 {
            return 19;
        }
        self.names.insert(handle, number);
        0
    }

    fn release(&mut self, token: u64) -> u32 {
        if self.bound(token).is_none() {
            return 29;
        }
        self.tokens.insert(token, None);
        0
    }

    fn set_target(&mut self, handle: u32) -> u32 {
        match self.kind(handle) {
            None | Some(Kind::Buffer) => 18,
            Some(_) => {
                self.target = Some(handle);
                0
            }
        }
    }

    fn scissor(&mut self) -> u32 {
        if self.target.is_none() {
            return 30;
        }
        if self.scissors == 64 {
            return 19;
        }
        self.scissors += 1;
        0
    }

    fn at_rest(mut self) -> Model {
        self.target = None;
        self.scissors = 0;
        self
    }

    fn name_list(&self) -> Vec<(u32, u32)> {
        let names = self.names.iter();
        names
            .map(|(name, number)| (*name, self.lowest(*number)))
            .collect()
    }

    fn token_list(&self) -> Vec<(u64, u32)> {
        let tokens = self.tokens.iter();
        tokens
            .map(|(token, bound)| (*token, bound.map_or(0, |number| self.lowest(number))))
            .collect()
    }
}

/// How far handles and tokens reach, and how often each kind of step comes.
struct Odds {
    handles: u64,
    tokens: u64,
    /// Create, destroy, export, import, release, target, scissor.
    weights: [u64; 7],
    steps: u64,
    /// One in so many bad steps is not left out.
    bad: u64,
}

impl Odds {
    fn step(&self, random: &mut Random) -> Step {
        let handle = random.below(self.handles) as u32;
        let token = self.token(random);
        let mut draw = random.below(self.weights.iter().sum());
        let mut kind = 0;
        while draw >= self.weights[kind] {
            draw -= self.weights[kind];
            kind += 1;
        }
        match kind {
            0 => {
                let kinds = [Kind::Buffer, Kind::Array, Kind::Surface, Kind::Surface];
                Step::Create(handle, kinds[random.below(4) as usize])
            }
            1 => Step::Destroy(handle),
            2 => Step::Export(handle, token),
            3 => Step::Import(handle, token),
            4 => Step::Release(token),
            5 => Step::Target(handle),
            _ => Step::Scissor,
        }
    }

    /// Some tokens differ in their high halves only.
    fn token(&self, random: &mut Random) -> u64 {
        let token = random.below(self.tokens);
        if token % 5 == 4 {
            token << 32 | 1
        } else {
            token
        }
    }

    /// Steps of a submission, most of which the model takes.
    fn submission(&self, random: &mut Random, model: &Model) -> Vec<Step> {
        let mut model = model.clone();
        let mut steps = Vec::new();
        for _ in 0..random.below(self.steps) {
            let mut step = self.step(random);
            // Another try or three at a good one.
            for _ in 0..3 {
                if model.clone().take(step) == 0 {
                    break;
                }
                step = self.step(random);
            }
            let is_bad = model.take(step) != 0;
            if !is_bad || random.below(self.bad) == 0 {
                steps.push(step);
            }
        }
        steps
    }
}

/// Runs random submissions on a device and the model; gives the errors seen
/// and the most names and tokens.
fn compare(odds: &Odds, seeds: std::ops::Range<u64>) -> (BTreeSet<u32>, usize, usize) {
    let (mut errors, mut names, mut tokens) = (BTreeSet::new(), 0, 0);
    for seed in seeds {
        let mut random = Random(seed);
        let mut scene = Scene::new();
        let mut model = Model::default();
        for _ in 0..40 {
            let steps = odds.submission(&mut random, &model);
            let packets: Vec<_> = steps.iter().map(|step| step.packet()).collect();
            let mut after = model.clone();
            let mut place = 24;
            let mut error = 0;
            for (step, packet) in steps.iter().zip(&packets) {
                error = after.take(*step);
                if error != 0 {
                    break;
                }
                place += packet.len() as u32;
            }
            scene.submit(&[], &packets, 1);
            assert_eq!(scene.verdict().0, error, "{:?}", steps);
            errors.insert(error);
            if error != 0 {
                assert_eq!(scene.detail(), place);
            } else if random.below(4) == 0 {
                assert_eq!(scene.answer(false), 0);
            } else {
                assert_eq!(scene.desk.names(), model.name_list());
                assert_eq!(scene.desk.tokens(), model.token_list());
                assert_eq!(scene.answer(true), 0);
                model = after.at_rest();
            }
            if random.below(60) == 0 {
                scene.write(0x10C, 3);
                model = Model::default();
            }
            assert_eq!(scene.desk.names(), model.name_list());
            assert_eq!(scene.desk.tokens(), model.token_list());
            names = names.max(model.names.len());
            tokens = tokens.max(model.tokens.len());
        }
    }
    (errors, names, tokens)
}

#[test]
fn few_handles_and_tokens() {
    let odds = Odds {
        handles: 6,
        tokens: 12,
        weights: [6, 4, 5, 5, 2, 2, 2],
        steps: 12,
        bad: 6,
    };
    let (errors, _, _) = compare(&odds, 0..200);
    assert_eq!(errors, BTreeSet::from([0, 18, 20, 28, 29, 30]));
}

#[test]
fn up_to_the_limits() {
    let odds = Odds {
        handles: 90,
        tokens: 400,
        weights: [4, 1, 12, 8, 1, 0, 0],
        steps: 150,
        bad: 60,
    };
    let (errors, names, tokens) = compare(&odds, 1000..1010);
    assert_eq!((names, tokens), (64, 256));
    assert!(errors.is_superset(&BTreeSet::from([0, 18, 19, 20, 28, 29])));
}
