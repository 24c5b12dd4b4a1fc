//! Random files against a model that lists every rule a file breaks, and
//! random devices saved and loaded on their way.

use crate::hostile::{disturb, Random};
use crate::scene::*;
use plain::{packed_size, Desk, Ended};
use std::collections::BTreeMap;

/// Where the resources stand in an old file. Places of a model are those of an
/// old file, with sections 3 and 4 right behind the resources.
const RESOURCES: usize = 92;
const RESOURCE: usize = 48;
/// Where the detail stands in form 2, which an old file has not.
const DETAIL: usize = 80;

/// A file as the model sees it: fields that are there or not.
struct Model<'f> {
    bytes: &'f [u8],
    is_numbered: bool,
    is_form_2: bool,
    /// Where the file breaks a rule, so far, and a word for which it is.
    broken: BTreeMap<usize, &'static str>,
}

impl Model<'_> {
    /// Every place where a rule is broken, in no order of finding.
    fn broken(bytes: &[u8]) -> BTreeMap<usize, &'static str> {
        let first = bytes.get(..4).map(|field| get32(field, 0));
        let mut model = Model {
            bytes,
            is_numbered: first == Some(1) || first == Some(2),
            is_form_2: first == Some(2),
            broken: BTreeMap::new(),
        };
        let fields = if model.is_form_2 { 22 } else { 21 };
        if model.field(0) != Some(fields) {
            return BTreeMap::from([(model.place(0), "fields")]);
        }
        if let Some(end) = model.judge_sections() {
            if bytes.len() > model.place(end) {
                model.rule(end, "end", false);
            }
        }
        model.judge_error();
        model.judge_device();
        model.broken
    }

    /// Where the field of this place in an old file stands.
    fn place(&self, at: usize) -> usize {
        let number = if self.is_numbered { 4 } else { 0 };
        let detail = if self.is_form_2 && at >= 76 { 4 } else { 0 };
        at + number + detail
    }

    fn field(&self, at: usize) -> Option<u32> {
        let place = self.place(at);
        Some(get32(self.bytes.get(place..place + 4)?, 0))
    }

    /// The field, or 0 if it is missing, which breaks a rule.
    fn value(&mut self, at: usize) -> u32 {
        let field = self.field(at);
        self.rule(at, "missing", field.is_some());
        field.unwrap_or(0)
    }

    fn rule(&mut self, at: usize, rule: &'static str, good: bool) {
        if !good {
            self.broken.insert(self.place(at), rule);
        }
    }

    /// A count of at most this, at this place.
    fn count(&mut self, at: usize, rule: &'static str, most: usize) -> Option<usize> {
        let count = self.field(at).filter(|count| *count as usize <= most);
        self.rule(at, rule, count.is_some());
        count.map(|count| count as usize)
    }

    /// Judges all sections but the first; gives the end, if all counts are
    /// good.
    fn judge_sections(&mut self) -> Option<usize> {
        let resources = self.count(88, "resources", 64)?;
        for i in 0..resources {
            self.judge_resource(RESOURCES + RESOURCE * i, i == 0);
        }
        let at = RESOURCES + RESOURCE * resources;
        if !self.is_form_2 {
            return Some(at);
        }
        let others = self.count(at, "names", 64 - resources)?;
        for i in 0..others {
            self.judge_pair(at + 4 + 8 * i, i == 0, resources);
        }
        let at = at + 4 + 8 * others;
        let tokens = self.count(at, "tokens", 256)?;
        for i in 0..tokens {
            self.judge_token(at + 4 + 12 * i, i == 0, resources);
        }
        Some(at + 4 + 12 * tokens)
    }

    /// The row with this handle, if there is one.
    fn row(&self, handle: u32, resources: usize) -> Option<usize> {
        let mut rows = (0..resources).map(|i| RESOURCES + RESOURCE * i);
        rows.find(|row| self.field(*row) == Some(handle))
    }

    /// Whether the handle is that of a texture of one mip and one layer.
    fn is_surface(&self, handle: u32, resources: usize) -> bool {
        let is_1 = |at| self.field(at) == Some(1);
        match self.row(handle, resources) {
            Some(row) => self.field(row + 4) == Some(2) && is_1(row + 28) && is_1(row + 32),
            None => false,
        }
    }

    fn judge_pair(&mut self, at: usize, is_first: bool, resources: usize) {
        let (other, lowest) = (self.value(at), self.value(at + 4));
        let before = if is_first { 0 } else { self.value(at - 8) };
        self.rule(at, "rising name", other > before);
        let is_free = self.row(other, resources).is_none();
        self.rule(at, "name twice", is_free);
        let is_surface = self.is_surface(lowest, resources);
        self.rule(at + 4, "lowest name", is_surface);
        if is_surface {
            self.rule(at + 4, "below", lowest < other);
        }
    }

    fn judge_token(&mut self, at: usize, is_first: bool, resources: usize) {
        let token = self.value64(at);
        let before = if is_first { 0 } else { self.value64(at - 12) };
        self.rule(at + 4, "rising token", token > before);
        let name = self.value(at + 8);
        let is_good = name == 0 || self.is_surface(name, resources);
        self.rule(at + 8, "bound name", is_good);
    }

    fn value64(&mut self, at: usize) -> u64 {
        u64::from(self.value(at)) | u64::from(self.value(at + 4)) << 32
    }

    fn judge_device(&mut self) {
        for (at, fixed) in [(4, 0x5550_4741), (8, 65_539), (12, 7), (16, 0)] {
            let value = self.value(at);
            self.rule(at, "fixed", value == fixed);
        }
        for (at, most) in [(32, 1), (52, 3), (84, 1)] {
            let value = self.value(at);
            self.rule(at, "most", value <= most);
        }
        for at in (20..88).step_by(4) {
            self.value(at);
        }
    }

    fn judge_error(&mut self) {
        let [code, low, high, count] = [60, 64, 68, 72].map(|at| self.value(at));
        self.rule(60, "error", code == 0 || (10..=30).contains(&code));
        self.rule(72, "error", (code == 0) == (count == 0));
        self.rule(72, "error", code != 0 || (low == 0 && high == 0));
        if self.is_form_2 {
            let detail = self.bytes.get(DETAIL..DETAIL + 4);
            let is_good = detail.map_or(false, |field| code != 0 || get32(field, 0) == 0);
            if !is_good {
                self.broken.insert(DETAIL, "detail");
            }
        }
    }

    fn judge_resource(&mut self, row: usize, is_first: bool) {
        let mut fields = [0; 12];
        for (i, field) in fields.iter_mut().enumerate() {
            *field = self.value(row + 4 * i);
        }
        let [handle, kind, .., id, offset] = fields;
        let before = if is_first { 0 } else { self.value(row - 48) };
        self.rule(row + 44, "resource", id != 0 || offset == 0);
        match kind {
            1 => self.judge_buffer(row, &fields),
            2 => self.judge_texture(row, &fields),
            _ => self.rule(row + 4, "resource", false),
        }
        self.rule(row, "resource", handle != 0 && handle > before);
    }

    fn judge_buffer(&mut self, row: usize, fields: &[u32; 12]) {
        for (i, field) in fields[4..10].iter().enumerate() {
            self.rule(row + 16 + 4 * i, "resource", *field == 0);
        }
        self.rule(row + 12, "resource", fields[2] != 0 || fields[3] != 0);
    }

    /// What a shape alone has wrong is asked of the packed size, with good
    /// numbers in the place of those not in question.
    fn judge_texture(&mut self, row: usize, fields: &[u32; 12]) {
        let [_, _, low, high, format, width, height, mips, layers, pitch, id, _] = *fields;
        let wide = u32::MAX;
        self.rule(row + 8, "resource", low == 0);
        self.rule(row + 12, "resource", high == 0);
        self.rule(
            row + 16,
            "resource",
            packed_size(format, 1, 1, 1, 1, wide) != 0,
        );
        self.rule(
            row + 20,
            "resource",
            packed_size(1, width, 1, 1, 1, wide) != 0,
        );
        self.rule(
            row + 24,
            "resource",
            packed_size(1, 1, height, 1, 1, wide) != 0,
        );
        // A bad side breaks this one too, and stands before it.
        self.rule(
            row + 28,
            "resource",
            packed_size(1, width, height, mips, 1, wide) != 0,
        );
        self.rule(
            row + 32,
            "resource",
            packed_size(1, 1, 1, 1, layers, wide) != 0,
        );
        let good = match id {
            0 => pitch == 0,
            _ => packed_size(format, width, height, 1, 1, pitch) != 0,
        };
        self.rule(row + 40, "resource", good);
    }
}

/// A number near an edge of some rule, or anything.
fn number(random: &mut Random) -> u32 {
    let edges = [
        0,
        1,
        2,
        3,
        4,
        7,
        10,
        15,
        20,
        21,
        22,
        30,
        32,
        64,
        66,
        256,
        16_384,
        65_539,
        u32::MAX,
    ];
    let edge = edges[random.below(edges.len() as u64) as usize];
    match random.below(8) {
        0 => edge.wrapping_add(1),
        1 => edge.wrapping_sub(1),
        2 => random.below(1 << 32) as u32,
        _ => edge,
    }
}

/// The fields of a good resource with this handle.
fn resource(random: &mut Random, handle: u32) -> [u32; 12] {
    let backed = random.below(2) as u32;
    let (id, offset) = (backed * (1 + number(random) / 2), backed * number(random));
    if random.below(2) == 0 {
        let (low, high) = (number(random) | 1, number(random));
        return [handle, 1, low, high, 0, 0, 0, 0, 0, 0, id, offset];
    }
    let format = [1, 2, 3, 64, 65, 66][random.below(6) as usize];
    let [width, height] = [0; 2].map(|_| 1 + (random.below(1 << 14) >> random.below(14)) as u32);
    let chain = 32 - width.max(height).leading_zeros();
    let mips = 1 + random.below(u64::from(chain)) as u32;
    let layers = 1 + random.below(256) as u32;
    let least = match format {
        64 => (width + 3) / 4 * 8,
        65 | 66 => (width + 3) / 4 * 16,
        _ => width * 4,
    };
    let pitch = backed * (least + random.below(3) as u32);
    [
        handle, 2, 0, 0, format, width, height, mips, layers, pitch, id, offset,
    ]
}

/// The fields of a file, an old one or of the form drawn, which is good but for
/// a few other names.
fn good_fields(random: &mut Random) -> Vec<u32> {
    let form = random.below(4);
    let is_form_2 = form >= 2;
    let mut fields = match form {
        0 => vec![21],
        1 => vec![1, 21],
        _ => vec![2, 22],
    };
    add_device(random, is_form_2, &mut fields);
    let count = random.below(5) * random.below(2) + random.below(3);
    fields.push(count as u32);
    let (mut handles, mut surfaces) = (Vec::new(), Vec::new());
    for _ in 0..count {
        let handle = handles.last().unwrap_or(&0) + 1 + random.below(3) as u32;
        handles.push(handle);
        let mut row = resource(random, handle);
        if row[1] == 2 && random.below(2) == 0 {
            (row[7], row[8]) = (1, 1);
            surfaces.push(handle);
        }
        fields.extend(row);
    }
    // Some leave one of the two sections empty, or both.
    let sections = random.below(4);
    if is_form_2 {
        let others = if sections & 1 == 0 { 0 } else { 16 };
        add_other_names(random, others, &handles, &surfaces, &mut fields);
        let tokens = if sections & 2 == 0 { 0 } else { 4 };
        add_tokens(random, tokens, &surfaces, &mut fields);
    }
    fields
}

/// Section 1, without its count.
fn add_device(random: &mut Random, is_form_2: bool, fields: &mut Vec<u32>) {
    fields.extend([0x5550_4741, 65_539, 7, 0]);
    fields.extend((0..3).map(|_| number(random)));
    fields.push(random.below(2) as u32);
    fields.extend((0..4).map(|_| number(random)));
    fields.extend([random.below(4) as u32, number(random)]);
    let is_error = random.below(2) as u32;
    if is_error == 0 {
        fields.extend([0; 4]);
    } else {
        let code = 10 + random.below(21) as u32;
        fields.extend([code, number(random), number(random), number(random) | 1]);
    }
    if is_form_2 {
        fields.push(is_error * (random.below(2) as u32) * number(random));
    }
    fields.extend([number(random), number(random), random.below(2) as u32]);
}

/// Section 3: some of the names up to this one that are no handles, a few of
/// them with a surface above them, which breaks a rule.
fn add_other_names(
    random: &mut Random,
    last: u32,
    handles: &[u32],
    surfaces: &[u32],
    fields: &mut Vec<u32>,
) {
    let count = fields.len();
    fields.push(0);
    for other in 1..=last {
        let fitting = match random.below(24) {
            0 => surfaces.len(),
            _ => surfaces.iter().filter(|lowest| **lowest < other).count(),
        };
        if handles.contains(&other) || fitting == 0 || random.below(3) != 0 {
            continue;
        }
        fields.extend([other, surfaces[random.below(fitting as u64) as usize]]);
        fields[count] += 1;
    }
}

/// Section 4: up to so many tokens.
fn add_tokens(random: &mut Random, most: u64, surfaces: &[u32], fields: &mut Vec<u32>) {
    let count = random.below(most + 1);
    fields.push(count as u32);
    let mut token: u64 = 0;
    for _ in 0..count {
        token += 1 + (random.below(1 << 60) >> random.below(60));
        let i = random.below(surfaces.len() as u64 + 1) as usize;
        let name = surfaces.get(i).copied().unwrap_or(0);
        fields.extend([token as u32, (token >> 32) as u32, name]);
    }
}

/// A file with up to three faults, if they are any, in fields and length.
fn random_file(random: &mut Random) -> Vec<u8> {
    let mut fields = good_fields(random);
    for _ in 0..random.below(4) {
        let at = random.below(fields.len() as u64) as usize;
        fields[at] = match random.below(4) {
            0 => fields[at].wrapping_add(1),
            1 => fields[at].wrapping_sub(1),
            _ => number(random),
        };
    }
    let mut bytes = file(&fields);
    let length = bytes.len() + random.below(3) as usize;
    match random.below(12) {
        0 => bytes.truncate(random.below(length as u64) as usize),
        1 => bytes.resize(length, 0),
        _ => {}
    }
    bytes
}

/// The form that a file has by its number, 0 if it is an old one.
fn form_of(bytes: &[u8]) -> usize {
    match bytes.get(..4).map(|field| get32(field, 0)) {
        Some(number @ 1..=2) => number as usize,
        _ => 0,
    }
}

/// What is seen of a good file that the device was loaded from.
fn assert_is(desk: &Desk, bytes: &[u8]) {
    let names = desk.names();
    let resources = names.iter().filter(|(name, lowest)| name == lowest).count();
    let form_2 = saved_2(desk);
    match form_of(bytes) {
        0 => assert_eq!(saved(desk), numbered(bytes)),
        1 => assert_eq!(saved(desk), bytes),
        _ => assert_eq!(form_2, bytes),
    }
    // With two empty sections it has just their counts behind the resources.
    let is_empty = form_2.len() == RESOURCES + RESOURCE * resources + 16;
    if is_empty && get32(&form_2, DETAIL) == 0 {
        let form_1 = saved(desk);
        assert_eq!(moved(&form_1), form_2);
        assert_eq!(moved(&form_2), form_1);
        assert_eq!(moved(&form_1[4..]), form_2);
    } else {
        assert_eq!(not_moved(&form_2, LONGEST), 8);
        assert_eq!(desk.save(&mut [0; LONGEST]), (8, 0));
    }
}

#[test]
fn a_file_is_refused_at_the_first_rule_it_breaks() {
    let mut random = Random(11);
    let mut places: BTreeMap<(usize, usize), u32> = BTreeMap::new();
    let mut rules: BTreeMap<&str, u32> = BTreeMap::new();
    let mut good = [0; 3];
    let mut desk = Desk::new(MEMORY);
    for _ in 0..150_000 {
        let bytes = random_file(&mut random);
        let form = form_of(&bytes);
        let before = desk.clone();
        match Model::broken(&bytes).into_iter().next() {
            Some((place, rule)) => {
                assert_eq!(desk.load(&bytes), (7, place), "{:?}", bytes);
                assert_eq!(desk, before);
                assert_eq!(not_moved(&bytes, LONGEST), 7);
                *places.entry((form, place)).or_default() += 1;
                *rules.entry(rule).or_default() += u32::from(form == 2);
            }
            None => {
                assert_eq!(desk.load(&bytes), (0, 0), "{:?}", bytes);
                assert_is(&desk, &bytes);
                good[form] += 1;
            }
        }
    }
    assert!(good.iter().all(|count| *count > 8000), "good {:?}", good);
    assert_all_seen(&places, &rules);
}

/// Every field that has a rule beside being there, in two resources of every
/// form, and every rule of form 2 was the first to be broken now and then.
fn assert_all_seen(places: &BTreeMap<(usize, usize), u32>, rules: &BTreeMap<&str, u32>) {
    for form in 0..3 {
        let rows = (RESOURCES..RESOURCES + 2 * RESOURCE).step_by(4);
        let ruled = [0, 4, 8, 12, 16, 32, 52, 60, 72, 84, 88];
        for at in ruled.into_iter().chain(rows) {
            let further = match form {
                2 if at >= 76 => 8,
                1 | 2 => 4,
                _ => 0,
            };
            let seen = places.get(&(form, at + further)).copied().unwrap_or(0);
            assert!(seen > 20, "{} at {} of form {}", seen, at, form);
        }
    }
    for rule in [
        "names",
        "rising name",
        "name twice",
        "lowest name",
        "below",
        "tokens",
        "rising token",
        "bound name",
        "detail",
        "missing",
        "end",
    ] {
        let seen = rules.get(rule).copied().unwrap_or(0);
        assert!(seen > 100, "{} of {}", seen, rule);
    }
}

/// Whether a submission is in work, told by what a bad ring does.
fn is_in_work(scene: &Scene) -> bool {
    let mut scene = scene.clone();
    scene.write(0x108, 0);
    scene.write(0x10C, 1);
    scene.write(0x200, 0);
    let errors = scene.errors();
    scene.run(1).ended == Ended::Waiting || (scene.error(), scene.errors()) != (10, errors + 1)
}

/// What saving into a buffer of this length must answer.
fn expected(scene: &Scene, length: usize) -> u32 {
    let names = scene.desk.names();
    let is_shared = names.iter().any(|(name, lowest)| name != lowest);
    if is_in_work(scene) {
        5
    } else if is_shared || !scene.desk.tokens().is_empty() || scene.detail() != 0 {
        8
    } else if length < 4 + RESOURCES + RESOURCE * names.len() {
        6
    } else {
        0
    }
}

/// What saving in form 2 into a buffer of this length must answer.
fn expected_2(scene: &Scene, length: usize) -> u32 {
    let names = scene.desk.names();
    let others = names.iter().filter(|(name, lowest)| name != lowest).count();
    let rows = RESOURCE * (names.len() - others) + 8 * others + 12 * scene.desk.tokens().len();
    if is_in_work(scene) {
        5
    } else if length < RESOURCES + 16 + rows {
        6
    } else {
        0
    }
}

/// Saves into a buffer of random length in the form of this call; gives the
/// answer, and the device of that file if there is one.
fn saved_and_loaded(
    random: &mut Random,
    save: impl FnOnce(&mut [u8]) -> (u32, usize),
    expected: impl FnOnce(usize) -> u32,
) -> (u32, Option<Desk>) {
    let mut buffer = vec![0x5A; random.below(600) as usize];
    let (answer, length) = save(&mut buffer);
    assert_eq!(answer, expected(buffer.len()));
    assert!(buffer[length..].iter().all(|byte| *byte == 0x5A));
    if answer != 0 {
        assert_eq!(length, 0);
        return (answer, None);
    }
    let mut desk = Desk::new(9);
    assert_eq!(desk.load(&buffer[..length]), (0, 0));
    (answer, Some(desk))
}

/// Disturbs and runs both, which go the same way.
fn go_on(random: &mut Random, scene: &mut Scene, twin: &mut Scene) {
    let draw = random.below(1 << 40);
    let allowance = random.below(20) as u16;
    for scene in [&mut *scene, &mut *twin] {
        disturb(&mut Random(draw), scene);
    }
    assert_eq!(scene.run(allowance), twin.run(allowance));
    assert_eq!(scene, twin);
    assert_eq!(scene.records(), twin.records());
}

/// What saving in each form answers, and the device that it leads to.
fn in_both_forms(random: &mut Random, scene: &Scene) -> [(u32, Option<Desk>); 2] {
    let form_1 = saved_and_loaded(
        random,
        |buffer| scene.desk.save(buffer),
        |length| expected(scene, length),
    );
    let form_2 = saved_and_loaded(
        random,
        |buffer| scene.desk.save_form_2(buffer),
        |length| expected_2(scene, length),
    );
    [form_1, form_2]
}

#[test]
fn random_devices_are_saved_on_their_way() {
    let mut answers = [[0; 9]; 2];
    let (mut held, mut shared) = (0, 0);
    for seed in 700..780 {
        let mut random = Random(seed);
        let mut scene = Scene::new();
        // Goes the same way, in a device loaded from a file now and then.
        let mut twin = Scene::new();
        for _ in 0..100 {
            go_on(&mut random, &mut scene, &mut twin);
            let both = in_both_forms(&mut random, &scene);
            for (i, (answer, loaded)) in both.into_iter().enumerate() {
                answers[i][answer as usize] += 1;
                if let Some(loaded) = loaded {
                    twin.desk = loaded;
                    assert_eq!(scene, twin);
                    held += usize::from(!scene.desk.names().is_empty());
                    shared += usize::from(!scene.desk.tokens().is_empty());
                }
            }
        }
    }
    for answer in [0, 5, 6] {
        let seen = answers.map(|answers| answers[answer]);
        assert!(seen.iter().all(|count| *count > 100), "{:?}", answers);
    }
    assert!(answers[0][8] > 100 && answers[1][8] == 0, "{:?}", answers);
    assert!(held > 50 && shared > 50, "held {} {}", held, shared);
}
