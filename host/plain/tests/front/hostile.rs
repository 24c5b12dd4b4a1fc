//! Random and hostile input: nothing panics, and slices do not matter.

use crate::scene::*;
use plain::{packed_size, table_error, table_place, Desk, Ended, Record};

/// A small generator, good enough to move bytes about (SplitMix64).
pub struct Random(pub u64);

impl Random {
    fn next(&mut self) -> u64 {
        self.0 = self.0.wrapping_add(0x9E37_79B9_7F4A_7C15);
        let mut z = self.0;
        z = (z ^ (z >> 30)).wrapping_mul(0xBF58_476D_1CE4_E5B9);
        z = (z ^ (z >> 27)).wrapping_mul(0x94D0_49BB_1331_11EB);
        z ^ (z >> 31)
    }

    pub fn below(&mut self, limit: u64) -> u64 {
        self.next() % limit
    }

    /// Mostly small, sometimes at an edge, sometimes anything.
    fn number(&mut self) -> u64 {
        match self.below(8) {
            0 => self.next(),
            1 => u64::MAX - self.below(20),
            2 => u64::from(u32::MAX) - self.below(20),
            3 => MEMORY as u64 + self.below(40) - 20,
            4 => 0,
            _ => self.below(300),
        }
    }

    fn packet(&mut self) -> Vec<u8> {
        match self.below(12) {
            0 => packet(self.below(300) as u32, 4 * self.below(12) as u32),
            1..=3 => {
                let known = self.known_packet();
                self.grow(known)
            }
            _ => self.known_packet(),
        }
    }

    /// The packet with up to 16 words of anything appended.
    fn grow(&mut self, packet: Vec<u8>) -> Vec<u8> {
        let bytes = 4 * self.below(17);
        let extra: Vec<u8> = (0..bytes).map(|_| self.next() as u8).collect();
        grown(packet, &extra)
    }

    /// A packet of a known opcode and its table size.
    fn known_packet(&mut self) -> Vec<u8> {
        let handle = self.below(6) as u32;
        let id = self.below(5) as u32;
        match self.below(17) {
            0..=2 => create_buffer(handle, 1 + self.below(256), id, self.below(64) as u32),
            3 => create_buffer(handle, self.number(), id, self.number() as u32),
            4 => {
                let shape = (
                    [1, 2, 64, 66, 7][self.below(5) as usize],
                    self.below(9) as u32,
                    self.below(9) as u32,
                    self.below(5) as u32,
                    self.below(4) as u32,
                    self.below(200) as u32,
                );
                create_texture(handle, shape, id, self.below(64) as u32)
            }
            5 => destroy(handle),
            6..=7 => dirty(handle, self.below(64), self.below(64)),
            8 => dirty(handle, self.number(), self.number()),
            9 => copy(
                (handle, self.below(64)),
                (self.below(6) as u32, self.below(64)),
                self.below(64),
                self.below(2) as u32,
            ),
            10 => copy(
                (handle, self.number()),
                (self.below(6) as u32, self.number()),
                self.number(),
                self.below(3) as u32,
            ),
            11..=14 => self.state_packet(handle),
            _ => self.share_packet(handle),
        }
    }

    fn state_packet(&mut self, handle: u32) -> Vec<u8> {
        match self.below(6) {
            0 => viewport([0; 6].map(|_| self.float())),
            1 => clear(
                self.below(9) as u32,
                [0; 4].map(|_| self.float()),
                self.float(),
                self.next() as u32,
            ),
            2 => scissor(
                (self.number() as i32, self.number() as i32),
                (self.number() as i32, self.number() as i32),
            ),
            3 => self.small_scissor(),
            _ => target(handle),
        }
    }

    fn share_packet(&mut self, handle: u32) -> Vec<u8> {
        let token = match self.below(8) {
            0 => self.number(),
            _ => self.below(5),
        };
        match self.below(5) {
            0 => create_texture(handle, (1, 5, 3, 1, 1, 20), self.below(3) as u32, 0),
            1..=2 => export(handle, token),
            3 => import(handle, token),
            _ => release(token),
        }
    }

    fn small_scissor(&mut self) -> Vec<u8> {
        scissor(
            (self.below(9) as i32 - 4, self.below(9) as i32 - 4),
            (self.below(9) as i32, self.below(9) as i32),
        )
    }

    /// The bits of a float: mostly good as a depth, sometimes near an edge,
    /// sometimes anything.
    fn float(&mut self) -> u32 {
        match self.below(12) {
            0 => self.next() as u32,
            1 => [0u32, 0x8000_0000, 0x3F80_0000, 0x7F80_0000][self.below(4) as usize]
                .wrapping_add(self.below(3) as u32)
                .wrapping_sub(1),
            _ => [0x3F00_0000, 0x3F80_0000][self.below(2) as usize],
        }
    }

    fn entries(&mut self) -> Vec<Entry> {
        (0..self.below(4))
            .map(|i| {
                let id = if self.below(20) == 0 { 1 } else { i as u32 + 1 };
                (
                    id,
                    self.below(2) as u32,
                    self.below(9000),
                    200 + self.below(600),
                )
            })
            .collect()
    }

    /// No packets, or a texture that is made and shared with another name.
    fn maybe_shared(&mut self) -> Vec<Vec<u8>> {
        if self.below(3) == 0 {
            let handle = 6 + self.below(1000) as u32;
            let token = 5 + self.below(100);
            let texture = create_texture(handle, (1, 5, 3, 1, 1, 0), 0, 0);
            let name = 2000 + self.below(1000) as u32;
            vec![texture, export(handle, token), import(name, token)]
        } else {
            Vec::new()
        }
    }

    /// No packets, or a texture that is made and is the target, and a scissor.
    fn maybe_target(&mut self) -> Vec<Vec<u8>> {
        if self.below(3) == 0 {
            let handle = 6 + self.below(1000) as u32;
            let texture = create_texture(handle, (1, 5, 3, 1, 1, 0), 0, 0);
            vec![texture, target(handle), self.small_scissor()]
        } else {
            Vec::new()
        }
    }

    fn submission(&mut self, scene: &mut Scene) {
        let entries = self.entries();
        let mut packets = self.maybe_target();
        packets.extend(self.maybe_shared());
        packets.extend((0..self.below(8)).map(|_| self.packet()));
        let fence = self.below(50);
        scene.submit(&entries, &packets, fence);
    }

    /// Spoils a few bytes where the front reads.
    fn spoil(&mut self, mem: &mut [u8]) {
        let (start, length) = [(RING, 128), (TABLE, 120), (STREAM, 400)][self.below(3) as usize];
        let at = start + self.below(length / 4) as usize * 4;
        put32(mem, at, self.number() as u32);
    }
}

/// One random change to a scene, from the guest or the host.
pub fn disturb(random: &mut Random, scene: &mut Scene) {
    match random.below(16) {
        0..=5 => random.submission(scene),
        6 => random.spoil(&mut scene.mem),
        7 => scene.write(0x10C, random.below(4) as u32),
        8 => scene.write(0x308, random.below(4) as u32),
        9 => scene.write(0x120, random.below(MEMORY as u64) as u32),
        10 => {
            let head = scene.head();
            scene.put_ring(RING, head);
        }
        _ => {
            scene.write(0x10C, 1);
            let good = random.below(4) != 0;
            scene.answer(good);
        }
    }
}

/// A few bytes of a scene are spoiled where the front reads.
pub fn spoil(random: &mut Random, scene: &mut Scene) {
    random.spoil(&mut scene.mem);
}

#[test]
fn slices_do_not_matter() {
    let mut waits = 0;
    let mut errors = [0; 31];
    for seed in 0..60 {
        let mut random = Random(seed);
        let mut whole = Scene::new();
        for _ in 0..200 {
            disturb(&mut random, &mut whole);
            let mut sliced = whole.clone();
            let allowance = random.below(40) as u16;
            let ran = whole.run(allowance);
            let mut units = 0;
            while units < allowance {
                let slice =
                    sliced.run(1 + random.below(3).min(u64::from(allowance - units - 1)) as u16);
                units += slice.units;
                if slice.ended != Ended::Paused {
                    break;
                }
            }
            assert_eq!((ran.answer, ran.units), (0, units));
            assert_eq!(ran.ended, sliced.run(0).ended);
            assert_eq!(whole, sliced);
            assert_eq!(whole.records(), sliced.records());
            waits += u32::from(ran.ended == Ended::Waiting);
            errors[whole.error() as usize] += 1;
        }
    }
    assert!(waits > 500, "waits {}", waits);
    let seen = errors.iter().filter(|count| **count > 0).count();
    assert!(seen > 17, "errors {:?}", errors);
    assert!(errors[28..].iter().all(|count| *count > 0), "{:?}", errors);
}

#[test]
fn an_answer_with_a_run_is_an_answer_and_a_run() {
    let mut refused = 0;
    let mut ends = [0; 3];
    for seed in 300..600 {
        let mut random = Random(seed);
        let mut one = Scene::new();
        for _ in 0..40 {
            disturb(&mut random, &mut one);
            // Once one waits, the next may queue up behind it.
            if one.run(random.below(40) as u16).ended == Ended::Waiting && random.below(4) != 0 {
                random.submission(&mut one);
            }
            let mut two = one.clone();
            let good = random.below(4) != 0;
            let allowance = random.below(20) as u16;
            let ran = one.answer_and_run(good, allowance);
            let answered = two.answer_and_run(good, 0);
            if answered.answer == 0 {
                assert_eq!(answered, two.run(0));
                assert_eq!(ran, two.run(allowance));
                ends[ran.ended as usize] += 1;
            } else {
                assert_eq!((ran.answer, ran.units, ran.ended), (3, 0, Ended::Idle));
                assert_eq!(ran, answered);
                refused += 1;
            }
            assert_eq!(one, two);
            assert_eq!(one.records(), two.records());
        }
    }
    assert!(refused > 500, "refused {}", refused);
    assert!(ends.iter().all(|count| *count > 50), "ends {:?}", ends);
}

/// The detail that goes with a verdict on these packets, told by its units:
/// opening, entries, packets.
fn place((error, units): (u32, u16), entries: &[Entry], packets: &[Vec<u8>]) -> u32 {
    let step = usize::from(units) - 1;
    if error == 0 || step == 0 {
        0
    } else if step <= entries.len() {
        step as u32 - 1
    } else {
        stream(&packets[..step - 1 - entries.len()]).len() as u32
    }
}

/// The device after one more error, which has no place. Nothing is in work.
fn without_place(scene: &Scene) -> Desk {
    let mut scene = scene.clone();
    scene.write(0x108, 0);
    scene.write(0x200, 0);
    assert_eq!(scene.verdict(), (10, 1));
    scene.desk
}

#[test]
fn grown_packets_do_what_those_of_table_size_do() {
    let mut waits = 0;
    let mut shared = 0;
    let mut errors = [0; 31];
    for seed in 200..280 {
        let mut random = Random(seed);
        let mut short = Scene::new();
        let mut long = Scene::new();
        for fence in 1..=200 {
            let entries = random.entries();
            let mut packets = random.maybe_target();
            packets.extend(random.maybe_shared());
            packets.extend((0..random.below(8)).map(|_| random.known_packet()));
            let longer: Vec<Vec<u8>> = packets
                .iter()
                .map(|packet| random.grow(packet.clone()))
                .collect();
            short.submit(&entries, &packets, fence);
            long.submit(&entries, &longer, fence);
            let verdict = short.verdict();
            assert_eq!(long.verdict(), verdict);
            assert_eq!(long.records(), short.records());
            if verdict.0 == 0 {
                let good = random.below(4) != 0;
                assert_eq!((short.answer(good), long.answer(good)), (0, 0));
                waits += 1;
            } else {
                assert_eq!(short.detail(), place(verdict, &entries, &packets));
                assert_eq!(long.detail(), place(verdict, &entries, &longer));
            }
            // Nothing is in work: the devices hold registers, resources and
            // tokens.
            assert_eq!(without_place(&long), without_place(&short));
            assert_eq!(long.desk.names(), short.desk.names());
            assert_eq!(long.desk.tokens(), short.desk.tokens());
            shared += usize::from(short.desk.names().iter().any(|(a, b)| a != b));
            errors[verdict.0 as usize] += 1;
        }
    }
    assert!(waits > 500, "waits {}", waits);
    assert!(shared > 500, "shared {}", shared);
    assert_eq!(errors[17], 0);
    let seen = errors.iter().filter(|count| **count > 0).count();
    assert!(seen > 12, "errors {:?}", errors);
    assert!(errors[28..].iter().all(|count| *count > 0), "{:?}", errors);
}

#[test]
fn ranges_stay_within_memory_and_scissors_within_textures() {
    let mut scissors = 0;
    for seed in 100..140 {
        let mut random = Random(seed);
        let mut scene = Scene::new();
        for _ in 0..100 {
            disturb(&mut random, &mut scene);
            scene.run(100);
            for record in scene.records() {
                if record.kind == 4 {
                    scissors += 1;
                    assert_within_a_texture(&record);
                    continue;
                }
                assert!(record.length > 0);
                assert!(record.gpa + record.length <= MEMORY as u64);
                assert!((1..=3).contains(&record.kind));
                assert!(record.id != 0 && record.handle != 0);
            }
        }
    }
    assert!(scissors > 20, "scissors {}", scissors);
}

/// No texture of these tests has a side above 8.
fn assert_within_a_texture(scissor: &Record) {
    let right = u64::from(scissor.handle) + scissor.gpa;
    let bottom = u64::from(scissor.id) + scissor.length;
    let is_empty = scissor.gpa == 0 || scissor.length == 0;
    assert!(right <= 8 && bottom <= 8);
    assert!(!is_empty || *scissor == record(4, 0, 0, 0, 0));
}

#[test]
fn small_and_random_memories() {
    for length in (0..200).chain([1000, 4096]) {
        let mut random = Random(length as u64);
        let mut mem: Vec<u8> = (0..length).map(|_| random.next() as u8).collect();
        let mut desk = Desk::new(length);
        for _ in 0..60 {
            let offset =
                random.below(0x80) as u32 * 4 + [0, 0x100, 0x200][random.below(3) as usize];
            desk.write(offset, random.number() as u32);
            desk.write(0x10C, 1);
            desk.write(0x200, 0);
            desk.run(&mut mem, random.next() as u16);
            desk.answer(&mut mem, true, random.next() as u16);
            desk.record(random.next() as u32);
        }
    }
}

#[test]
fn random_shapes_and_tables() {
    let mut random = Random(7);
    for _ in 0..20_000 {
        let shape: Vec<u32> = (0..6).map(|_| random.number() as u32).collect();
        packed_size(shape[0], shape[1], shape[2], shape[3], shape[4], shape[5]);
        let mut bytes = table(&[(1, 0, 0, 8), (2, 0, 8, 8), (3, 0, 8, 8)]);
        let at = random.below(bytes.len() as u64 / 4) as usize * 4;
        put32(&mut bytes, at, random.number() as u32);
        let length = bytes.len() as u64 - random.below(4) * random.below(30);
        let memory = random.number();
        let error = table_error(&bytes[..length as usize], memory);
        assert!([0, 13, 14, 15, 19].contains(&error));
        let place = table_place(&bytes[..length as usize], memory);
        assert!(place == 0 || (place < 3 && [14, 15].contains(&error)));
    }
}
