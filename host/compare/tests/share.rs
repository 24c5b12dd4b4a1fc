//! Stories of surfaces that programs share, played whole on both fronts: what is listed, recorded and refused at every turn.

use compare::player::{step, Said, Seat};
use zelezmut::guest::{self, Backing, Descriptor, Entry, Packet, Part, Shape};
use zelezmut::registers::{
    CONTROL, CONTROL_ENABLE, CONTROL_RESET, DOORBELL, ERROR_CODE, RING_SIZE,
};
use zelezmut::script::Operation;
use zelezmut::HostAnswer::{self, Failed, Good};

const MEMORY: u32 = 16_384;
const TABLE: u32 = 512;
const STREAM: u32 = 1024;
const SLOTS: u32 = 1;
/// Where a ring's header keeps its tail.
const TAIL: u32 = 28;

/// The table's only entry: where backed resources lie.
const ENTRY: Entry = Entry {
    id: 5,
    gpa: 8192,
    size: 4096,
    read_only: false,
};

const HANDLE: u32 = 18;
const LIMIT: u32 = 19;
const SHAPE: u32 = 20;
const TOKEN_TAKEN: u32 = 28;
const TOKEN_UNBOUND: u32 = 29;
const STATE: u32 = 30;

/// Both fronts, and how many submissions they have had.
struct Pair {
    proved: Seat<zelezmut::Desk>,
    plain: Seat<plain::Desk>,
    submitted: u32,
}

impl Pair {
    fn new() -> Pair {
        let mut pair = Pair {
            proved: Seat::new(MEMORY),
            plain: Seat::new(MEMORY),
            submitted: 0,
        };
        pair.poke(0, &guest::ring(SLOTS, 0, 0));
        pair.poke(TABLE, &guest::table(&[ENTRY]));
        pair.write(RING_SIZE, guest::ring_size(SLOTS));
        pair.write(CONTROL, CONTROL_ENABLE);
        pair
    }

    fn play(&mut self, operation: &Operation) -> Said {
        step(&mut self.proved, &mut self.plain, operation)
            .unwrap_or_else(|difference| panic!("{:?}: {:?}", operation, difference))
    }

    fn poke(&mut self, address: u32, bytes: &[u8]) {
        let bytes = bytes.to_vec();
        self.play(&Operation::Poke { address, bytes });
    }

    fn write(&mut self, offset: u32, value: u32) {
        self.play(&Operation::Write { offset, value });
    }

    /// Puts a submission into the ring and runs.
    fn run(&mut self, packets: &[Packet]) {
        let stream = guest::stream(packets);
        let slot = Descriptor {
            commands: Part::of(STREAM.into(), &stream),
            table: Part::of(TABLE.into(), &guest::table(&[ENTRY])),
            ..Descriptor::default()
        };
        self.submitted += 1;
        self.poke(STREAM, &stream);
        self.poke(guest::slot_offset(0) as u32, &slot.to_bytes());
        self.poke(TAIL, &self.submitted.to_le_bytes());
        self.write(DOORBELL, 1);
        self.play(&Operation::Run { allowance: 1000 });
    }

    /// Whether something waited for the answer.
    fn answer(&mut self, answer: HostAnswer) -> bool {
        let allowance = 0;
        let answered = self.play(&Operation::Answer { answer, allowance });
        matches!(answered, Said::Answered(ran) if ran.answer == 0)
    }

    /// A submission that waits and has this answer.
    fn passes(&mut self, packets: &[Packet], answer: HostAnswer) {
        self.run(packets);
        assert!(self.answer(answer), "{:?}", packets);
    }

    /// A submission that is refused with this error; names and tokens are as before it.
    fn is_refused(&mut self, packets: &[Packet], error: u32) {
        let before = (self.names(), self.tokens());
        self.run(packets);
        assert!(!self.answer(Good), "{:?}", packets);
        assert_eq!(self.plain.front.read(ERROR_CODE), (0, error));
        assert_eq!((self.names(), self.tokens()), before);
    }

    fn reset(&mut self) {
        self.write(CONTROL, CONTROL_RESET | CONTROL_ENABLE);
    }

    fn names(&self) -> Vec<(u32, u32)> {
        self.plain.front.names()
    }

    fn tokens(&self) -> Vec<(u64, u32)> {
        self.plain.front.tokens()
    }
}

/// A texture of 4 by 4 pixels and these mips and layers, backed from this offset of the entry on.
fn texture_with(handle: u32, mips: u32, layers: u32, offset: u32) -> Packet {
    let shape = Shape {
        format: 1,
        width: 4,
        height: 4,
        mips,
        layers,
        pitch: 16,
    };
    let id = ENTRY.id;
    Packet::CreateTexture {
        handle,
        shape,
        backing: Some(Backing { id, offset }),
    }
}

fn texture(handle: u32) -> Packet {
    texture_with(handle, 1, 1, 0)
}

fn buffer(handle: u32) -> Packet {
    Packet::CreateBuffer {
        handle,
        size: 16,
        backing: None,
    }
}

fn export(handle: u32, token: u64) -> Packet {
    Packet::Export { handle, token }
}

fn import(handle: u32, token: u64) -> Packet {
    Packet::Import { handle, token }
}

fn release(token: u64) -> Packet {
    Packet::Release { token }
}

fn destroy(handle: u32) -> Packet {
    Packet::Destroy { handle }
}

#[test]
fn a_surface_lives_as_long_as_one_of_its_names() {
    let mut pair = Pair::new();
    pair.passes(&[texture(5), export(5, 100)], Good);
    pair.passes(&[import(3, 100), import(9, 100)], Good);
    assert_eq!(pair.names(), [(3, 3), (5, 3), (9, 3)]);
    assert_eq!(pair.tokens(), [(100, 3)]);
    pair.passes(&[destroy(3)], Good);
    assert_eq!(pair.names(), [(5, 5), (9, 5)]);
    assert_eq!(pair.tokens(), [(100, 5)]);
    pair.passes(&[destroy(5)], Good);
    assert_eq!(pair.names(), [(9, 9)]);
    pair.is_refused(&[destroy(5)], HANDLE);
    pair.passes(&[export(9, 100), import(5, 100), destroy(9)], Good);
    assert_eq!(
        (pair.names(), pair.tokens()),
        (vec![(5, 5)], vec![(100, 5)])
    );
    pair.passes(&[destroy(5)], Good);
    assert_eq!((pair.names(), pair.tokens()), (vec![], vec![(100, 0)]));
    pair.is_refused(&[import(5, 100)], TOKEN_UNBOUND);
    pair.is_refused(&[release(100)], TOKEN_UNBOUND);
    pair.is_refused(&[texture(5), export(5, 100)], TOKEN_TAKEN);
}

#[test]
fn what_is_done_by_a_second_name_is_done_to_the_resource() {
    let mut pair = Pair::new();
    pair.passes(
        &[texture_with(1, 1, 1, 64), export(1, 7), import(2, 7)],
        Good,
    );
    let dirty = |handle, size| Packet::DirtyRange {
        handle,
        offset: 16,
        size,
    };
    pair.run(&[destroy(1), dirty(2, 48)]);
    let (answer, record) = pair.plain.front.record(0);
    assert_eq!((answer, record.kind, record.handle), (0, 2, 2));
    assert_eq!((record.gpa, record.length), (ENTRY.gpa + 64 + 16, 48));
    assert!(pair.answer(Good));
    pair.is_refused(&[dirty(2, 49)], 24);
    pair.is_refused(&[dirty(1, 1)], HANDLE);
}

#[test]
fn a_target_is_a_name() {
    let scissor = Packet::Scissor(guest::Scissor {
        x: 0,
        y: 0,
        width: 4,
        height: 4,
    });
    let target = |handle| Packet::Target { handle };
    let mut pair = Pair::new();
    pair.passes(&[texture(1), export(1, 7), import(2, 7)], Good);
    pair.passes(&[target(2), destroy(1), scissor], Failed);
    pair.is_refused(&[target(2), destroy(2), scissor], STATE);
    let again = [target(2), destroy(2), import(2, 7), scissor];
    pair.is_refused(&again, STATE);
}

#[test]
fn what_may_be_exported_and_by_which_token() {
    let mut pair = Pair::new();
    pair.is_refused(&[export(0, 1)], HANDLE);
    pair.is_refused(&[export(1, 0)], HANDLE);
    pair.is_refused(&[buffer(1), export(1, 0)], SHAPE);
    pair.is_refused(&[texture_with(1, 2, 1, 0), export(1, 0)], SHAPE);
    pair.is_refused(&[texture_with(1, 1, 2, 0), export(1, 0)], SHAPE);
    pair.is_refused(&[texture(1), export(1, 0)], TOKEN_TAKEN);
    pair.passes(&[texture(1), texture(2), export(1, 1)], Good);
    pair.passes(&[export(1, 1), export(1, u64::MAX)], Good);
    pair.is_refused(&[export(2, 1)], TOKEN_TAKEN);
    pair.passes(&[export(2, 1 << 32), export(2, 1 << 32 | 1)], Good);
    let tokens = [(1, 1), (1 << 32, 2), (1 << 32 | 1, 2), (u64::MAX, 1)];
    assert_eq!(pair.tokens(), tokens);
    pair.passes(&[release(1)], Good);
    pair.is_refused(&[export(1, 1)], TOKEN_TAKEN);
    pair.is_refused(&[import(3, 1)], TOKEN_UNBOUND);
    pair.passes(&[import(3, u64::MAX)], Good);
    assert_eq!(pair.names(), [(1, 1), (2, 2), (3, 1)]);
}

#[test]
fn an_import_checks_its_handle_first() {
    let mut pair = Pair::new();
    pair.passes(&[texture(1), export(1, 7)], Good);
    for token in [7, 8, 0] {
        pair.is_refused(&[import(0, token)], HANDLE);
        pair.is_refused(&[import(1, token)], HANDLE);
    }
    pair.is_refused(&[import(2, 8)], TOKEN_UNBOUND);
    pair.is_refused(&[import(2, 0)], TOKEN_UNBOUND);
    pair.passes(&[import(2, 7)], Good);
}

#[test]
fn a_submission_that_comes_to_nothing_leaves_names_and_tokens() {
    let mut pair = Pair::new();
    pair.passes(&[texture(4), export(4, 7), import(6, 7)], Good);
    let (names, tokens) = (pair.names(), pair.tokens());
    let all = [
        export(4, 8),
        import(1, 8),
        release(7),
        destroy(4),
        destroy(6),
    ];
    pair.passes(&all, Failed);
    assert_eq!((pair.names(), pair.tokens()), (names, tokens));
    pair.is_refused(&[&all[..], &[release(7)]].concat(), TOKEN_UNBOUND);
    // Token 8 was not used: it is any resource's.
    pair.passes(&[texture(5), export(5, 8)], Good);
    assert_eq!(pair.tokens(), [(7, 4), (8, 5)]);
}

#[test]
fn a_reset_forgets_names_and_tokens_also_in_the_middle() {
    let mut pair = Pair::new();
    pair.passes(&[texture(4), export(4, 7), release(7)], Good);
    pair.run(&[texture(1), export(1, 9)]);
    // It is dropped, and its slot stays the ring's next.
    pair.reset();
    pair.submitted -= 1;
    assert_eq!((pair.names(), pair.tokens()), (vec![], vec![]));
    pair.passes(&[texture(1), export(1, 7), export(1, 9)], Good);
    assert_eq!(pair.tokens(), [(7, 1), (9, 1)]);
}

/// So many exports of a texture, by rising tokens.
fn exports(handle: u32, tokens: std::ops::Range<u64>) -> Vec<Packet> {
    tokens.map(|token| export(handle, token)).collect()
}

#[test]
fn there_are_256_tokens_spent_ones_too() {
    let mut pair = Pair::new();
    pair.passes(&[texture(1), texture(2)], Good);
    pair.passes(&exports(1, 1..101), Good);
    pair.passes(&exports(2, 101..256), Good);
    assert_eq!(pair.tokens().len(), 255);
    pair.is_refused(&exports(1, 256..258), LIMIT);
    pair.passes(&exports(1, 256..257), Good);
    pair.is_refused(&[export(1, 300)], LIMIT);
    pair.is_refused(&[export(1, 255)], TOKEN_TAKEN);
    pair.is_refused(&[buffer(3), export(3, 300)], SHAPE);
    pair.is_refused(&[export(3, 300)], HANDLE);
    pair.passes(&[export(1, 256), import(3, 256), release(256)], Good);
    pair.is_refused(&[export(1, 300)], LIMIT);
    pair.passes(&[destroy(2)], Good);
    pair.is_refused(&[export(1, 300)], LIMIT);
    assert_eq!(pair.tokens().len(), 256);
    pair.reset();
    pair.passes(&[texture(1), export(1, 300)], Good);
}

#[test]
fn the_limit_of_64_counts_names() {
    let mut pair = Pair::new();
    pair.passes(&[texture(1), export(1, 7)], Good);
    let names: Vec<Packet> = (2..=63).map(|name| import(name, 7)).collect();
    pair.passes(&names, Good);
    assert_eq!(pair.names().len(), 63);
    pair.is_refused(&[buffer(64), buffer(65)], LIMIT);
    pair.passes(&[import(64, 7)], Good);
    pair.is_refused(&[buffer(65)], LIMIT);
    pair.is_refused(&[import(65, 7)], LIMIT);
    pair.is_refused(&[import(65, 8)], TOKEN_UNBOUND);
    pair.is_refused(&[import(64, 7)], HANDLE);
    pair.passes(&[destroy(1), buffer(65)], Good);
    pair.passes(&[destroy(33), import(1, 7)], Good);
    assert_eq!(pair.names().len(), 64);
    assert_eq!(pair.tokens(), [(7, 1)]);
}
