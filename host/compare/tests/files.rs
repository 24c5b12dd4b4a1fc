//! The proved front and the plain program load the same files, and of the others they tell the same place.

use compare::desks;
use compare::files::good::{row_of, some_file, some_numbers};
use compare::files::shares::{full_file, put_shares};
use compare::files::{field, File, Kind, BUFFER, FIELDS, KINDS, NUMBERS, TEXTURE};
use compare::front::Front;
use compare::player::{step, Said, Seat};
use compare::random::Random;
use zelezmut::script::Operation;
use zelezmut::LONGEST_SAVED_DESK;

/// Ten files each.
const NIGHTS: u64 = 15_000;

#[test]
fn random_files_load_alike() {
    let coverage = desks::compare_files::<zelezmut::Desk, plain::Desk>(0..NIGHTS, |_| {})
        .unwrap_or_else(|failure| panic!("{}", failure));
    println!("{}", coverage);
    assert_eq!(coverage.rarely_bad(40), Vec::<String>::new());
    assert_eq!(coverage.rarely_hit(75), Vec::<String>::new());
    assert!(
        coverage.aims.len() >= 125,
        "only {} sides of rules",
        coverage.aims.len()
    );
    // Nothing is left open in a file: it is good, or bad where its twist says.
    for (aim, aimed) in &coverage.aims {
        assert_eq!(aimed.met, aimed.times, "{}", aim);
    }
}

/// Two desks that files are loaded into, one after the other.
struct Pair {
    proved: Seat<zelezmut::Desk>,
    plain: Seat<plain::Desk>,
}

impl Pair {
    fn new() -> Pair {
        Pair {
            proved: Seat::new(0),
            plain: Seat::new(0),
        }
    }

    /// What both say, and have come to.
    fn load(&mut self, file: &[u8]) -> Said {
        let operation = Operation::Load {
            file: file.to_vec(),
        };
        step(&mut self.proved, &mut self.plain, &operation)
            .unwrap_or_else(|difference| panic!("{:?} of {:?}", difference, file))
    }
}

/// Good files of each kind, of no resources, of some, and of all that there may be.
fn good_files(random: &mut Random) -> Vec<Vec<u8>> {
    let mut files = Vec::new();
    for count in [0, 1, 2, 5, 63, 64] {
        let mut file = some_file(random);
        while file.rows.len() < count {
            let handle = file.rows.last().map_or(0, |row| row[field::HANDLE]);
            let kind = random.pick(&[BUFFER, TEXTURE]);
            let backed = random.coin();
            match handle.checked_add(1) {
                Some(handle) => file.rows.push(row_of(random, handle, kind, backed)),
                None => file.rows.clear(),
            }
        }
        file.rows.truncate(count);
        let file = File::new(file.numbers, file.rows);
        for kind in KINDS {
            let mut file = file.clone().into_kind(kind);
            if kind == Kind::Two {
                put_shares(random, &mut file);
            }
            files.push(file.bytes());
        }
    }
    files.push(full_file().bytes());
    files
}

#[test]
fn every_cut_of_a_file_is_told_alike() {
    let mut random = Random::new(50);
    let mut pair = Pair::new();
    for file in good_files(&mut random) {
        for length in 0..file.len() {
            assert_eq!(pair.load(&file[..length]), Said::Loaded(7, length / 4 * 4));
        }
        assert_eq!(pair.load(&file), Said::Loaded(0, 0));
    }
}

#[test]
fn bytes_behind_a_file_are_told_alike() {
    let mut random = Random::new(51);
    let mut pair = Pair::new();
    for file in good_files(&mut random) {
        for behind in 1..=100 {
            for byte in [0, 1, 0xff] {
                let mut longer = file.clone();
                longer.resize(file.len() + behind, byte);
                assert_eq!(pair.load(&longer), Said::Loaded(7, file.len()));
            }
        }
    }
}

/// What a field may be changed to: the edges of all rules, and what it is beside.
fn edges(own: u32) -> Vec<u32> {
    let edges = [
        0, 1, 2, 3, 4, 9, 10, 20, 21, 22, 29, 30, 31, 63, 64, 65, 66, 67, 255, 256, 257, 16_383,
        16_384, 16_385, 65_535, 65_536, 65_537,
    ];
    let far = [1 << 31, u32::MAX - 1, u32::MAX];
    let near = [own.wrapping_sub(1), own, own.wrapping_add(1)];
    edges.into_iter().chain(far).chain(near).collect()
}

/// A resource of each kind, backed and not, in some order; and in form 2 names and tokens of the textures.
fn four_resources(random: &mut Random, kind: Kind) -> File {
    let first = random.index(4);
    let rows = (0..4).map(|i| {
        let kind = [BUFFER, TEXTURE][(first + i) % 2];
        let backed = (first + i) % 4 < 2;
        let mut row = row_of(random, 10 * (i as u32 + 1), kind, backed);
        if kind == TEXTURE {
            row[field::MIPS..=field::LAYERS].fill(1);
        }
        row
    });
    let rows: Vec<_> = rows.collect();
    let numbers = some_numbers(random);
    let mut file = File::new(numbers, rows).into_kind(kind);
    if kind == Kind::Two {
        let of = [20, 40, 10, 30].into_iter().find(|&name| {
            let row = file.rows.iter().find(|row| row[field::HANDLE] == name);
            row.map_or(false, |row| row[field::KIND] == TEXTURE)
        });
        let of = of.expect("two textures");
        file.set_names(vec![[of + 1, of], [60, of]]);
        file.set_tokens(vec![[5, 0, of], [64, 0, 0], [0, 1, of]]);
    }
    file
}

fn word(file: &[u8], at: usize) -> u32 {
    u32::from_le_bytes(file[at..at + 4].try_into().unwrap())
}

fn with(file: &[u8], at: usize, value: u32) -> Vec<u8> {
    let mut changed = file.to_vec();
    changed[at..at + 4].copy_from_slice(&value.to_le_bytes());
    changed
}

#[test]
fn every_field_at_every_edge_is_told_alike() {
    let mut random = Random::new(52);
    let mut pair = Pair::new();
    let mut good = 0;
    for kind in [Kind::Old, Kind::One, Kind::Two, Kind::Two].repeat(3) {
        let file = four_resources(&mut random, kind).bytes();
        assert_eq!(pair.load(&file), Said::Loaded(0, 0));
        for at in (0..file.len()).step_by(4) {
            for value in edges(word(&file, at)) {
                good += u32::from(pair.load(&with(&file, at, value)) == Said::Loaded(0, 0));
            }
        }
    }
    assert!(good > 1_000, "only {} good files", good);
}

/// The places of fields that rules tie: of each resource, of the error with what follows it, and of names and tokens.
fn groups(file: &File) -> Vec<Vec<usize>> {
    let rows = (0..4).map(|row| (0..FIELDS).map(|i| file.field_at(row, i)).collect());
    let from = file.number_at(13);
    let numbers = (from..file.rows_at()).step_by(4).collect();
    let mut groups: Vec<Vec<usize>> = rows.chain([numbers]).collect();
    if file.kind == Kind::Two {
        let end = file.token_at(file.tokens.len(), 0);
        groups.push((file.names_at()..end).step_by(4).collect());
    }
    groups
}

/// Two fields of one group: rules that tie them, and two faults at once.
#[test]
fn two_fields_at_every_edge_are_told_alike() {
    let mut random = Random::new(53);
    let mut pair = Pair::new();
    let values = [0, 1, 2, 3, 64, 256, 257, 16_384, 16_385, u32::MAX];
    for kind in [Kind::Old, Kind::Two] {
        let file = four_resources(&mut random, kind);
        let groups = groups(&file);
        let file = file.bytes();
        for group in groups {
            for (i, &one) in group.iter().enumerate() {
                for &other in &group[..i] {
                    for value in values {
                        let changed = with(&file, one, value);
                        for value in values {
                            pair.load(&with(&changed, other, value));
                        }
                    }
                }
            }
        }
    }
}

/// Counts around their limits, with so many good resources behind them or others.
#[test]
fn every_count_is_told_alike() {
    let mut random = Random::new(54);
    let mut pair = Pair::new();
    let numbers = some_numbers(&mut random);
    for rows in [0, 1, 20, 21, 22, 62, 63, 64, 65, 66, 70] {
        let rows: Vec<_> = (1..=rows)
            .map(|handle| row_of(&mut random, handle, BUFFER, true))
            .collect();
        for kind in KINDS {
            let file = File::new(numbers, rows.clone()).into_kind(kind);
            let mut places = vec![0, 4, file.rows_at()];
            if kind == Kind::Two {
                places.extend([file.names_at(), file.tokens_at()]);
            }
            let file = file.bytes();
            for at in places {
                for said in edges(word(&file, at)).into_iter().chain([NUMBERS as u32]) {
                    pair.load(&with(&file, at, said));
                }
            }
        }
    }
}

/// The file with its number, if it is an old one.
fn numbered(file: &File) -> Vec<u8> {
    let kind = file.kind.max(Kind::One);
    file.clone().into_kind(kind).bytes()
}

/// A good file is what the desk is saved as from then on, on a front that was never told anything else.
#[test]
fn a_good_file_is_saved_as_it_was() {
    let mut random = Random::new(55);
    for _ in 0..500 {
        let file = some_file(&mut random);
        let saved = numbered(&file);
        let mut buffer = vec![0; saved.len()];
        let mut desk = zelezmut::Desk::made_for(0);
        assert_eq!(Front::load(&mut desk, &file.bytes()), (0, 0));
        let said = Front::save(&desk, file.kind.form(), &mut buffer);
        assert_eq!(said, (0, saved.len()));
        assert_eq!(buffer, saved);
    }
}

/// A file moved to its other form, if both fronts move it.
fn moved(file: &[u8]) -> Result<Vec<u8>, u32> {
    let mut buffers = [(); 2].map(|()| vec![0xaa; LONGEST_SAVED_DESK]);
    let proved = zelezmut::Desk::move_form(file, &mut buffers[0]);
    let plain = plain::Desk::move_form(file, &mut buffers[1]);
    assert_eq!(proved, plain, "{:?}", file);
    assert_eq!(buffers[0], buffers[1]);
    match proved {
        (0, length) => Ok(buffers[0][..length].to_vec()),
        (answer, _) => Err(answer),
    }
}

/// Every file of form 1 moves to form 2 and back; one of form 2 moves exactly when form 1 has fields for all of it.
#[test]
fn a_good_file_moves_there_and_back() {
    let mut random = Random::new(56);
    let mut refused = 0;
    for _ in 0..2_000 {
        let file = some_file(&mut random);
        let bytes = file.bytes();
        let beyond = file.detail != 0 || !file.names.is_empty() || !file.tokens.is_empty();
        match moved(&bytes) {
            Ok(there) => {
                assert!(!beyond);
                assert_eq!(moved(&there), Ok(numbered(&file)));
                let desks = [&bytes, &there].map(|file| zelezmut::Desk::from_saved(file));
                assert_eq!(desks[0], desks[1]);
            }
            Err(answer) => {
                assert_eq!((answer, beyond), (8, true));
                refused += 1;
            }
        }
    }
    assert!((100..1_900).contains(&refused), "{} refused", refused);
}
