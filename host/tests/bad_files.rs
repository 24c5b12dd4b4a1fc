//! Files of form 1 that are no saved desk: each is told by the first field that is wrong, and leaves the desk as it was.
mod current;
mod night;

use current::ticket;
use night::Night;
use zelezmut::guest::{Backing, Packet, Shape};
use zelezmut::saved::{self, NotMoved};
use zelezmut::{registers, BadFile, Desk, FileField, FileLayout, HostAnswer, ResourceField};

/// The sections stand behind the file's number; places count from the file's first byte.
const HEAD: usize = 96;
const RESOURCE: usize = 48;

/// Buffer 2, which is backed; texture 5, which is too; texture 9, which lives with the host.
fn file() -> Vec<u8> {
    let backing = Some(Backing { id: 5, offset: 64 });
    let shape = Shape {
        format: 64,
        width: 5,
        height: 5,
        mips: 3,
        layers: 2,
        pitch: 16,
    };
    let texture = |handle, backing| Packet::CreateTexture {
        handle,
        shape,
        backing,
    };
    let buffer = Packet::CreateBuffer {
        handle: 2,
        size: 256,
        backing,
    };
    let mut night = Night::new();
    night.submit(1, &[5], &[buffer, texture(5, backing), texture(9, None)]);
    night.run(100);
    night
        .answer(ticket(&night.desk), HostAnswer::Good, 100)
        .unwrap();
    night.desk.save().unwrap()
}

/// A file with some of its fields changed.
fn with(changes: &[(usize, u32)]) -> Vec<u8> {
    let mut file = file();
    for &(at, value) in changes {
        file[at..at + 4].copy_from_slice(&value.to_le_bytes());
    }
    file
}

/// What is wrong with a file; the desk that was to load it has not changed.
fn load(file: &[u8]) -> Result<(), BadFile> {
    let mut night = Night::new();
    night.submit(7, &[5], &[]);
    night.run(100);
    let (before, waiting) = (night.desk.clone(), night.desk.waiting());
    let loaded = night.desk.load(file);
    if let Err(bad) = loaded {
        assert_eq!(night.desk, before);
        assert_eq!(night.desk.waiting(), waiting);
        assert_eq!(saved::move_form(file), Err(NotMoved::BadFile(bad)));
    }
    assert_eq!(Desk::from_saved(file).err(), loaded.err());
    loaded
}

/// Where the file with these changes is bad: its rule is broken there.
fn broken(changes: &[(usize, u32)]) -> Option<usize> {
    let file = with(changes);
    let bad = load(&file).err()?;
    let (field, place) = (bad.field().unwrap(), bad.place());
    assert_eq!(bad, BadFile::BreaksRule { field, place });
    assert_eq!(FileLayout::of(&file).field(place), Some(field));
    assert_eq!(bad.number(), 7);
    // The same file without its number is an old one, and bad four bytes earlier, unless its count is read as a number.
    if place != 4 {
        assert_eq!(load(&file[4..]).unwrap_err().place(), place - 4);
    }
    Some(place)
}

#[test]
fn registers_are_judged_one_by_one() {
    for (at, good, bad) in [
        (4, &[21][..], &[0, 1, 2, 18, 20, 22, u32::MAX][..]),
        (8, &[0x5550_4741], &[0, 0x5550_4742]),
        (12, &[65_539], &[65_538, 65_540, 131_075]),
        (16, &[7], &[0, 6, 8]),
        (20, &[0], &[1, u32::MAX]),
        (36, &[0, 1], &[2, 3, u32::MAX]),
        (56, &[0, 1, 2, 3], &[4, u32::MAX]),
        (88, &[0, 1], &[2, u32::MAX]),
        (92, &[3], &[65, u32::MAX]),
    ] {
        for &value in good {
            assert_eq!(broken(&[(at, value)]), None, "{} at {}", value, at);
        }
        for &value in bad {
            assert_eq!(broken(&[(at, value)]), Some(at), "{} at {}", value, at);
        }
    }
    for at in [24, 28, 32, 40, 44, 48, 52, 60, 80, 84] {
        for value in [0, 1, u32::MAX] {
            assert_eq!(broken(&[(at, value)]), None, "{} at {}", value, at);
        }
    }
}

#[test]
fn an_error_is_judged_as_a_whole_at_its_count() {
    for code in 0..40 {
        let good = code == 0 || (10..=30).contains(&code);
        let count = u32::from(code != 0);
        let expected = if good { None } else { Some(64) };
        assert_eq!(
            broken(&[(64, code), (76, count)]),
            expected,
            "code {}",
            code
        );
    }
    assert_eq!(broken(&[(64, u32::MAX), (76, 1)]), Some(64));
    // Without an error no fence and no count; with one any fence, for a bad ring too, and a count.
    for at in [68, 72, 76] {
        assert_eq!(broken(&[(at, 1)]), Some(76));
    }
    for code in [10, 18, 30] {
        assert_eq!(broken(&[(64, code)]), Some(76));
        assert_eq!(broken(&[(64, code), (68, 1), (72, 9)]), Some(76));
        let all = [(64, code), (68, 1), (72, 9), (76, u32::MAX)];
        assert_eq!(broken(&all), None);
    }
}

#[test]
fn handles_are_not_0_and_rise() {
    let [first, second, third] = [0, 1, 2].map(|i| HEAD + RESOURCE * i);
    assert_eq!(broken(&[(first, 0)]), Some(first));
    for (handle, bad) in [(1, None), (4, None), (5, Some(second)), (6, Some(second))] {
        assert_eq!(broken(&[(first, handle)]), bad);
    }
    for handle in [0, 2] {
        assert_eq!(broken(&[(second, handle)]), Some(second));
    }
    assert_eq!(broken(&[(second, 9)]), Some(third));
    assert_eq!(broken(&[(third, u32::MAX)]), None);
}

#[test]
fn a_buffer_has_a_size_and_no_shape() {
    let at = |offset| HEAD + offset;
    assert_eq!(broken(&[(at(8), 0)]), Some(at(12)));
    assert_eq!(broken(&[(at(8), 0), (at(12), 1)]), None);
    for offset in [16, 20, 24, 28, 32, 36] {
        assert_eq!(broken(&[(at(offset), 1)]), Some(at(offset)));
    }
    // Any id backs a buffer, at any offset; without one it has no offset.
    assert_eq!(broken(&[(at(40), u32::MAX), (at(44), u32::MAX)]), None);
    assert_eq!(broken(&[(at(40), 0)]), Some(at(44)));
    assert_eq!(broken(&[(at(40), 0), (at(44), 0)]), None);
    for kind in [0, 3, u32::MAX] {
        assert_eq!(broken(&[(at(4), kind)]), Some(at(4)));
    }
    // As a texture it has a size, and no format.
    assert_eq!(broken(&[(at(4), 2)]), Some(at(8)));
    assert_eq!(broken(&[(at(4), 2), (at(8), 0)]), Some(at(16)));
    assert_eq!(broken(&[(at(4), 2), (at(8), 0), (at(12), 1)]), Some(at(12)));
}

#[test]
fn a_texture_has_a_shape_and_no_size() {
    for resource in [1, 2] {
        let at = |offset| HEAD + RESOURCE * resource + offset;
        for offset in [8, 12] {
            assert_eq!(broken(&[(at(offset), 1)]), Some(at(offset)));
        }
        for format in [0, 4, 63, 67, u32::MAX] {
            assert_eq!(broken(&[(at(16), format)]), Some(at(16)));
        }
        for offset in [20, 24] {
            for side in [0, 16_385, u32::MAX] {
                assert_eq!(broken(&[(at(offset), side)]), Some(at(offset)));
            }
        }
        for (mips, bad) in [(0, Some(at(28))), (1, None), (3, None), (4, Some(at(28)))] {
            assert_eq!(broken(&[(at(28), mips)]), bad);
        }
        for (layers, bad) in [(0, Some(at(32))), (256, None), (257, Some(at(32)))] {
            assert_eq!(broken(&[(at(32), layers)]), bad);
        }
    }
}

#[test]
fn pitch_and_backing_are_judged_at_the_backing_id() {
    let backed = |offset| HEAD + RESOURCE + offset;
    // 5 pixels are two blocks of 8 bytes.
    for (pitch, bad) in [
        (0, Some(backed(40))),
        (15, Some(backed(40))),
        (16, None),
        (u32::MAX, None),
    ] {
        assert_eq!(broken(&[(backed(36), pitch)]), bad);
    }
    assert_eq!(broken(&[(backed(40), 0)]), Some(backed(40)));
    assert_eq!(
        broken(&[(backed(36), 0), (backed(40), 0)]),
        Some(backed(44))
    );
    assert_eq!(broken(&[(backed(44), u32::MAX)]), None);
    let hosted = |offset| HEAD + 2 * RESOURCE + offset;
    for pitch in [1, 15, 16, u32::MAX] {
        assert_eq!(broken(&[(hosted(36), pitch)]), Some(hosted(40)));
    }
    assert_eq!(broken(&[(hosted(40), 5)]), Some(hosted(40)));
    assert_eq!(broken(&[(hosted(44), 1)]), Some(hosted(44)));
    assert_eq!(
        broken(&[(hosted(36), 16), (hosted(40), 5), (hosted(44), 1)]),
        None
    );
}

#[test]
fn of_several_that_are_wrong_the_first_counts() {
    assert_eq!(broken(&[(92, 65), (HEAD, 0), (36, 2)]), Some(36));
    assert_eq!(broken(&[(92, 65), (HEAD, 0)]), Some(92));
    assert_eq!(
        broken(&[(HEAD + 44, 0), (HEAD + 4, 3), (HEAD, 0)]),
        Some(HEAD)
    );
}

#[test]
fn a_file_that_is_cut_misses_the_field_at_the_cut() {
    let file = file();
    for cut in 0..file.len() {
        let bad = load(&file[..cut]).unwrap_err();
        let place = cut / 4 * 4;
        let field = FileLayout::of(&file).field(place).unwrap();
        assert_eq!(bad, BadFile::Missing { field, place });
    }
    // A field before the cut that breaks its rule comes first.
    let spoilt = with(&[(36, 2)]);
    assert_eq!(load(&spoilt[..90]).unwrap_err().place(), 36);
    // A count promises more than there is.
    let promised = with(&[(92, 4)]);
    let (index, field) = (3, ResourceField::Handle);
    let field = FileField::Resource { index, field };
    let place = file.len();
    assert_eq!(load(&promised), Err(BadFile::Missing { field, place }));
}

#[test]
fn a_file_that_goes_on_is_bad_at_its_end() {
    let file = file();
    for more in [1, 2, 4, 48, 10_000] {
        let longer = [&file[..], &vec![0; more]].concat();
        let place = file.len();
        assert_eq!(load(&longer), Err(BadFile::GoesOn { place }));
    }
    // Fewer resources than there are.
    for count in 0..3 {
        let place = HEAD + RESOURCE * count;
        let short = with(&[(92, count as u32)]);
        assert_eq!(load(&short), Err(BadFile::GoesOn { place }));
    }
    assert_eq!(load(&file), Ok(()));
}

#[test]
fn what_is_wrong_is_told_in_words() {
    for (file, words) in [
        (Vec::new(), "a field is missing at byte 0, the form's number"),
        (
            with(&[(0, 3)]),
            "a rule is broken at byte 0, the form's number: 1 or 2, or 21 in an old file, whose count of section 1 this is",
        ),
        (with(&[(4, 1)]), "a rule is broken at byte 4, the count of section 1: 21"),
        (
            with(&[(36, 3)]),
            "a rule is broken at byte 36, register 10C (CONTROL): at most 1",
        ),
        (
            with(&[(68, 1)]),
            "a rule is broken at byte 76, register 31C (ERROR_COUNT): 0 exactly with error code 0, and then the error fence is 0",
        ),
        (
            with(&[(92, 65)]),
            "a rule is broken at byte 92, the count of section 2: at most 64",
        ),
        (
            with(&[(HEAD + 2 * RESOURCE + 28, 4)]),
            "a rule is broken at byte 220, the mips of resource 2: 0 for a buffer; for a texture 1 to its full chain",
        ),
        (
            file()[..HEAD + RESOURCE + 43].to_vec(),
            "a field is missing at byte 184, the backing id of resource 1",
        ),
        (
            [&file()[..], &[0]].concat(),
            "the file goes on at byte 240, behind its last field",
        ),
    ] {
        assert_eq!(load(&file).unwrap_err().to_string(), words);
    }
}

#[test]
fn what_is_wrong_is_told_as_a_value() {
    let (field, place) = (FileField::Register(registers::CONTROL), 36);
    assert_eq!(
        load(&with(&[(36, 2)])),
        Err(BadFile::BreaksRule { field, place })
    );
}
