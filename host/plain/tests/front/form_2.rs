//! Saving in form 2: what a file holds, when there is none, and what comes back
//! of it.

use crate::saved::{busy, full};
use crate::scene::*;
use plain::Desk;

const ENTRIES: [Entry; 2] = [(5, 0, 8192, 4096), (6, 1, 12_288, 4096)];
const MAX: u32 = u32::MAX;

/// The file of [`full_2`], field by field.
#[rustfmt::skip]
pub const FULL_2: [u32; 132] = [
    // The form's number.
    2,
    // Section 1: the registers, 320 after 31C, the memory length, the flag.
    22,
    0x5550_4741, 65_539, 7, 0,
    1024, 0, 576, 1, 512, 0,
    8, 9, 3, 0xFFFF_FFFE,
    18, 2, 3, 2, 32,
    16_384, 0, 1,
    // Section 2: a resource a line, under its lowest name.
    7,
    2, 1, 4, 3, 0, 0, 0, 0, 0, 0, 0, 0,
    6, 2, 0, 0, 1, 5, 3, 1, 1, 0, 0, 0,
    7, 2, 0, 0, 1, 5, 3, 2, 256, 0, 0, 0,
    8, 2, 0, 0, 2, 4, 4, 1, 1, 16, 5, 32,
    9, 1, 256, 0, 0, 0, 0, 0, 0, 0, 5, 64,
    50, 2, 0, 0, 1, 5, 3, 1, 1, 0, 0, 0,
    MAX, 2, 0, 0, 64, 5, 6, 3, 2, 17, 6, 8,
    // Section 3: other name, lowest name.
    3,
    10, 8,
    20, 6,
    30, 6,
    // Section 4: token, lowest name or 0 if spent.
    5,
    3, 0, 0,
    7, 0, 0,
    0, 1, 8,
    3, 5, 6,
    MAX, MAX, 50,
];

/// Tokens of [`full_2`] with high halves.
const ON_8: u64 = 1 << 32;
const ON_6: u64 = 0x5_0000_0003;

pub fn surface(handle: u32) -> Vec<u8> {
    create_texture(handle, (1, 5, 3, 1, 1, 20), 0, 0)
}

/// A device at rest with two resources that have other names, with a token
/// released, one of a resource that is gone, three bound, and after an error
/// with a place.
pub fn full_2() -> Scene {
    let mut scene = full();
    let packets = [
        surface(20),
        export(20, ON_6),
        import(30, ON_6),
        import(6, ON_6),
        create_texture(8, (2, 4, 4, 1, 1, 16), 5, 32),
        export(8, 3),
        import(10, 3),
        release(3),
        export(10, ON_8),
        surface(40),
        export(40, 7),
        destroy(40),
        surface(50),
        export(50, u64::MAX),
    ];
    scene.settle_good(&ENTRIES, &packets, 1);
    scene.submit(&[], &[packet(7, 8), destroy(99)], 0x3_0000_0002);
    assert_eq!(scene.verdict().0, 18);
    scene
}

/// Tries to save into a buffer of this length; gives the call answer, once
/// nothing else has come of it.
fn refused(desk: &Desk, length: usize) -> u32 {
    let mut buffer: Vec<u8> = (0..length).map(|at| at as u8).collect();
    let before = (desk.clone(), buffer.clone());
    let (answer, length) = desk.save_form_2(&mut buffer);
    assert_ne!(answer, 0);
    assert_eq!(length, 0);
    assert_eq!((desk, &buffer), (&before.0, &before.1));
    answer
}

#[test]
fn a_full_file_field_by_field() {
    assert_eq!(saved_2(&full_2().desk), file(&FULL_2));
}

#[test]
fn a_new_devices_file() {
    let mut fields = [0; 27];
    fields[..6].copy_from_slice(&[2, 22, u32::from_le_bytes(*b"AGPU"), 65_539, 7, 0]);
    for length in [0, 1, 4096] {
        fields[21] = length as u32;
        assert_eq!(saved_2(&Desk::new(length)), file(&fields));
    }
}

#[test]
fn a_file_comes_back_whole() {
    let scene = full_2();
    let bytes = saved_2(&scene.desk);
    for mut desk in [Desk::new(0), scene.desk.clone(), busy().desk, full().desk] {
        assert_eq!(desk.load(&bytes), (0, 0));
        assert_eq!(desk, scene.desk);
        assert_eq!(desk.names(), scene.desk.names());
        assert_eq!(desk.tokens(), scene.desk.tokens());
        assert_eq!(desk.read(0x320), (0, 32));
        assert_eq!(saved_2(&desk), bytes);
        // Form 1 cannot hold what came with it.
        assert_eq!(desk.save(&mut [0; LONGEST]), (8, 0));
    }
}

#[test]
fn five_then_six_and_no_eight() {
    let mut scene = busy();
    assert_eq!(refused(&scene.desk, 0), 5);
    assert_eq!(refused(&scene.desk, 4096), 5);
    assert_eq!(scene.answer(true), 0);
    let length = saved_2(&scene.desk).len();
    for shorter in 0..length {
        assert_eq!(refused(&scene.desk, shorter), 6);
    }
    scene.write(0x10C, 3);
    assert_eq!(scene.detail(), 48);
    assert_eq!(refused(&scene.desk, 107), 6);
    assert_eq!(saved_2(&scene.desk).len(), 108);
}

#[test]
fn six_for_every_buffer_too_short() {
    let desk = full_2().desk;
    for length in 0..528 {
        assert_eq!(refused(&desk, length), 6);
    }
    let new = Desk::new(0);
    for length in 0..108 {
        assert_eq!(refused(&new, length), 6);
    }
    assert_eq!(new.save_form_2(&mut [0; 108]), (0, 108));
}

#[test]
fn later_bytes_stay() {
    let desk = full_2().desk;
    let bytes = file(&FULL_2);
    for more in [0, 1, 2, 3, 4, 48, 1000] {
        let mut buffer: Vec<u8> = (0..528 + more).map(|at| at as u8).collect();
        let before = buffer.clone();
        assert_eq!(desk.save_form_2(&mut buffer), (0, 528));
        assert_eq!(buffer[..528], bytes);
        assert_eq!(buffer[528..], before[528..]);
    }
}

#[test]
fn what_form_1_holds_is_what_a_move_makes_of_it() {
    for desk in [full().desk, Desk::new(0), Desk::new(4096)] {
        assert_eq!(saved_2(&desk), moved(&saved(&desk)));
        assert_eq!(saved(&desk), moved(&saved_2(&desk)));
    }
}

#[test]
fn a_resource_stands_under_its_lowest_name() {
    // Whatever name was first, and whichever are gone.
    let names = [20, 10, 30];
    for made in 0..3 {
        let [first, second, third] = [0, 1, 2].map(|i| names[(made + i) % 3]);
        let packets = [
            surface(first),
            export(first, 5),
            import(second, 5),
            import(third, 5),
        ];
        let mut scene = Scene::new();
        assert_eq!(scene.settle(&[], &packets), 0);
        assert_rows(&scene, &[10], &[2, 20, 10, 30, 10, 1, 5, 0, 10]);
        assert_eq!(scene.settle(&[], &[destroy(10)]), 0);
        assert_rows(&scene, &[20], &[1, 30, 20, 1, 5, 0, 20]);
        assert_eq!(scene.settle(&[], &[release(5)]), 0);
        assert_rows(&scene, &[20], &[1, 30, 20, 1, 5, 0, 0]);
        assert_eq!(scene.settle(&[], &[destroy(20)]), 0);
        assert_rows(&scene, &[30], &[0, 1, 5, 0, 0]);
        assert_eq!(scene.settle(&[], &[destroy(30)]), 0);
        assert_rows(&scene, &[], &[0, 1, 5, 0, 0]);
    }
}

/// The device's file has the surfaces of these handles as section 2, and these
/// fields as sections 3 and 4.
fn assert_rows(scene: &Scene, handles: &[u32], sections: &[u32]) {
    let mut fields = vec![handles.len() as u32];
    for handle in handles {
        fields.extend([*handle, 2, 0, 0, 1, 5, 3, 1, 1, 0, 0, 0]);
    }
    fields.extend(sections);
    let bytes = saved_2(&scene.desk);
    assert_eq!(bytes[96..], file(&fields));
    let mut desk = Desk::new(0);
    assert_eq!(desk.load(&bytes), (0, 0));
    assert_eq!(desk, scene.desk);
}

#[test]
fn a_loaded_device_goes_on_as_the_saved_one() {
    let scene = full_2();
    let mut loaded = busy();
    assert_eq!(loaded.desk.load(&saved_2(&scene.desk)), (0, 0));
    loaded.mem.copy_from_slice(&scene.mem);
    for packets in [
        vec![dirty(10, 0, 16), dirty(20, 0, 0)],
        vec![dirty(10, 0, 64), dirty(8, 0, 65)],
        vec![create_buffer(30, 1, 0, 0)],
        vec![import(11, 3)],
        vec![import(11, 7)],
        vec![release(3)],
        vec![export(8, 3)],
        vec![export(6, 7)],
        vec![export(8, ON_6)],
        vec![export(20, ON_6), export(10, ON_8), export(50, u64::MAX)],
        vec![import(11, ON_6), import(5, ON_8), import(4, u64::MAX)],
        vec![destroy(6), import(6, ON_6), destroy(20), destroy(30)],
        vec![destroy(6), destroy(20), destroy(30), import(6, ON_6)],
        vec![destroy(8), export(10, 9), import(8, 9), release(ON_8)],
        vec![surface(60), export(60, 9), import(61, 9), export(60, ON_8)],
        vec![surface(60), export(60, 9), surface(62), export(62, 1)],
        vec![target(20), destroy(6), scissor((0, 0), (9, 9))],
        vec![],
    ] {
        let (mut one, mut two) = (scene.clone(), loaded.clone());
        for scene in [&mut one, &mut two] {
            scene.submit(&ENTRIES, &packets, 0x9_0000_0009);
        }
        assert_eq!(one.verdict(), two.verdict());
        assert_eq!(one.records(), two.records());
        assert_eq!(one, two);
        assert_eq!(one.answer(true), two.answer(true));
        assert_eq!(one, two);
        assert_eq!(saved_2(&one.desk), saved_2(&two.desk));
    }
}

#[test]
fn tokens_count_on_from_the_file() {
    let mut scene = Scene::new();
    let exports = |tokens: std::ops::RangeInclusive<u64>| -> Vec<_> {
        tokens.map(|token| export(1, token)).collect()
    };
    assert_eq!(scene.settle(&[], &[surface(1)]), 0);
    for first in [1, 86, 171] {
        assert_eq!(scene.settle(&[], &exports(first..=first + 84)), 0);
        let bytes = saved_2(&scene.desk);
        assert_eq!(scene.desk.load(&bytes), (0, 0));
        assert_eq!(scene.desk.tokens().len() as u64, first + 84);
    }
    assert_eq!(scene.settle(&[], &exports(256..=257)), 19);
    assert_eq!(scene.settle(&[], &exports(256..=256)), 0);
    let bytes = saved_2(&scene.desk);
    assert_eq!(scene.desk.load(&bytes), (0, 0));
    assert_eq!(scene.settle(&[], &exports(1..=1)), 0);
    assert_eq!(scene.settle(&[], &exports(257..=257)), 19);
    scene.write(0x10C, 3);
    let head = scene.head();
    scene.put_ring(RING, head);
    assert_eq!(scene.settle(&[], &[surface(1), export(1, 257)]), 0);
}

#[test]
fn new_surfaces_are_none_of_the_loaded_ones() {
    // As many as names allow, without tokens so far, each then exported beside
    // a new one: no two become one.
    let mut fields = FULL_2[..24].to_vec();
    fields.push(32);
    for handle in 1..=32 {
        fields.extend([handle, 2, 0, 0, 1, 5, 3, 1, 1, 0, 0, 0]);
    }
    fields.push(31);
    fields.extend((1..=31).flat_map(|lowest| [100 + lowest, lowest]));
    fields.push(0);
    let mut scene = Scene::new();
    assert_eq!(scene.desk.load(&file(&fields)), (0, 0));
    scene.put_ring(RING, 0);
    let mut tokens = Vec::new();
    for lowest in 1..=31 {
        let token = u64::from(lowest);
        let packets = [
            surface(200),
            export(200, 1000 + token),
            export(100 + lowest, token),
            destroy(200),
        ];
        assert_eq!(scene.settle(&[], &packets), 0);
        tokens.push((token, lowest));
    }
    tokens.extend((1001..=1031).map(|token| (token, 0)));
    assert_eq!(scene.desk.tokens(), tokens);
    assert_eq!(scene.desk.names().len(), 63);
    let bytes = saved_2(&scene.desk);
    assert_eq!(scene.desk.load(&bytes), (0, 0));
    assert_eq!(scene.desk.tokens(), tokens);
}
