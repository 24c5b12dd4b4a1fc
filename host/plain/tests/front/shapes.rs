//! Packed sizes.

use plain::packed_size;

#[test]
fn formats() {
    for format in 0..200 {
        let expected = match format {
            1..=3 => 8 * 8 * 4,
            64 => 4 * 8,
            65 | 66 => 4 * 16,
            _ => 0,
        };
        let pitch = match format {
            64 => 16,
            _ => 32,
        };
        assert_eq!(packed_size(format, 8, 8, 1, 1, pitch), expected);
    }
    assert_eq!(packed_size(u32::MAX, 8, 8, 1, 1, 32), 0);
}

#[test]
fn sides() {
    for side in [0, 16_385, u32::MAX] {
        assert_eq!(packed_size(1, side, 1, 1, 1, u32::MAX), 0);
        assert_eq!(packed_size(1, 1, side, 1, 1, u32::MAX), 0);
    }
    assert_eq!(packed_size(1, 16_384, 1, 1, 1, 65_536), 65_536);
    assert_eq!(packed_size(1, 1, 16_384, 1, 1, 4), 65_536);
}

#[test]
fn mips() {
    assert_eq!(packed_size(1, 1, 1, 0, 1, 4), 0);
    assert_eq!(packed_size(1, 4, 1, 3, 1, 16), 16 + 8 + 4);
    assert_eq!(packed_size(1, 1, 4, 3, 1, 4), 16 + 8 + 4);
    assert_eq!(packed_size(1, 4, 1, 4, 1, 16), 0);
    assert_eq!(packed_size(1, 7, 7, 3, 1, 28), 196 + 36 + 4);
    assert_eq!(packed_size(1, 7, 7, 4, 1, 28), 0);
    assert_eq!(packed_size(1, 16_384, 16_384, u32::MAX, 1, 65_536), 0);
}

#[test]
fn layers() {
    assert_eq!(packed_size(1, 1, 1, 1, 0, 4), 0);
    assert_eq!(packed_size(1, 1, 1, 1, 256, 4), 1024);
    assert_eq!(packed_size(1, 1, 1, 1, 257, 4), 0);
    assert_eq!(packed_size(1, 1, 1, 1, u32::MAX, 4), 0);
}

#[test]
fn pitches() {
    assert_eq!(packed_size(1, 5, 2, 1, 1, 19), 0);
    assert_eq!(packed_size(1, 5, 2, 1, 1, 20), 40);
    assert_eq!(packed_size(1, 5, 2, 1, 1, 21), 42);
    assert_eq!(packed_size(65, 5, 2, 1, 1, 31), 0);
    assert_eq!(packed_size(65, 5, 2, 1, 1, 32), 32);
    assert_eq!(packed_size(64, 4, 9, 1, 1, 8), 24);
    assert_eq!(packed_size(1, 5, 3, 3, 1, 0), 0);
}

#[test]
fn the_largest_textures() {
    let pitch = u64::from(u32::MAX);
    assert_eq!(
        packed_size(3, 16_384, 16_384, 1, 256, u32::MAX),
        pitch * 16_384 * 256
    );
    let tight: u64 = (1..15)
        .map(|mip| 4 * (16_384 >> mip) * (16_384 >> mip))
        .sum();
    assert_eq!(
        packed_size(3, 16_384, 16_384, 15, 256, u32::MAX),
        (pitch * 16_384 + tight) * 256
    );
}
