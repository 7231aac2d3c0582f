//! Numbers at the boundaries.

use crate::{geometry::Geometry, oracle::SIZES, random::Random};

/// Sizes that the text has no instance for: the library is compared with the model there.
const OTHERS: [(u32, u32); 10] =
    [(72, 2), (100, 1), (252, 3), (256, 5), (64, 7), (128, 4), (132, 3), (512, 2), (1020, 1), (2048, 3)];

/// A good geometry: mostly small blocks, few of 1,024 bytes, rarely 65,536.
pub fn geometry(r: &mut Random) -> Geometry {
    let (small, large) = SIZES.split_at(12);
    let (size, count) = match r.below(4000) {
        0..=3 => r.pick(&large[2..]),
        4..=100 => r.pick(&large[..2]),
        101..=220 => r.pick(&OTHERS),
        _ => r.pick(small),
    };
    let least = if size <= 256 { 1 } else { 2 };
    let granularity = r.pick(&[0, 1, 4]);
    let (s, c) = (r.between(least, 3) as u8, r.between(1, 3) as u8);
    Geometry { granularity, s, c, strict: 0, size, count }
}

const EDGES: [u32; 36] = [
    0, 1, 2, 3, 4, 5, 7, 8, 9, 11, 12, 13, 15, 16, 17, 19, 20, 63, 64, 65, 127, 128, 253, 254, 255, 256, 257, 511,
    65_534, 65_535, 65_536, 65_537, 16_777_214, 16_777_215, 16_777_216, 16_777_217,
];

/// Any u32, mostly near a power or near the block size.
pub fn edge(r: &mut Random, g: Geometry) -> u32 {
    match r.below(10) {
        0..=3 => r.pick(&EDGES),
        4..=6 => r.below(g.size + 8),
        7 => (g.size + 4).wrapping_sub(r.below(24)),
        8 => u32::MAX - r.below(9),
        _ => r.number() as u32,
    }
}

/// A block: mostly one that is there.
pub fn block(r: &mut Random, g: Geometry) -> u32 {
    match r.below(24) {
        0 => g.count + r.below(2),
        1 => r.pick(&[u32::MAX, 255, 256, 65_536, 1 << 31]),
        _ => r.below(g.count),
    }
}

/// An erase count: often at the limits.
pub fn erase_count(r: &mut Random) -> u32 {
    match r.below(8) {
        0..=2 => r.below(4),
        3 => u32::MAX,
        4 => u32::MAX - 1,
        5 => u32::MAX - r.below(4),
        6 => r.pick(&[255, 256, 65_535, 65_536, 0x00FF_FFFF, 0x0100_0000, 0x7FFF_FFFF, 0x8000_0000]),
        _ => r.number() as u32,
    }
}

/// A length of lent bytes up to about a block's.
pub fn length(r: &mut Random, most: u32) -> usize {
    (match r.below(6) {
        0 => 0,
        1..=3 => r.below(20),
        4 => r.below(most + 2),
        _ => most.saturating_sub(r.below(5)),
    }) as usize
}

/// A buffer as the caller left it.
pub fn buffer(r: &mut Random, len: usize) -> Vec<u8> {
    vec![r.pick(&[0xA5, 0x00, 0xFF, 0x5A]); len]
}
