//! Where things stand, by granularity (0 Bit, 1 Word(1), 4 Word(4)).

use crate::geometry::Geometry;

pub fn width(g: Geometry) -> u64 {
    if g.granularity == 4 {
        4
    } else {
        1
    }
}

/// Aligned up to whole units.
pub fn align(g: Geometry, n: u64) -> u64 {
    n.div_ceil(width(g)) * width(g)
}

/// Bytes that tell type and state.
pub fn state_len(g: Geometry) -> u64 {
    [2, 3, 0, 0, 12][g.granularity as usize]
}

/// "size field at".
pub fn size_at(g: Geometry) -> u64 {
    [2, 3, 0, 0, 12][g.granularity as usize]
}

/// "object header".
pub fn header_len(g: Geometry) -> u64 {
    let s = g.s as u64;
    [2 + s, 3 + s, 0, 0, 16][g.granularity as usize]
}

/// Where the finish mark is stored, and its byte.
pub fn finish_mark(g: Geometry) -> (u64, u8) {
    [(1, 0xF0), (1, 0), (0, 0), (0, 0), (4, 0)][g.granularity as usize]
}

/// Where the delete mark is stored, and its byte.
pub fn delete_mark(g: Geometry) -> (u64, u8) {
    [(1, 0x00), (2, 0), (0, 0), (0, 0), (8, 0)][g.granularity as usize]
}

/// The number that means unset: s bytes of FF.
pub fn unset(g: Geometry) -> u32 {
    (1 << (8 * g.s)) - 1
}

/// Bytes of a location: c of the block, s of the offset.
pub fn location_len(g: Geometry) -> u64 {
    g.c as u64 + g.s as u64
}

pub fn block_header_len(g: Geometry) -> u64 {
    if g.granularity == 4 {
        12
    } else {
        8
    }
}

/// Where the block's type byte stands.
pub fn block_type_at(g: Geometry) -> u64 {
    if g.granularity == 4 {
        8
    } else {
        3
    }
}

/// "layout byte (s*64 + c*4 + 1 for either Word, 0 for Bit)".
pub fn layout_byte(g: Geometry) -> u8 {
    g.s * 64 + g.c * 4 + (g.granularity != 0) as u8
}
