//! Random batches: records one behind the other from a block's free end on, half of them wrong in one place.

use super::{images, numbers, objects};
use crate::{
    case::Case,
    geometry::Geometry,
    model::{header::TYPES, layout, Flash},
    op::Op,
    random::Random,
};

/// Types that are none, some with a low byte that is one.
pub const NO_TYPES: [u32; 10] = [0xFF, 0x00, 0x18F, 0xFFFF_FF8F, 0x18E, 0x8D00, 0x8C, 0x90, 0x8E8E_8E8E, u32::MAX];

pub fn make(r: &mut Random) -> Case {
    let g = geometry(r);
    let flash = images::image(r, g);
    let (block, at) = place(r, &flash);
    let lens = lengths(r, g, at);
    let mut records = laid(g, at, &lens);
    for record in &mut records {
        record[0] = r.pick(&TYPES);
    }
    let mut case = Case { args: vec![block], image: flash.image, ..Case::of(Op::WriteAll, g) };
    case.bytes = payload(r, &mut records);
    if r.one_in(2) && !records.is_empty() {
        wrong(r, g, &mut records, &mut case.bytes);
    }
    case.array = records.concat();
    case
}

/// A good geometry, now and then with blocks that many records fit in.
fn geometry(r: &mut Random) -> Geometry {
    let g = numbers::geometry(r);
    if !r.one_in(8) {
        return g;
    }
    Geometry { s: g.s.max(2), size: 1_024, count: r.between(1, 2), ..g }
}

/// A block and a place in it: mostly a free end with room for an object.
fn place(r: &mut Random, flash: &Flash) -> (u32, u32) {
    let g = flash.geometry;
    if !r.one_in(4) {
        let free = objects::with_room(r, flash, layout::header_len(g));
        if let Some(found) = free {
            return (found[0], found[1]);
        }
    }
    let block = numbers::block(r, g);
    (block, images::end(r, flash, block))
}

/// Records of these payload lengths, one behind the other from a place on, and so are their payloads.
pub fn laid(g: Geometry, mut at: u32, lens: &[u32]) -> Vec<[u32; 4]> {
    let mut start = 0;
    let mut records = Vec::new();
    for (i, &len) in lens.iter().enumerate() {
        records.push([TYPES[i % 3], at, start, len]);
        at = at.wrapping_add(layout::align(g, layout::header_len(g) + len as u64) as u32);
        start += len;
    }
    records
}

/// Payload lengths: small, but now and then one that takes what is left or a little more; mostly no more than fit.
fn lengths(r: &mut Random, g: Geometry, at: u32) -> Vec<u32> {
    let count = match r.below(16) {
        0 => r.below(2),
        1 | 2 => 64 - r.below(2),
        3 | 4 => r.below(65),
        _ => r.between(1, 8),
    };
    let (most, fit) = (r.pick(&[0, 1, 4, 9, 20]), !r.one_in(3));
    let long = if r.one_in(4) { r.below(count) } else { count };
    let mut room = g.size.saturating_sub(at);
    let mut lens = Vec::new();
    for i in 0..count {
        if fit && i > 0 && (room as u64) < layout::header_len(g) {
            break;
        }
        let left = room.saturating_sub(layout::header_len(g) as u32);
        let len = if i == long { (left + 3).saturating_sub(r.below(6)) } else { r.below(most + 1) };
        room = left.saturating_sub(layout::align(g, len as u64) as u32);
        lens.push(len);
    }
    lens
}

/// The bytes that the records name, with more around them now and then; or all records name the same.
fn payload(r: &mut Random, records: &mut [[u32; 4]]) -> Vec<u8> {
    let before = if r.one_in(4) { r.below(6) } else { 0 };
    let after = if r.one_in(4) { r.below(6) } else { 0 };
    let same = r.one_in(6);
    for record in records.iter_mut() {
        record[2] = if same { before } else { record[2] + before };
    }
    let end = records.iter().map(|record| record[2] + record[3]).max().unwrap_or(0);
    let len = (end + after) as usize;
    if r.one_in(4) {
        return vec![r.pick(&[0xFF, 0x00, 0x8E, 0xF0]); len];
    }
    r.bytes(len)
}

/// Makes one record wrong, or lays it over another one.
fn wrong(r: &mut Random, g: Geometry, records: &mut [[u32; 4]], bytes: &mut Vec<u8>) {
    let i = r.below(records.len() as u32) as usize;
    let other = r.pick(records);
    match r.below(8) {
        0 => records[i][0] = r.pick(&NO_TYPES),
        1 => records[i][1] = numbers::edge(r, g),
        2 => records[i][1] = other[1],
        3 => records[i][1] = other[1].wrapping_add(r.below(24)),
        4 => records[i][1] = records[i][1].wrapping_add(r.below(5)).wrapping_sub(2),
        5 | 6 => (records[i][2], records[i][3]) = range(r, bytes.len() as u32),
        _ => {
            let len = g.size.saturating_sub(records[i][1]).saturating_sub(r.below(20));
            (records[i][2], records[i][3]) = (0, len);
            bytes.resize(bytes.len().max(len as usize), 0x41);
        }
    }
}

/// A range around the end of the payload, or around 2^32.
fn range(r: &mut Random, len: u32) -> (u32, u32) {
    let near = |r: &mut Random| len.saturating_add(2).saturating_sub(r.below(5));
    match r.below(8) {
        0 => (len, 0),
        1 => (len + 1, 0),
        2 => (near(r), r.below(3)),
        3 => (r.below(3), near(r)),
        4 => (u32::MAX - r.below(3), r.below(5)),
        5 => (r.below(len + 2), u32::MAX - r.below(3)),
        6 => (r.below(len + 1), 0u32.wrapping_sub(len)),
        _ => (1 << 31, 1 << 31),
    }
}
