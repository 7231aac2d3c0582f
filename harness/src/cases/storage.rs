//! Random cases of files by their names, over stores that are whole or wrong in one place.

use super::{
    images, numbers,
    stores::{self, Place, Store},
};
use crate::{
    case::Case,
    geometry::Geometry,
    model::{layout, Flash},
    op::Op,
    random::Random,
};

pub fn make(r: &mut Random) -> Case {
    let g = geometry(r);
    let store = stores::store(r, g);
    let op = match r.below(40) {
        0 => return Case::of(Op::NamesNew, g),
        1..=14 => Op::Lookup,
        15..=19 => Op::FileSize,
        20..=29 => Op::FileRead,
        _ => Op::NamesNext,
    };
    let mut case = Case::of(op, g);
    match op {
        Op::Lookup => lookup(r, &mut case, &store),
        Op::FileSize => case.args = place(r, &store).to_vec(),
        Op::FileRead => read(r, &mut case, &store),
        _ => names(r, &mut case, &store),
    }
    case.image = store.flash.image;
    case
}

const SIZES: [(u32, u32); 12] = [
    (64, 3),
    (64, 4),
    (68, 3),
    (128, 2),
    (128, 4),
    (128, 4),
    (256, 1),
    (256, 4),
    (256, 4),
    (260, 2),
    (260, 3),
    (1024, 1),
];

/// Mostly several blocks with room for some files.
fn geometry(r: &mut Random) -> Geometry {
    let g = numbers::geometry(r);
    if r.one_in(16) {
        return g;
    }
    let (size, count) = r.pick(&SIZES);
    let s = if size <= 256 { r.between(1, 3) } else { r.between(2, 3) };
    Geometry { s: s as u8, size, count, ..g }
}

/// A path and a hash: mostly those of a file, as the image says them now.
fn lookup(r: &mut Random, case: &mut Case, store: &Store) {
    if store.files.is_empty() || r.one_in(40) {
        let len = r.below(40) as usize;
        (case.args, case.bytes) = (vec![r.below(2)], r.bytes(len));
        return;
    }
    let file = &store.files[r.below(store.files.len() as u32) as usize];
    case.args = vec![if r.one_in(12) { r.number() as u32 } else { file.hash }];
    case.bytes = name(&store.flash, file.at).unwrap_or_else(|| file.name.clone());
    let len = case.bytes.len();
    match r.below(12) {
        0 | 1 if len > 0 => {
            let at = r.pick(&[0, 14, 15, 16, len - 1, len / 2]).min(len - 1);
            case.bytes[at] ^= r.pick(&[1, 0x80, 0xFF]);
        }
        2 => case.bytes.truncate(len.saturating_sub(1)),
        3 => case.bytes.push(b'x'),
        4 => case.bytes = file.name.clone(),
        _ => {}
    }
}

/// The name that the metadata at a place points to: as long as its size says, with what the block has of it.
fn name(flash: &Flash, at: Place) -> Option<Vec<u8>> {
    let g = flash.geometry;
    let [block, offset] = flash.location_read_metadata(at[0], at[1]).ok()?.name;
    let header = flash.read_header(block, offset).ok()?;
    let (len, from) = (header.payload_or_none(g), offset as u64 + layout::header_len(g));
    let there = len.min((g.size as u64).saturating_sub(from));
    let mut bytes = flash.read(block, from, there).ok()?.to_vec();
    bytes.resize(len.min(300) as usize, 0xFF);
    Some(bytes)
}

/// Mostly where a file's metadata is; else another object, or any place.
fn place(r: &mut Random, store: &Store) -> Place {
    let g = store.flash.geometry;
    if store.files.is_empty() || r.one_in(12) {
        let block = numbers::block(r, g);
        return [block, images::offset(r, &store.flash, block)];
    }
    let file = &store.files[r.below(store.files.len() as u32) as usize];
    match r.below(24) {
        0 => file.name_at,
        1 => file.data.first().copied().unwrap_or(file.at),
        2 => [file.at[0], file.at[1] + 1],
        _ => file.at,
    }
}

/// A place, a position around the ends of the objects, and a buffer around what is left.
fn read(r: &mut Random, case: &mut Case, store: &Store) {
    let at = place(r, store);
    let ends = ends(&store.flash, at);
    let end = *ends.last().unwrap();
    let near = r.pick(&ends).wrapping_add(r.below(3) as u64).wrapping_sub(1);
    let position = match r.below(10) {
        0..=2 => 0,
        3 => r.below(end.min(1_000) as u32 + 2) as u64,
        4 => end,
        5 => r.pick(&[u64::MAX, u64::MAX - 1, 1 << 32, (1 << 32) + 1, u32::MAX as u64, 1 << 63]),
        _ => near,
    };
    let left = end.saturating_sub(position).min(600) as usize;
    let len = match r.below(8) {
        0 => 0,
        1 => 1,
        2 => left,
        3 => (left + 1).saturating_sub(r.below(3) as usize),
        4 => left + r.below(20) as usize,
        _ => r.below(left as u32 + 2) as usize,
    };
    case.args = vec![at[0], at[1], position as u32, (position >> 32) as u32];
    case.bytes = numbers::buffer(r, len);
}

/// 0, and the position behind each data object that can be opened.
fn ends(flash: &Flash, at: Place) -> Vec<u64> {
    let mut ends = vec![0];
    let Ok(mut metadata) = flash.location_read_metadata(at[0], at[1]) else { return ends };
    while let Ok(Some([block, offset])) = flash.next_object_location(&mut metadata) {
        let Ok(reader) = flash.reader_new(block, offset, false) else { break };
        ends.push(ends.last().unwrap() + reader.len(flash.geometry) as u64);
    }
    ends
}

/// From the start, from a place that a listing visits, or from any; a buffer around the length of a name.
fn names(r: &mut Random, case: &mut Case, store: &Store) {
    let g = case.geometry;
    let block = numbers::block(r, g);
    case.array = match r.below(4) {
        0 => vec![0, layout::block_header_len(g) as u32],
        1 => vec![r.below(2), layout::block_header_len(g) as u32],
        _ => vec![block, images::offset(r, &store.flash, block)],
    };
    let name = store.files.get(r.below(store.files.len().max(1) as u32) as usize).map_or(0, |file| file.name.len());
    let len = match r.below(8) {
        0 => name,
        1 => name.saturating_sub(1),
        2 => 0,
        3 => r.below(40) as usize,
        _ => 33 + r.below(40) as usize,
    };
    case.bytes = numbers::buffer(r, len);
}
