//! Stores of files: names, data objects and metadata in blocks of every kind; whole, or made wrong in one place.

use super::{images, numbers};
use crate::{
    geometry::Geometry,
    model::{
        blocks::{DATA, EMPTY, METADATA, UNDEFINED, UNKNOWN},
        header::{location_into_bytes, Header, DELETED, TYPES},
        layout, Flash,
    },
    random::Random,
};

pub type Place = [u32; 2];

/// A file as it was made: the hash and the name, and where its objects are.
#[derive(Clone)]
pub struct File {
    pub hash: u32,
    pub name: Vec<u8>,
    pub at: Place,
    pub name_at: Place,
    pub data: Vec<Place>,
}

#[derive(Clone)]
pub struct Store {
    pub flash: Flash,
    pub files: Vec<File>,
    /// where the next object goes, by block
    ends: Vec<u32>,
}

impl Store {
    /// Blocks of these kinds, without an object.
    pub fn of(g: Geometry, kinds: &[u32]) -> Store {
        let mut flash = Flash::erased(g);
        for (block, &kind) in (0..).zip(kinds) {
            flash.block_header_write(block, kind, 0).unwrap();
            if kind == UNKNOWN {
                flash.image[(block * g.size) as usize] = 0xBA;
            }
        }
        Store { flash, files: Vec::new(), ends: vec![layout::block_header_len(g) as u32; g.count as usize] }
    }

    /// Whether a block has room for an object with so many bytes of payload.
    pub fn fits(&self, block: u32, len: usize) -> bool {
        let g = self.flash.geometry;
        let end = self.ends[block as usize] as u64 + layout::header_len(g) + layout::align(g, len as u64);
        end <= g.size as u64 && len < layout::unset(g) as usize
    }

    /// A whole object behind the last one of its block; none where it does not fit.
    pub fn put(&mut self, block: u32, kind: u32, payload: &[u8]) -> Option<Place> {
        if !self.fits(block, payload.len()) {
            return None;
        }
        let at = self.ends[block as usize];
        let total = self.flash.write_to(block, at, kind, payload).unwrap();
        self.ends[block as usize] = at + layout::align(self.flash.geometry, total as u64) as u32;
        Some([block, at])
    }

    /// Nothing more goes into the block.
    pub fn close(&mut self, block: u32) {
        self.ends[block as usize] = self.flash.geometry.size;
    }

    /// A file with its metadata in one block and its name and data in another; none where it does not fit.
    pub fn file(&mut self, blocks: [u32; 2], hash: u32, name: &[u8], data: &[&[u8]]) -> Option<File> {
        let name_at = self.put(blocks[1], TYPES[2], name)?;
        let data: Option<Vec<Place>> = data.iter().map(|bytes| self.put(blocks[1], TYPES[1], bytes)).collect();
        let data = data?;
        let at = self.put(blocks[0], TYPES[0], &payload(self.flash.geometry, hash, name_at, &data))?;
        let file = File { hash, name: name.to_vec(), at, name_at, data };
        self.files.push(file.clone());
        Some(file)
    }
}

/// The bytes of metadata: the hash, where the name is, and where the data is.
pub fn payload(g: Geometry, hash: u32, name_at: Place, data: &[Place]) -> Vec<u8> {
    let mut bytes = hash.to_le_bytes().to_vec();
    for place in [name_at].iter().chain(data) {
        bytes.extend(location_into_bytes(g, place[0], place[1]));
    }
    bytes
}

/// Any store: some files, one in three made wrong on purpose.
pub fn store(r: &mut Random, g: Geometry) -> Store {
    let kinds = kinds(r, g.count);
    let mut store = Store::of(g, &kinds);
    for _ in 0..r.between(1, 6) {
        add(r, &mut store, &kinds);
    }
    if r.one_in(3) {
        for _ in 0..r.between(1, 3) {
            wrong(r, &mut store);
        }
    }
    if r.one_in(8) {
        images::damage(r, &mut store.flash);
    }
    store
}

/// Mostly Metadata and Data, in any order, and mostly one Metadata block at least.
fn kinds(r: &mut Random, count: u32) -> Vec<u32> {
    let mut kinds: Vec<u32> = (0..count)
        .map(|_| match r.below(16) {
            0 => EMPTY,
            1 => UNKNOWN,
            2 => UNDEFINED,
            3..=8 => METADATA,
            _ => DATA,
        })
        .collect();
    if !kinds.contains(&METADATA) && !r.one_in(8) {
        kinds[r.below(count) as usize] = METADATA;
    }
    kinds
}

/// A block of the kind, mostly.
fn block_of(r: &mut Random, kinds: &[u32], kind: u32) -> u32 {
    let of: Vec<u32> = (0..).zip(kinds).filter(|(_, &of)| of == kind).map(|(block, _)| block).collect();
    if of.is_empty() || r.one_in(12) {
        return r.below(kinds.len() as u32);
    }
    r.pick(&of)
}

const NAMES: [u32; 10] = [0, 1, 2, 5, 15, 16, 17, 32, 33, 3];
const SIZES: [u32; 12] = [0, 0, 1, 2, 3, 4, 5, 7, 9, 16, 17, 40];
const HASHES: [u32; 4] = [0, 1, 0x0403_0201, u32::MAX];

/// Adds a file, where it fits: often with the hash or the name of another one, now and then twice.
fn add(r: &mut Random, store: &mut Store, kinds: &[u32]) {
    let g = store.flash.geometry;
    let others = store.files.clone();
    let other = |r: &mut Random| others.get(r.below(others.len().max(1) as u32) as usize);
    let len = r.pick(&NAMES) as usize;
    let name = match other(r) {
        Some(file) if r.one_in(4) => file.name.clone(),
        _ => name(r, len),
    };
    let hash = match other(r) {
        Some(file) if r.one_in(2) => file.hash,
        _ => r.pick(&HASHES),
    };
    let block = block_of(r, kinds, DATA);
    let Some(name_at) = store.put(block, TYPES[2], &name) else { return };
    let data = data(r, store, kinds);
    let metadata = metadata(r, g, payload(g, hash, name_at, &data));
    for _ in 0..if r.one_in(6) { 2 } else { 1 } {
        let kind = if r.one_in(8) { r.pick(&TYPES) } else { TYPES[0] };
        let block = block_of(r, kinds, METADATA);
        let Some(at) = store.put(block, kind, &metadata) else { return };
        store.files.push(File { hash, name: name.clone(), at, name_at, data: data.clone() });
    }
}

/// Letters that are alike up to the last, so that names differ late; or any bytes.
fn name(r: &mut Random, len: usize) -> Vec<u8> {
    if r.one_in(4) {
        return r.bytes(len);
    }
    let mut name: Vec<u8> = (b'a'..=b'z').cycle().take(len).collect();
    if let Some(last) = name.last_mut() {
        *last = r.pick(b"xyz");
    }
    name
}

/// Data objects, in the order of their places or not, now and then one of them twice.
fn data(r: &mut Random, store: &mut Store, kinds: &[u32]) -> Vec<Place> {
    let mut places = Vec::new();
    for _ in 0..r.pick(&[0, 1, 1, 2, 5]) {
        let len = r.pick(&SIZES) as usize;
        let (block, bytes) = (block_of(r, kinds, DATA), r.bytes(len));
        places.extend(store.put(block, TYPES[1], &bytes));
    }
    if places.is_empty() {
        return places;
    }
    if r.one_in(4) {
        places.reverse();
    }
    if r.one_in(5) {
        let again = r.pick(&places);
        places.insert(r.below(places.len() as u32 + 1) as usize, again);
    }
    places
}

/// Mostly as it is; too short for hash and name, or with a part of a location behind.
fn metadata(r: &mut Random, g: Geometry, mut payload: Vec<u8>) -> Vec<u8> {
    let least = 4 + layout::location_len(g) as u32;
    match r.below(16) {
        0 => payload.truncate(r.below(least) as usize),
        1 => payload.extend(vec![0; r.below(layout::location_len(g) as u32) as usize]),
        _ => {}
    }
    payload
}

/// Spoils one object of a file: its size, its state, its type, or what it points to; or a block's kind.
fn wrong(r: &mut Random, store: &mut Store) {
    let g = store.flash.geometry;
    if store.files.is_empty() || r.one_in(10) {
        let _ = store.flash.set_block_type(r.below(g.count), r.between(METADATA, UNDEFINED));
        return;
    }
    let i = r.below(store.files.len() as u32) as usize;
    let file = &store.files[i];
    let any = file.data.get(r.below(file.data.len() as u32) as usize).copied().unwrap_or(file.at);
    let at = r.pick(&[file.at, file.name_at, file.name_at, any]);
    let (metadata, locations) = (file.at, 1 + file.data.len() as u32);
    match r.below(8) {
        0..=2 => set_size(&mut store.flash, at, size(r, g, at)),
        3 => delete(&mut store.flash, at),
        4 => poke(&mut store.flash, at, layout::finish_mark(g).0 as u32, r.pick(&[0xFF, 0x00, 0xF0, 0x7F])),
        5 => poke(&mut store.flash, at, 0, r.pick(&[0xFF, 0x8C, 0x8D, 0x8E, 0x8F])),
        _ => {
            let to = target(r, store);
            let first = layout::header_len(g) as u32 + 4;
            let from = first + r.below(locations) * layout::location_len(g) as u32;
            for (offset, byte) in (from..).zip(location_into_bytes(g, to[0], to[1])) {
                poke(&mut store.flash, metadata, offset, byte);
            }
        }
    }
}

/// Sets one byte of the object at a place, where the block has it.
pub fn poke(flash: &mut Flash, at: Place, offset: u32, byte: u8) {
    if at[1] + offset < flash.geometry.size {
        flash.image[(at[0] * flash.geometry.size + at[1] + offset) as usize] = byte;
    }
}

/// The size field of the object at a place.
pub fn set_size(flash: &mut Flash, at: Place, size: u32) {
    let (first, s) = (layout::size_at(flash.geometry) as u32, flash.geometry.s as usize);
    for (offset, &byte) in (first..).zip(&size.to_le_bytes()[..s]) {
        poke(flash, at, offset, byte);
    }
}

/// The delete mark of the object at a place.
pub fn delete(flash: &mut Flash, at: Place) {
    let header: Option<Header> = flash.read_header(at[0], at[1]).ok();
    if let Some(mut header) = header {
        let _ = flash.update_state(&mut header, DELETED);
    }
}

/// Unset, up to the block's end, past it, or small.
fn size(r: &mut Random, g: Geometry, at: Place) -> u32 {
    let fill = g.size - at[1] - layout::header_len(g) as u32;
    match r.below(6) {
        0 => layout::unset(g),
        1 => fill,
        2 | 3 => fill + r.below(24),
        4 => r.below(40),
        _ => numbers::edge(r, g),
    }
}

/// Another object, a place without one, or a place that is none.
fn target(r: &mut Random, store: &Store) -> Place {
    let g = store.flash.geometry;
    match r.below(4) {
        0 => [numbers::block(r, g), numbers::edge(r, g)],
        1 => {
            let block = r.below(g.count);
            [block, store.ends[block as usize]]
        }
        _ => {
            let block = r.below(g.count);
            [block, images::offset(r, &store.flash, block)]
        }
    }
}
