//! Random sweeps: files, twins, near-twins and what is left over, in blocks of every kind; half of the stores are wrong in a
//! place or two. Each store is swept without and with words lent.

use super::{
    images, numbers,
    stores::{delete, payload, poke, set_size, Place, Store},
};
use crate::{
    case::Case,
    geometry::Geometry,
    model::{
        blocks::{DATA, EMPTY, METADATA, UNDEFINED, UNKNOWN},
        header::{location_into_bytes, Header, FINALIZED, TYPES},
        layout,
        listing::Listing,
        Flash,
    },
    op::Op,
    random::Random,
};

pub fn make(r: &mut Random) -> Case {
    let g = geometry(r);
    let flash = if r.one_in(24) { images::image(r, g) } else { store(r, g) };
    case(&flash)
}

pub fn case(flash: &Flash) -> Case {
    Case { image: flash.image.clone(), ..Case::of(Op::Sweep, flash.geometry) }
}

/// The same sweep with words lent, one for each byte of the image.
pub fn lent(r: &mut Random, case: &Case) -> Case {
    Case { op: Op::SweepWith, array: words(r, case.image.len()), ..case.clone() }
}

/// Mostly not 0: any numbers, places in the image, or one number everywhere.
pub fn words(r: &mut Random, many: usize) -> Vec<u32> {
    let (kind, all) = (r.below(4), r.pick(&[1, 0x100, 0x7FFF_FFFF, u32::MAX, 0]));
    let word = |_| match kind {
        0 => all,
        1 => r.below(many as u32 + 2),
        _ => (r.number() >> 32) as u32,
    };
    (0..many).map(word).collect()
}

const SIZES: [(u32, u32); 14] = [
    (64, 1),
    (64, 2),
    (64, 3),
    (64, 5),
    (68, 3),
    (72, 4),
    (100, 3),
    (128, 2),
    (128, 3),
    (128, 4),
    (256, 2),
    (256, 3),
    (256, 4),
    (260, 3),
];

/// Small blocks, and every width that goes with them.
pub fn geometry(r: &mut Random) -> Geometry {
    let (size, count) = r.pick(&SIZES);
    let least = if size <= 256 { 1 } else { 2 };
    let granularity = r.pick(&[0, 1, 4]);
    let (s, c) = (r.between(least, 3) as u8, r.between(1, 3) as u8);
    Geometry { granularity, s, c, strict: 0, size, count }
}

/// A whole store, or one that is then made wrong.
pub fn store(r: &mut Random, g: Geometry) -> Flash {
    let mut flash = whole(r, g).flash;
    if r.one_in(2) {
        for _ in 0..r.pick(&[1, 1, 1, 2, 3]) {
            wrong(r, &mut flash);
        }
    }
    flash
}

/// A store that no sweep refuses.
pub fn whole(r: &mut Random, g: Geometry) -> Store {
    let kinds = kinds(r, g.count);
    let mut store = Store::of(g, &kinds);
    let mut made = Made { store: &mut store, kinds: &kinds };
    made.file(r);
    for _ in 0..r.between(1, 12) {
        match r.below(16) {
            0..=3 => made.file(r),
            4..=7 => made.twin(r),
            8 | 9 => made.near_twin(r),
            10 | 11 => made.unreferred(r),
            12 => made.deleted(r),
            13 => made.unfinished(r),
            14 => made.odd(r),
            _ => made.elsewhere(r),
        }
    }
    store
}

/// In any order; mostly one Metadata block and one Data block at least.
fn kinds(r: &mut Random, count: u32) -> Vec<u32> {
    let mut kinds: Vec<u32> = (0..count).map(|_| r.pick(&[METADATA, DATA])).collect();
    if count > 1 && !r.one_in(16) {
        let first = r.below(count);
        let other = (first + r.between(1, count - 1)) % count;
        (kinds[first as usize], kinds[other as usize]) = (METADATA, DATA);
        for block in (0..count).filter(|&block| block != first && block != other) {
            if r.one_in(4) {
                kinds[block as usize] = r.pick(&[EMPTY, UNKNOWN, UNDEFINED, UNDEFINED]);
            }
        }
    }
    kinds
}

/// The Finalized objects that listings of the blocks of a kind show, up to where a block cannot be listed.
pub fn listed(flash: &Flash, kind: u32) -> Vec<Header> {
    let mut found = Vec::new();
    for block in (0..flash.geometry.count).filter(|&block| flash.block_header(block).is_ok_and(|(of, _)| of == kind)) {
        let mut listing = Listing::new(flash.geometry, block);
        while let Ok(Some(header)) = flash.list_next(&mut listing) {
            found.extend((header.state == FINALIZED).then_some(header));
        }
    }
    found
}

/// As much of the payload as lies in the block.
pub fn bytes(flash: &Flash, header: Header) -> &[u8] {
    let g = flash.geometry;
    let from = header.offset as u64 + layout::header_len(g);
    let len = header.payload_or_none(g).min((g.size as u64).saturating_sub(from));
    flash.read(header.block, from, len).unwrap_or(&[])
}

const HASHES: [u32; 5] = [0, 7, 0x0403_0201, 0x0700_F08E, u32::MAX];

/// A store that is being made.
struct Made<'a> {
    store: &'a mut Store,
    kinds: &'a [u32],
}

impl Made<'_> {
    fn geometry(&self) -> Geometry {
        self.store.flash.geometry
    }

    /// A block of the kind.
    fn block(&self, r: &mut Random, kind: u32) -> Option<u32> {
        let of: Vec<u32> = (0..).zip(self.kinds).filter(|(_, &of)| of == kind).map(|(block, _)| block).collect();
        (!of.is_empty()).then(|| r.pick(&of))
    }

    fn put(&mut self, r: &mut Random, kind: u32, ty: u32, payload: &[u8]) -> Option<Place> {
        let block = self.block(r, kind)?;
        self.store.put(block, ty, payload)
    }

    /// None where it is the last in its block and has no byte behind its header, since no listing shows it then.
    fn data(&mut self, r: &mut Random, ty: u32) -> Option<Place> {
        let len = r.pick(&[0, 0, 1, 2, 3, 4, 5, 9]);
        let ty = if r.one_in(8) { r.pick(&TYPES) } else { ty };
        let payload = r.bytes(len);
        let at = self.put(r, DATA, ty, &payload)?;
        (at[1] as u64 + layout::header_len(self.geometry()) < self.geometry().size as u64).then_some(at)
    }

    /// An object that stands in a Data block already.
    fn there(&self, r: &mut Random) -> Option<Place> {
        let data = listed(&self.store.flash, DATA);
        (!data.is_empty()).then(|| r.pick(&data)).map(|header| [header.block, header.offset])
    }

    fn metadata(&self, r: &mut Random) -> Option<Header> {
        let metadata = listed(&self.store.flash, METADATA);
        (!metadata.is_empty()).then(|| r.pick(&metadata))
    }

    /// A hash, a name and up to four data objects, some of which other files have too.
    fn payload(&mut self, r: &mut Random) -> Option<Vec<u8>> {
        let name = if r.one_in(6) { self.there(r) } else { self.data(r, TYPES[2]) };
        let mut data = Vec::new();
        for _ in 0..r.pick(&[0, 0, 1, 1, 2, 3, 4]) {
            let at = match r.below(8) {
                0 | 1 => self.there(r),
                2 if !data.is_empty() => Some(r.pick(&data)),
                _ => self.data(r, TYPES[1]),
            };
            data.extend(at);
        }
        Some(payload(self.geometry(), r.pick(&HASHES), name?, &data))
    }

    fn file(&mut self, r: &mut Random) {
        if let Some(payload) = self.payload(r) {
            let ty = if r.one_in(8) { r.pick(&TYPES) } else { TYPES[0] };
            self.put(r, METADATA, ty, &payload);
        }
    }

    /// Metadata that is there, once more: in its own block, an earlier or a later one.
    fn twin(&mut self, r: &mut Random) {
        let Some(header) = self.metadata(r) else { return };
        let payload = bytes(&self.store.flash, header).to_vec();
        for _ in 0..r.pick(&[1, 1, 2]) {
            self.put(r, METADATA, header.kind, &payload);
        }
    }

    /// Metadata that differs from what is there in one thing, and points to objects as that does.
    fn near_twin(&mut self, r: &mut Random) {
        let g = self.geometry();
        let (Some(header), Some(at)) = (self.metadata(r), self.there(r)) else { return };
        let (mut ty, mut payload) = (header.kind, bytes(&self.store.flash, header).to_vec());
        let (location, len) = (location_into_bytes(g, at[0], at[1]), layout::location_len(g) as usize);
        match r.below(6) {
            0 => ty = r.pick(&TYPES),
            1 => payload[r.below(4) as usize] ^= 1 << r.below(8),
            2 => {
                let from = 4 + len * r.below(((payload.len() - 4) / len) as u32) as usize;
                payload[from..from + len].copy_from_slice(&location);
            }
            3 => payload.truncate(4 + len),
            4 => payload.extend(location),
            _ => payload[4..].rotate_left(len),
        }
        self.put(r, METADATA, ty, &payload);
    }

    fn unreferred(&mut self, r: &mut Random) {
        let ty = r.pick(&TYPES);
        self.data(r, ty);
    }

    /// A Deleted object; Deleted metadata often points to what no other does.
    fn deleted(&mut self, r: &mut Random) {
        if let Some(at) = self.any(r) {
            delete(&mut self.store.flash, at);
        }
    }

    /// An object with a size that is not finished, or with nothing but its type.
    fn unfinished(&mut self, r: &mut Random) {
        let open = r.one_in(2);
        let at = if open { self.empty(r) } else { self.any(r) };
        let Some(at) = at else { return };
        let g = self.geometry();
        poke(&mut self.store.flash, at, layout::finish_mark(g).0 as u32, 0xFF);
        if open {
            set_size(&mut self.store.flash, at, layout::unset(g));
        }
    }

    /// An object of a Data block or a Metadata block, whole metadata or any bytes.
    fn any(&mut self, r: &mut Random) -> Option<Place> {
        if r.one_in(2) {
            return self.data(r, TYPES[1]);
        }
        let len = r.below(12) as usize;
        let payload = if r.one_in(3) { r.bytes(len) } else { self.payload(r)? };
        self.put(r, METADATA, TYPES[0], &payload)
    }

    fn empty(&mut self, r: &mut Random) -> Option<Place> {
        let (kind, ty) = (r.pick(&[METADATA, DATA]), r.pick(&TYPES));
        self.put(r, kind, ty, &[])
    }

    /// A Finalized data object whose size is unset, or runs past its block.
    fn odd(&mut self, r: &mut Random) {
        let g = self.geometry();
        let Some(at) = self.put(r, DATA, TYPES[1], &[]) else { return };
        if r.one_in(2) {
            return set_size(&mut self.store.flash, at, layout::unset(g));
        }
        let past = g.size - at[1] - layout::header_len(g) as u32 + r.between(1, 20);
        if past < layout::unset(g) {
            set_size(&mut self.store.flash, at, past);
            self.store.close(at[0]);
        }
    }

    /// Metadata in a block that is not looked at.
    fn elsewhere(&mut self, r: &mut Random) {
        let kind = r.pick(&[EMPTY, UNKNOWN, UNDEFINED]);
        if self.kinds.contains(&kind) {
            if let Some(payload) = self.payload(r) {
                self.put(r, kind, TYPES[0], &payload);
            }
        }
    }
}

/// Makes one thing wrong: a location, an object that is referred to, a size, a listing, a block's kind, or any byte.
fn wrong(r: &mut Random, flash: &mut Flash) {
    match r.below(10) {
        0..=2 => dangle(r, flash),
        3 | 4 => lose(r, flash),
        5 | 6 => resize(r, flash),
        7 => break_listing(r, flash),
        8 => {
            let block = r.below(flash.geometry.count);
            let at = layout::block_type_at(flash.geometry) as u32;
            poke(flash, [block, 0], at, r.pick(&[0x55, 0xAA, 0xFF, 0x00]));
        }
        _ => images::damage(r, flash),
    }
}

/// One of the metadata objects; now and then the last one.
fn some_metadata(r: &mut Random, flash: &Flash) -> Option<Header> {
    let metadata = listed(flash, METADATA);
    if r.one_in(2) {
        return metadata.last().copied();
    }
    (!metadata.is_empty()).then(|| r.pick(&metadata))
}

/// Where a location of the object stands, from its header on, one by one.
fn location_at(r: &mut Random, flash: &Flash, header: Header) -> u32 {
    let (g, len) = (flash.geometry, layout::location_len(flash.geometry) as u32);
    let many = (bytes(flash, header).len() as u32).saturating_sub(4) / len;
    layout::header_len(g) as u32 + 4 + len * r.below(many)
}

/// A location that points to something else.
fn dangle(r: &mut Random, flash: &mut Flash) {
    let g = flash.geometry;
    let Some(header) = some_metadata(r, flash) else { return };
    let from = location_at(r, flash, header);
    let block = r.below(g.count);
    let spot = r.pick(&images::spots(flash, block));
    let to = match r.below(6) {
        0 => [numbers::block(r, g), numbers::edge(r, g)],
        1 => [block, *images::spots(flash, block).last().unwrap()],
        2 => [block, spot.wrapping_add(r.between(1, 3))],
        3 => [header.block, header.offset],
        4 => [g.count + r.below(3), spot],
        _ => [block, spot],
    };
    for (offset, byte) in (from..).zip(location_into_bytes(g, to[0], to[1])) {
        poke(flash, [header.block, header.offset], offset, byte);
    }
}

/// An object that is referred to, and is deleted, not finished or of another size.
fn lose(r: &mut Random, flash: &mut Flash) {
    let g = flash.geometry;
    let Some(header) = some_metadata(r, flash) else { return };
    let (from, len) = (location_at(r, flash, header), layout::location_len(g));
    let Ok(bytes) = flash.read(header.block, header.offset as u64 + from as u64, len) else { return };
    let Ok(at) = crate::model::header::location_from_bytes(g, bytes) else { return };
    if flash.read_header(at[0], at[1]).is_err() {
        return;
    }
    match r.below(4) {
        0 | 1 => delete(flash, at),
        2 => poke(flash, at, layout::finish_mark(g).0 as u32, 0xFF),
        _ => set_size(flash, at, r.pick(&[layout::unset(g), 0, 3, g.size])),
    }
}

/// A size of metadata that is unset, runs past the block, or leaves too little or a part of a location.
fn resize(r: &mut Random, flash: &mut Flash) {
    let g = flash.geometry;
    let Some(header) = some_metadata(r, flash) else { return };
    let least = 4 + layout::location_len(g) as u32;
    let fill = g.size.saturating_sub(header.offset + layout::header_len(g) as u32);
    let size = match r.below(8) {
        0 | 1 => layout::unset(g),
        2 => fill + r.below(4),
        3 => fill + r.pick(&[1, least, g.size]),
        4 => r.below(least + 1),
        5 => header.size + 1,
        6 => header.size.saturating_sub(1),
        _ => numbers::edge(r, g),
    };
    set_size(flash, [header.block, header.offset], size);
}

/// A header of a block that is none, in any block or behind its last object.
fn break_listing(r: &mut Random, flash: &mut Flash) {
    let g = flash.geometry;
    let block = r.below(g.count);
    let spots = images::spots(flash, block);
    let at = [block, if r.one_in(2) { *spots.last().unwrap() } else { r.pick(&spots) }];
    if at[1] >= g.size {
        return;
    }
    match r.below(3) {
        0 => poke(flash, at, layout::finish_mark(g).0 as u32, 0x7F),
        1 => poke(flash, at, 0, r.pick(&[0x00, 0x8C, 0x90, 0xFE])),
        _ => poke(flash, at, layout::delete_mark(g).0 as u32, r.pick(&[0x01, 0x0F, 0xF1])),
    }
}
