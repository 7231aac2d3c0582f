//! Images: blocks formatted, objects written in chunks, finished, deleted, moved or cut, then perhaps damaged.

use super::numbers;
use crate::{
    geometry::Geometry,
    model::{
        blocks::{DATA, EMPTY, METADATA, UNDEFINED, UNKNOWN},
        collector::Collector,
        header::{self, Header, FINALIZED, TYPES},
        layout,
        listing::Listing,
        writer::Writer,
        Flash,
    },
    random::Random,
};

/// An image built by real sequences; half of them damaged afterwards.
pub fn image(r: &mut Random, g: Geometry) -> Flash {
    let mut flash = good(r, g);
    if r.one_in(2) {
        for _ in 0..r.between(1, 4) {
            damage(r, &mut flash);
        }
    }
    flash
}

/// An image that only real sequences (with cuts) made.
pub fn good(r: &mut Random, g: Geometry) -> Flash {
    let mut flash = Flash::erased(g);
    for block in 0..g.count {
        fill_block(r, &mut flash, block);
    }
    match r.below(24) {
        0..=2 => move_one(r, &mut flash),
        3 => format_one(r, &mut flash),
        4 | 5 => flash = collected(r, flash),
        _ => {}
    }
    flash.fuse = None;
    flash
}

fn fill_block(r: &mut Random, flash: &mut Flash, block: u32) {
    let kind = match r.below(20) {
        0 => return,
        1 => EMPTY,
        2 => UNKNOWN,
        3 | 4 => UNDEFINED,
        5..=9 => METADATA,
        _ => DATA,
    };
    let erase_count = numbers::erase_count(r);
    let _ = flash.block_header_write(block, kind, erase_count);
    if kind == UNKNOWN {
        let at = (block * flash.geometry.size + r.below(12)) as usize;
        flash.image[at] = r.byte();
    }
    if kind == UNDEFINED && !r.one_in(4) {
        return;
    }
    let mut at = layout::block_header_len(flash.geometry) as u32;
    for _ in 0..r.below(8) {
        let Some(next) = put_object(r, flash, block, at, kind) else { break };
        at = next;
    }
}

/// Writes one object; gives where the next one goes, unless this one was left unfinished or did not fit.
fn put_object(r: &mut Random, flash: &mut Flash, block: u32, at: u32, kind: u32) -> Option<u32> {
    let g = flash.geometry;
    let ty = if kind == METADATA { TYPES[0] } else { r.pick(&TYPES) };
    let ending = r.below(12);
    flash.fuse = (ending == 0).then(|| r.below(24));
    let room = (g.size as u64).saturating_sub(at as u64 + layout::header_len(g)) as u32;
    let payload = payload(r, g, ty, room);
    let written = write_chunks(r, flash, block, at, ty, &payload);
    let finished = match written {
        Some(mut w) if ending > 1 => flash.writer_finalize(&mut w).ok().map(|()| w.header),
        _ => None,
    };
    if let Some(mut header) = finished {
        if r.one_in(3) {
            let _ = flash.update_state(&mut header, header::DELETED);
        }
    }
    flash.fuse = None;
    let header = finished?;
    Some(at + layout::align(g, header.total(g)) as u32)
}

/// Allocates and writes, in up to three chunks.
fn write_chunks(r: &mut Random, flash: &mut Flash, block: u32, at: u32, ty: u32, payload: &[u8]) -> Option<Writer> {
    let mut w = flash.writer_allocate(block, at, ty).ok()?;
    let mut rest = payload;
    for _ in 0..r.below(3) {
        let (now, later) = rest.split_at(r.below(rest.len() as u32 + 1) as usize);
        flash.writer_write(&mut w, now).ok()?;
        rest = later;
    }
    flash.writer_write(&mut w, rest).ok()?;
    Some(w)
}

/// Bytes for an object: for metadata often a hash, a name and a list.
fn payload(r: &mut Random, g: Geometry, ty: u32, room: u32) -> Vec<u8> {
    if ty == TYPES[0] && !r.one_in(4) {
        let mut bytes = r.bytes(4);
        for _ in 0..r.between(1, 4) {
            bytes.extend(header::location_into_bytes(g, r.below(g.count), r.below(g.size)));
        }
        bytes.truncate(room as usize);
        return bytes;
    }
    let len = match r.below(16) {
        0 => room,
        1 => room.saturating_sub(r.below(6)),
        2 => room.saturating_sub(layout::header_len(g) as u32 + r.below(5)),
        3 => r.below(room.min(300) + 1),
        4..=6 => 0,
        _ => r.below(14),
    };
    let len = len.min(room) as usize;
    if r.one_in(4) {
        return vec![r.pick(&[0xFF, 0x00, 0x8E, 0xF0]); len];
    }
    r.bytes(len)
}

/// Moves a finished object somewhere, often cut on the way.
fn move_one(r: &mut Random, flash: &mut Flash) {
    let from = r.below(flash.geometry.count);
    let to = r.below(flash.geometry.count);
    let Some(header) = finished(r, flash, from) else { return };
    let end = *spots(flash, to).last().unwrap();
    flash.fuse = (!r.one_in(3)).then(|| r.below(40));
    let _ = flash.move_object(header, to, end);
    flash.fuse = None;
}

/// Formats a block, often cut on the way.
fn format_one(r: &mut Random, flash: &mut Flash) {
    flash.fuse = (!r.one_in(3)).then(|| r.below(10));
    let _ = flash.format_block(r.below(flash.geometry.count));
}

/// Collects by a fresh table, often cut on the way.
fn collected(r: &mut Random, mut flash: Flash) -> Flash {
    let scan = |block| flash.scan_block(block).map_or([EMPTY, 0, 0, 0], |record| record.numbers());
    let table: Vec<u32> = (0..flash.geometry.count).flat_map(scan).collect();
    flash.fuse = (!r.one_in(3)).then(|| r.below(20));
    let mut collector = Collector::new(flash, &table);
    let _ = collector.run();
    collector.flash
}

/// A listed Finalized object of the block.
pub fn finished(r: &mut Random, flash: &Flash, block: u32) -> Option<Header> {
    let headers = spots(flash, block).into_iter().filter_map(|at| flash.read_header(block, at).ok());
    let found: Vec<Header> = headers.filter(|header| header.state == FINALIZED).collect();
    (!found.is_empty()).then(|| r.pick(&found))
}

/// The offsets that listing visits, the one it stops at last.
pub fn spots(flash: &Flash, block: u32) -> Vec<u32> {
    let mut listing = Listing::new(flash.geometry, block);
    let mut found = vec![listing.offset];
    while let Ok(Some(_)) = flash.list_next(&mut listing) {
        found.push(listing.offset);
    }
    found
}

/// An offset in a block: mostly one that listing visits.
pub fn offset(r: &mut Random, flash: &Flash, block: u32) -> u32 {
    let g = flash.geometry;
    let at = r.pick(&spots(flash, block.min(g.count - 1)));
    match r.below(16) {
        0 => r.below(g.size + 8),
        1 => (g.size + 4).wrapping_sub(r.below(28)),
        2 => at.wrapping_add(r.below(5)).wrapping_sub(2),
        3 => numbers::edge(r, g),
        _ => at,
    }
}

/// Where the next object would go, mostly; now and then where its header does not fit.
pub fn end(r: &mut Random, flash: &Flash, block: u32) -> u32 {
    let g = flash.geometry;
    match r.below(12) {
        0..=3 => offset(r, flash, block),
        4 => (g.size - r.below(layout::header_len(g) as u32 + 1)) / layout::width(g) as u32 * layout::width(g) as u32,
        _ => *spots(flash, block.min(g.count - 1)).last().unwrap(),
    }
}

const BYTES: [u8; 20] =
    [0xFF, 0x00, 0xF0, 0xF1, 0x0F, 0x8C, 0x8D, 0x8E, 0x8F, 0x80, 0x7F, 0x55, 0xAA, 0xBA, 1, 3, 4, 7, 0xFE, 0xFD];

/// Spoils one place: a header's field, a size, an erase count, or any byte.
pub fn damage(r: &mut Random, flash: &mut Flash) {
    let g = flash.geometry;
    let block = r.below(g.count);
    let start = (block * g.size) as usize;
    let at = r.pick(&spots(flash, block)).min(g.size - 1) as usize;
    match r.below(8) {
        0 => flash.image[start + r.below(g.size) as usize] = r.byte(),
        1 | 2 => {
            let i = (at + r.below(layout::header_len(g) as u32) as usize).min(g.size as usize - 1);
            flash.image[start + i] = r.pick(&BYTES);
        }
        3 => {
            let i = at + r.pick(&[layout::finish_mark(g).0, layout::delete_mark(g).0]) as usize;
            if i < g.size as usize {
                flash.image[start + i] = r.pick(&[0xFF, 0x00, 0xF0]);
            }
        }
        4 | 5 => damage_size(r, flash, block),
        6 => {
            let i = start + r.below(12) as usize;
            flash.image[i] = r.pick(&BYTES);
        }
        _ => {
            let count = numbers::erase_count(r).to_le_bytes();
            flash.image[start + 4..start + 8].copy_from_slice(&count);
        }
    }
}

/// Sets an object's size so that it ends near the block's end, or unset, or any.
pub fn damage_size(r: &mut Random, flash: &mut Flash, block: u32) {
    let g = flash.geometry;
    let at = r.pick(&spots(flash, block));
    let i = at + layout::size_at(g) as u32;
    if i + g.s as u32 > g.size {
        return;
    }
    let fill = g.size.saturating_sub(at + layout::header_len(g) as u32);
    let size = match r.below(6) {
        0 => layout::unset(g),
        1 => fill,
        2 | 3 => fill.wrapping_add(4).wrapping_sub(r.below(12)),
        4 => r.below(20),
        _ => numbers::edge(r, g),
    };
    let i = (block * g.size + i) as usize;
    flash.image[i..i + g.s as usize].copy_from_slice(&size.to_le_bytes()[..g.s as usize]);
}
