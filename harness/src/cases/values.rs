//! Values to hand in: headers, writers, readers, metadata and records, as a real sequence leaves them, and any others.

use super::{images, numbers};
use crate::{
    geometry::Geometry,
    model::{
        blocks::{Record, EMPTY},
        header::{Header, FREE, NO_TYPE, TYPES},
        layout,
        metadata::Metadata,
        reader::Reader,
        writer::Writer,
        Flash,
    },
    random::Random,
};

/// A header: mostly as read from the image, sometimes stale, sometimes any.
pub fn header(r: &mut Random, flash: &Flash) -> Header {
    let g = flash.geometry;
    let block = numbers::block(r, g);
    let offset = images::offset(r, flash, block);
    if r.one_in(6) {
        return any_header(r, g, block, offset);
    }
    let Ok(mut header) = flash.read_header(block, offset) else { return any_header(r, g, block, offset) };
    if header.state != FREE && r.one_in(8) {
        header.state = r.between(1, 3);
    }
    if r.one_in(12) {
        header.size = size(r, g);
    }
    if r.one_in(16) {
        header.offset = images::offset(r, flash, block);
    }
    header
}

/// Any header that is possible.
pub fn any_header(r: &mut Random, g: Geometry, block: u32, offset: u32) -> Header {
    let kind = r.pick(&[TYPES[0], TYPES[1], TYPES[2], TYPES[1], NO_TYPE]);
    let state = if kind == NO_TYPE { FREE } else { r.between(1, 3) };
    Header { kind, state, size: size(r, g), block, offset }
}

/// A payload size: unset, small, near the block's end, any.
pub fn size(r: &mut Random, g: Geometry) -> u32 {
    match r.below(5) {
        0 => layout::unset(g),
        1 => r.below(24),
        2 => r.below(g.size),
        _ => numbers::edge(r, g),
    }
}

/// A writer that allocate and writes gave, on the image as they left it; or any writer.
pub fn writer(r: &mut Random, flash: &mut Flash) -> Writer {
    if r.one_in(3) {
        return any_writer(r, flash);
    }
    let g = flash.geometry;
    let block = r.below(g.count);
    let at = images::end(r, flash, block);
    let Ok(mut w) = flash.writer_allocate(block, at, r.pick(&TYPES)) else { return any_writer(r, flash) };
    for _ in 0..r.below(4) {
        let room = w.space(g).unwrap_or(0);
        let len = if r.one_in(6) { room } else { r.below(room.min(12) + 1) };
        let bytes = r.bytes(len as usize);
        if flash.writer_write(&mut w, &bytes).is_err() {
            return any_writer(r, flash);
        }
    }
    if r.one_in(10) {
        let _ = flash.writer_finalize(&mut w);
    }
    match r.below(32) {
        0 | 1 => w.header.size = size(r, g),
        2 => w.header.offset = w.header.offset.wrapping_add(r.between(1, 3)),
        3 => w.header.block = g.count,
        _ => {}
    }
    w
}

fn any_writer(r: &mut Random, flash: &Flash) -> Writer {
    let g = flash.geometry;
    let mut header = header(r, flash);
    if header.kind != NO_TYPE && !r.one_in(3) {
        (header.state, header.size) = (1, layout::unset(g));
    }
    let cursor = match r.below(6) {
        0 => 0,
        1 => r.below(9) * 4,
        2 => r.below(20),
        3 => g.size.saturating_sub(header.offset).saturating_sub(r.below(24)),
        4 => r.below(g.size + 4),
        _ => r.pick(&[254, 255, 256, 65_535, 65_536]),
    };
    if r.one_in(8) {
        header.offset = header.offset.wrapping_add(r.between(1, 3));
    }
    let held = if g.granularity == 4 { r.below(4) } else { 0 };
    Writer { header, cursor: cursor.min(65_536), tail: r.bytes(held as usize) }
}

/// Twelve numbers, with something in the tail's idle places now and then.
pub fn writer_numbers(r: &mut Random, w: &Writer) -> Vec<u32> {
    let mut n = w.numbers();
    if r.one_in(4) {
        for place in &mut n[7 + w.tail.len()..11] {
            *place = r.byte() as u32;
        }
    }
    if r.one_in(30) {
        n[11] = 1;
    }
    n
}

/// A reader that new and reads gave, or any reader.
pub fn reader(r: &mut Random, flash: &Flash) -> Reader {
    let g = flash.geometry;
    let block = r.below(g.count);
    let at = images::offset(r, flash, block);
    let made = if r.one_in(3) { None } else { flash.reader_new(block, at, r.one_in(2)).ok() };
    let Some(mut reader) = made else {
        let header = header(r, flash);
        let len = header.payload_or_none(g) as u32;
        let cursor = match r.below(4) {
            0 => len.saturating_add(r.below(3)),
            1 => numbers::edge(r, g),
            _ => r.below(len.saturating_add(1)),
        };
        return Reader { header, cursor: cursor.min(65_536) };
    };
    if !r.one_in(3) {
        let _ = flash.reader_read(&mut reader, r.below(12) as usize);
    }
    reader
}

/// Metadata as read at a place, perhaps some locations on; or any.
pub fn metadata(r: &mut Random, flash: &Flash) -> Metadata {
    let g = flash.geometry;
    let block = r.below(g.count);
    let at = images::offset(r, flash, block);
    let made = if r.one_in(4) { None } else { flash.location_read_metadata(block, at).ok() };
    let Some(mut metadata) = made else {
        let header = header(r, flash);
        let cursor = if r.one_in(2) { r.below(30) } else { numbers::edge(r, g).min(65_536) };
        return Metadata {
            header,
            path_hash: r.number() as u32,
            name: [numbers::edge(r, g), numbers::edge(r, g)],
            cursor,
        };
    };
    for _ in 0..r.below(3) {
        let _ = flash.next_object_location(&mut metadata);
    }
    metadata
}

/// A block's record: what a scan says, or that with a field changed, or any.
pub fn record(r: &mut Random, flash: &Flash, block: u32) -> Record {
    let mut record = flash.scan_block(block).unwrap_or(Record {
        kind: flash.block_header(block).map_or(EMPTY, |(kind, _)| kind),
        erase_count: flash.block_header(block).map_or(0, |(_, count)| count),
        used: r.pick(&[0, 8, 12]),
        allow: r.below(2),
    });
    if r.one_in(2) {
        return record;
    }
    for _ in 0..r.between(1, 3) {
        change_record(r, flash, block, &mut record);
    }
    record
}

fn change_record(r: &mut Random, flash: &Flash, block: u32, record: &mut Record) {
    let g = flash.geometry;
    match r.below(6) {
        0 => record.kind = r.below(5),
        1 => record.erase_count = numbers::erase_count(r),
        2 => record.allow = r.below(2),
        3 => record.used = g.size.wrapping_add(2).wrapping_sub(r.below(8 + 2 * layout::header_len(g) as u32)),
        4 => {
            let at = r.pick(&images::spots(flash, block.min(g.count - 1)));
            record.used = (at + layout::header_len(g) as u32 + r.below(12)).wrapping_sub(r.below(4));
        }
        _ => record.used = if r.one_in(2) { numbers::edge(r, g) } else { r.below(g.size) },
    }
}
