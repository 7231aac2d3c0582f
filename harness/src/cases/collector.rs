//! Random cases of the collector.

use super::{images, numbers, values};
use crate::{
    case::Case,
    model::{
        blocks::{Record, DATA},
        header::{self, TYPES},
        layout, Flash,
    },
    op::{Layer, Op},
    random::Random,
};

pub fn make(r: &mut Random) -> Case {
    let op = r.pick(&Op::of_layer(Layer::Collector));
    let g = numbers::geometry(r);
    let mut case = Case::of(op, g);
    let mut flash = if r.one_in(2) { images::good(r, g) } else { images::image(r, g) };
    for block in 0..g.count {
        if r.one_in(3) {
            worn(r, &mut flash, block);
        }
    }
    for block in 0..g.count {
        let mut record = values::record(r, &flash, block);
        tame(r, &flash, block, &mut record);
        case.array.extend(record.numbers());
    }
    case.image = flash.image;
    case
}

/// A block as it is found before collecting: deleted objects, then perhaps one that was cut.
fn worn(r: &mut Random, flash: &mut Flash, block: u32) {
    let g = flash.geometry;
    let _ = flash.erase(block);
    let _ = flash.block_header_write(block, r.between(2, 4), numbers::erase_count(r));
    let mut at = layout::block_header_len(g) as u32;
    for _ in 0..r.below(4) {
        let len = r.below(10) as usize;
        let bytes = r.bytes(len);
        if flash.write_to(block, at, r.pick(&TYPES), &bytes).is_err() {
            return;
        }
        let Ok(mut header) = flash.read_header(block, at) else { return };
        if !r.one_in(5) {
            let _ = flash.update_state(&mut header, header::DELETED);
        }
        at += layout::align(g, header.total(g)) as u32;
    }
    if r.one_in(2) {
        let len = r.below(10) as usize;
        let bytes = r.bytes(len);
        flash.fuse = Some(r.below(8));
        let _ = flash.write_to(block, at, r.pick(&TYPES), &bytes);
        flash.fuse = None;
    }
}

/// Often takes away what would refuse at once, so that later passes are reached.
fn tame(r: &mut Random, flash: &Flash, block: u32, record: &mut Record) {
    if record.kind == 1 && !r.one_in(6) {
        record.kind = DATA;
    }
    if record.erase_count == u32::MAX && !r.one_in(3) {
        record.erase_count -= r.below(3);
    }
    let scanned = flash.scan_block(block).map_or(0, |scan| scan.used);
    if record.used < scanned && !r.one_in(3) {
        record.used = scanned + r.below(6);
    }
}
