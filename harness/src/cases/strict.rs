//! The marked mode: a case made as the others are, with the strict mark, on an image where the units that the call stores are
//! erased or not.

use crate::{
    case::Case,
    geometry::Geometry,
    model::{self, layout},
    op::{Lent, Op, Shape},
    random::Random,
};

/// Numbers that are no mark: 6.
pub const NO_MARKS: [u32; 9] = [2, 3, 127, 254, 255, 256, 257, 1 << 31, u32::MAX];

pub fn mark(r: &mut Random, case: &mut Case) {
    case.geometry.strict = if r.one_in(40) { r.pick(&NO_MARKS) } else { 1 };
    if !case.op.stores() {
        return;
    }
    if r.one_in(4) {
        blank(r, case);
    }
    if r.one_in(2) {
        erase(case);
    }
    if r.one_in(3) {
        program(r, case);
    }
}

/// A run of the data, or a held tail, becomes FF: such a unit is never refused, and takes power as any does.
fn blank(r: &mut Random, case: &mut Case) {
    let signature = case.op.signature();
    if signature.array == Shape::Writer && r.one_in(4) {
        let held = case.array[6] as usize;
        case.array[7..7 + held].fill(0xFF);
    }
    let len = case.bytes.len() as u32;
    if signature.lent != Lent::Source || len == 0 {
        return;
    }
    let from = if r.one_in(2) { 0 } else { r.below(len) };
    let to = if r.one_in(2) { len } else { r.between(from, len) };
    case.bytes[from as usize..to as usize].fill(0xFF);
}

/// Makes the place of a plain store erased, which it seldom is in a block that is in use.
fn erase(case: &mut Case) {
    let g = case.geometry;
    let (at, len) = match case.op {
        Op::Write => (case.args[1] as u64, case.bytes.len() as u64),
        Op::BlockHeaderWrite => (0, layout::block_header_len(g)),
        Op::SetBlockType => (layout::block_type_at(g), 1),
        _ => return,
    };
    let from = (case.args[0] as u64 * g.size as u64 + at) as usize;
    if let Some(place) = case.image.get_mut(from..from + layout::align(g, len) as usize) {
        place.fill(0xFF);
    }
}

/// Programs one byte of a unit that the call would store, so that any of its stores can meet one.
fn program(r: &mut Random, case: &mut Case) {
    let after = stored(case);
    let changed: Vec<usize> = (0..after.len()).filter(|&i| after[i] != case.image[i]).collect();
    if changed.is_empty() {
        return;
    }
    let width = layout::width(case.geometry) as usize;
    let at = r.pick(&changed) / width * width + r.below(width as u32) as usize;
    case.image[at] = if r.one_in(2) { after[at] } else { r.pick(&[0x00, 0x7F, 0xFE, 0xF0, 0x8E]) };
}

/// The image that the call leaves with power, without the mark and with 00 for its data: another one in every unit that it
/// stores, also where its data is FF.
pub fn stored(case: &Case) -> Vec<u8> {
    let geometry = Geometry { strict: 0, ..case.geometry };
    let bytes = vec![0; case.bytes.len()];
    model::run(&Case { geometry, fuse: None, bytes, ..case.clone() }).outcome.image
}
