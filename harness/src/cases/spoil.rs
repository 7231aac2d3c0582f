//! Makes a case wrong in what is tested first: geometry, room, impossible values.

use super::batch::NO_TYPES;
use crate::{
    case::Case,
    op::{Op, Place, Shape},
    random::Random,
};

pub fn spoil(r: &mut Random, case: &mut Case) {
    match r.below(40) {
        0 => geometry(r, case),
        1 => room(r, case),
        5..=7 => impossible(r, case),
        3 => {
            // several at once, for the order of the tests
            geometry(r, case);
            room(r, case);
            if r.one_in(2) {
                case.geometry =
                    crate::geometry::Geometry { granularity: case.geometry.granularity % 5, ..case.geometry };
            }
            impossible(r, case);
        }
        4 => {
            room(r, case);
            impossible(r, case);
        }
        _ => {}
    }
}

fn geometry(r: &mut Random, case: &mut Case) {
    let g = &mut case.geometry;
    match r.below(6) {
        0 => g.granularity = r.pick(&[2, 3, 5, 8, 255]),
        1 => g.s = r.pick(&[0, 4, 1, 255, 64]),
        2 => g.c = r.pick(&[0, 4, 255, 64]),
        3 => g.size = r.pick(&[0, 4, 60, 62, 63, 65, 66, 65_540, 65_537, 131_072, 1 << 31, u32::MAX, u32::MAX - 3]),
        4 => g.count = r.pick(&[0, u32::MAX, 262_145, 1 << 26, 257, 65_537]),
        _ => {
            g.s = 1;
            g.size = r.pick(&[260, 1024, 65_536]);
        }
    }
}

fn room(r: &mut Random, case: &mut Case) {
    let shape = case.op.signature().array;
    if shape == Shape::Batch && r.one_in(2) {
        list(r, case);
    } else if shape == Shape::Table && r.one_in(2) {
        let len = case.array.len();
        let wrong = r.pick(&[len - 1, len + 1, len - 4, len + 4, 0, len / 2]);
        case.array.resize(wrong, 0);
    } else if shape == Shape::Words && r.one_in(2) {
        let len = case.array.len();
        let wrong = r.pick(&[len - 1, len + 1, 0, len / 4, 2 * len]);
        case.array.resize(wrong, 0xA5A5_A5A5);
    } else if case.op.signature().place != Place::Nothing {
        let (len, size) = (case.image.len(), case.geometry.size as usize);
        let wrong = r.pick(&[len - 1, len + 1, 0, len + size.min(70_000), len - size.min(len), len / 2, len + 4]);
        case.image.resize(wrong, 0xFF);
    }
}

/// A part of a record too many, or more records than a call takes.
fn list(r: &mut Random, case: &mut Case) {
    let len = case.array.len();
    let wrong = r.pick(&[len + 1, len + 2, len + 3, 257, 260, 264, 1024]);
    let kind = r.pick(&[0x8F, 0x8E, 0x00]);
    case.array.resize(wrong, kind);
}

fn impossible(r: &mut Random, case: &mut Case) {
    let big = r.pick(&[65_537, 65_540, u32::MAX, 1 << 24]);
    let wide = r.pick(&[5, 6, 255, 256, u32::MAX]);
    match case.op.signature().array {
        Shape::Header => header(r, case),
        Shape::Writer => match r.below(6) {
            0 => header(r, case),
            1 => case.array[5] = big,
            2 => case.array[6] = r.pick(&[1, 2, 3, 4, 5, 255, u32::MAX]),
            3 => case.array[7 + r.below(4) as usize] = r.pick(&[256, 257, u32::MAX]),
            4 => case.array[11] = r.pick(&[2, 255, 256, u32::MAX]),
            _ => case.array[11] = 1,
        },
        Shape::Reader if r.one_in(2) => case.array[5] = big,
        Shape::Metadata if r.one_in(2) => case.array[8] = big,
        Shape::Reader | Shape::Metadata => header(r, case),
        Shape::Record | Shape::Table if !case.array.is_empty() => {
            let record = 4 * r.below(case.array.len() as u32 / 4) as usize;
            let field = if r.one_in(2) { 0 } else { 3 };
            if record + field < case.array.len() {
                case.array[record + field] = if field == 0 { wide } else { r.pick(&[2, 3, 255, 256, u32::MAX]) };
            }
        }
        Shape::Batch if !case.array.is_empty() => {
            let record = 4 * r.below(case.array.len().div_ceil(4) as u32) as usize;
            case.array[record] = r.pick(&NO_TYPES);
        }
        _ => {}
    }
    match case.op {
        Op::UpdateState => case.args[0] = r.pick(&[4, 5, 128, 255]),
        Op::WriterAllocate | Op::WriteTo => case.args[2] = r.pick(&[0, 0x8C, 0x90, 0xFF, 0x0E, 1]),
        Op::BlockHeaderWrite => case.args[1] = wide,
        Op::SetBlockType => case.args[1] = r.pick(&[0, 1, wide]),
        _ => {}
    }
}

/// A header that no image gives.
fn header(r: &mut Random, case: &mut Case) {
    match r.below(4) {
        0 => (case.array[0], case.array[1]) = (0xFF, r.pick(&[1, 2, 3, 4])),
        1 => (case.array[0], case.array[1]) = (r.pick(&[0x8D, 0x8E, 0x8F]), r.pick(&[0, 4, 5, 255, 256, u32::MAX])),
        2 => case.array[0] = r.pick(&[0, 0x8C, 0x90, 0x18E, 0xFFFF_FF8E, 0x1FF, u32::MAX, 0x0E]),
        _ => case.array[1] = r.pick(&[4, 5, 255, 256, 257, u32::MAX]),
    }
}
