//! Random cases of the blocks.

use super::{images, numbers, values};
use crate::{
    case::Case,
    model::Flash,
    op::{Layer, Op, Place, Shape},
    random::Random,
};

pub fn make(r: &mut Random) -> Case {
    let op = r.pick(&Op::of_layer(Layer::Blocks));
    let g = numbers::geometry(r);
    let mut case = Case::of(op, g);
    let mut flash = images::image(r, g);
    let block = numbers::block(r, g);
    case.args = match op {
        Op::BlockHeaderWrite => vec![block, r.below(5), numbers::erase_count(r)],
        Op::SetBlockType => vec![block, r.between(2, 4)],
        Op::RecordAddUsedBytes => vec![numbers::edge(r, g)],
        _ => op.signature().args.iter().map(|_| block).collect(),
    };
    if matches!(op, Op::FormatBlock | Op::FormatStorage | Op::IsBlockDataEmpty) {
        for b in 0..g.count {
            clear(r, &mut flash, b);
        }
    }
    if op == Op::CalculateFreeableSpace && r.one_in(3) {
        for b in 0..g.count {
            images::damage_size(r, &mut flash, b);
        }
    }
    if op.signature().array == Shape::Record {
        let block = r.below(g.count);
        case.array = values::record(r, &flash, block).numbers().to_vec();
        if op == Op::RecordUpdateStatsAfterErase && r.one_in(4) {
            case.array[1] = u32::MAX;
        }
        if op == Op::RecordAddUsedBytes && r.one_in(4) {
            case.array[2] = u32::MAX - r.below(16);
        }
    }
    if op.signature().place != Place::Nothing {
        case.image = flash.image;
    }
    case
}

/// Makes a block's data (and now and then its header) erased, perhaps but for one byte.
fn clear(r: &mut Random, flash: &mut Flash, block: u32) {
    let g = flash.geometry;
    let start = (block * g.size) as usize;
    let end = start + g.size as usize;
    match r.below(8) {
        0 => flash.image[start..end].fill(0xFF),
        1 | 2 => flash.image[start + if g.granularity == 4 { 12 } else { 8 }..end].fill(0xFF),
        3 => {
            flash.image[start..end].fill(0xFF);
            let at = r.pick(&[
                start,
                start + 3,
                start + 4,
                start + 7,
                start + 8,
                start + 11,
                start + 12,
                end - 1,
                end - 2,
                end - 4,
            ]);
            flash.image[at] = r.byte();
        }
        4 => {
            let _ = Flash::erase(flash, block);
            let _ = flash.block_header_write(block, 4, numbers::erase_count(r));
            if r.one_in(2) {
                flash.image[r.between(start as u32 + 8, end as u32 - 1) as usize] = r.byte();
            }
        }
        _ => {}
    }
}
