//! Blocks: every byte of a block header, every place of a stray byte, every fuse of a format.

use super::{every_fuse, small, Visit, GRANULARITIES};
use crate::{
    case::Case,
    geometry::Geometry,
    model::{layout, Flash},
    op::Op,
};

pub fn all(visit: Visit) -> bool {
    GRANULARITIES.into_iter().all(|granularity| {
        headers(small(granularity, 1, 1), visit)
            && strays(small(granularity, 2, 2), visit)
            && stores(small(granularity, 3, 2), visit)
            && records(small(granularity, 1, 1), visit)
    })
}

const COUNTS: [u32; 5] = [0, 1, 0x0102_0304, u32::MAX - 1, u32::MAX];

fn on(op: Op, flash: &Flash, args: Vec<u32>) -> Case {
    Case { args, image: flash.image.clone(), ..Case::of(op, flash.geometry) }
}

fn look(flash: &Flash, visit: Visit) -> bool {
    let ops = [Op::BlockHeaderRead, Op::IsBlockDataEmpty, Op::ScanBlock, Op::CalculateFreeableSpace, Op::FormatBlock];
    ops.into_iter().all(|op| visit(on(op, flash, vec![0])))
}

/// Each byte of the header takes every value.
fn headers(g: Geometry, visit: Visit) -> bool {
    (0..=4).all(|kind| {
        let mut flash = Flash::erased(g);
        flash.block_header_write(0, kind, 7).unwrap();
        (0..12).all(|at| {
            (0..=255).all(|byte| {
                let mut spoilt = flash.clone();
                spoilt.image[at] = byte;
                look(&spoilt, visit)
            })
        })
    })
}

/// One byte that is not FF, at every place, behind every kind of header and erase count.
fn strays(g: Geometry, visit: Visit) -> bool {
    (0..=4).all(|kind| {
        COUNTS.into_iter().all(|count| {
            let mut flash = Flash::erased(g);
            flash.block_header_write(0, kind, count).unwrap();
            (layout::block_header_len(g) as usize..=64).all(|at| {
                let mut spoilt = flash.clone();
                spoilt.image[at] = 0x8E;
                look(&spoilt, visit)
            })
        })
    })
}

/// Format, header and type stores with every fuse.
fn stores(g: Geometry, visit: Visit) -> bool {
    (0..=4).all(|kind| {
        COUNTS.into_iter().all(|count| {
            let mut flash = Flash::erased(g);
            flash.block_header_write(0, kind, count).unwrap();
            let mut used = flash.clone();
            used.image[30] = 0;
            (0..=2).all(|block| {
                every_fuse(on(Op::FormatBlock, &flash, vec![block]), visit)
                    && every_fuse(on(Op::FormatBlock, &used, vec![block]), visit)
                    && every_fuse(on(Op::BlockHeaderWrite, &flash, vec![block, kind, 9]), visit)
                    && (0..=5).all(|to| every_fuse(on(Op::SetBlockType, &flash, vec![block, to]), visit))
            }) && every_fuse(on(Op::FormatStorage, &flash, vec![]), visit)
                && every_fuse(on(Op::FormatStorage, &used, vec![]), visit)
        })
    })
}

/// The arithmetic of a record.
fn records(g: Geometry, visit: Visit) -> bool {
    let used = (0..=66).chain([u32::MAX - 65, u32::MAX - 3, u32::MAX]);
    used.into_iter().all(|used| {
        (0..=5).all(|kind| {
            COUNTS.into_iter().all(|count| {
                let of = |op, args| Case { args, array: vec![kind, count, used, 0], ..Case::of(op, g) };
                visit(of(Op::RecordFreeSpace, vec![]))
                    && visit(of(Op::RecordIsEmpty, vec![]))
                    && visit(of(Op::RecordUpdateStatsAfterErase, vec![]))
                    && (0..=4).all(|n| visit(of(Op::RecordAddUsedBytes, vec![n])))
            })
        })
    })
}
