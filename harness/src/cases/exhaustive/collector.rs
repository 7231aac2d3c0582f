//! Collector: short rows of objects in every state, records around every boundary, every fuse.

use super::{every_fuse, small, Visit, GRANULARITIES};
use crate::{
    case::Case,
    geometry::Geometry,
    model::{
        blocks::DATA,
        header::{DELETED, TYPES},
        layout, Flash,
    },
    op::{Layer, Op},
};

pub fn all(visit: Visit) -> bool {
    GRANULARITIES.into_iter().all(|granularity| {
        let g = small(granularity, 1, 1);
        rows().iter().all(|row| tables(&built(g, row), visit))
    })
}

/// What an object is left as.
#[derive(Clone, Copy)]
pub enum Left {
    Open,
    Sized,
    Finished,
    Deleted,
}

const LEFT: [Left; 4] = [Left::Open, Left::Sized, Left::Finished, Left::Deleted];

/// No object, one, or two.
pub fn rows() -> Vec<Vec<Left>> {
    let one = LEFT.iter().map(|&a| vec![a]);
    let two = LEFT.iter().flat_map(|&a| LEFT.iter().map(move |&b| vec![a, b]));
    std::iter::once(vec![]).chain(one).chain(two).collect()
}

pub fn built(g: Geometry, row: &[Left]) -> Flash {
    let mut flash = Flash::erased(g);
    flash.block_header_write(0, DATA, 5).unwrap();
    let mut at = layout::block_header_len(g) as u32;
    for left in row {
        let mut w = flash.writer_allocate(0, at, TYPES[1]).unwrap();
        let payload: &[u8] = if matches!(left, Left::Open) { &[] } else { &[1, 2, 3] };
        flash.writer_write(&mut w, payload).unwrap();
        match left {
            Left::Open => {}
            Left::Sized => {
                let cut = flash.fuse.replace(if g.granularity == 4 { 2 } else { 1 });
                let _ = flash.writer_finalize(&mut w);
                flash.fuse = cut;
            }
            Left::Finished | Left::Deleted => flash.writer_finalize(&mut w).unwrap(),
        }
        if matches!(left, Left::Deleted) {
            flash.update_state(&mut w.header, DELETED).unwrap();
        }
        at += layout::align(g, flash.read_header(0, at).unwrap().total(g)) as u32;
    }
    flash
}

fn tables(flash: &Flash, visit: Visit) -> bool {
    let g = flash.geometry;
    let scanned = flash.scan_block(0).map_or(0, |record| record.used);
    let full = g.size - layout::header_len(g) as u32;
    let useds = [scanned, scanned + 1, scanned - 1, 0, full - 1, full];
    Op::of_layer(Layer::Collector).into_iter().all(|op| {
        (0..=4).all(|kind| {
            [0, u32::MAX - 1, u32::MAX].into_iter().all(|count| {
                useds.into_iter().all(|used| {
                    (0..=1).all(|allow| {
                        let array = vec![kind, count, used, allow];
                        every_fuse(Case { array, image: flash.image.clone(), ..Case::of(op, g) }, visit)
                    })
                })
            })
        })
    })
}
