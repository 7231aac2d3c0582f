//! Small cases counted through: every offset, length, byte, mark and fuse on blocks of 64 bytes.

mod batch;
mod blocks;
mod collector;
mod medium;
mod objects;
mod storage;
mod strict;
mod sweep;

use crate::{case::Case, geometry::Geometry, op::Layer};

/// Takes cases one by one; false ends the row.
pub type Visit<'a> = &'a mut dyn FnMut(Case) -> bool;

/// All small cases of a layer. False where the visitor ended it.
pub fn all(layer: Layer, visit: Visit) -> bool {
    match layer {
        Layer::Medium => medium::all(visit),
        Layer::Objects => objects::all(visit),
        Layer::Blocks => blocks::all(visit),
        Layer::Collector => collector::all(visit),
        Layer::Batch => batch::all(visit),
        Layer::Storage => storage::all(visit),
        Layer::Sweep => sweep::all(visit),
    }
}

/// All small cases of a layer under the strict mark.
pub fn strict(layer: Layer, visit: Visit) -> bool {
    strict::all(layer, visit)
}

const GRANULARITIES: [u8; 3] = [0, 1, 4];

fn small(granularity: u8, s: u8, count: u32) -> Geometry {
    Geometry { granularity, s, c: 1, strict: 0, size: 64, count }
}

/// The case without a fuse and with every fuse from 0 to one past its last unit.
fn every_fuse(case: Case, visit: Visit) -> bool {
    let units = super::units(&case);
    (0..=units + 1).all(|fuse| visit(Case { fuse: Some(fuse), ..case.clone() })) && visit(case)
}
