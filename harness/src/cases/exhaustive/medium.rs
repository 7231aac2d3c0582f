//! All offsets x lengths x granularities, every fuse; the geometry's rules over their boundaries.

use super::{every_fuse, small, Visit, GRANULARITIES};
use crate::{case::Case, geometry::Geometry, op::Op};

pub fn all(visit: Visit) -> bool {
    GRANULARITIES.into_iter().all(|granularity| {
        reads_and_writes(granularity, visit) && erases(granularity, visit) && aligns(granularity, visit)
    }) && geometries(visit)
}

fn reads_and_writes(granularity: u8, visit: Visit) -> bool {
    let g = small(granularity, 1, 1);
    for offset in 0..=66 {
        for len in 0..=66usize {
            let mut case = Case::of(Op::Read, g);
            case.image = (0..64u32).map(|i| (i * 37 + 11) as u8 | 0x11).collect();
            case.args = vec![0, offset];
            case.bytes = vec![0xA5; len];
            if !visit(case.clone()) {
                return false;
            }
            case.op = Op::Write;
            case.bytes = (0..len as u32).map(|i| (i * 91 + 7) as u8).collect();
            if !every_fuse(case, visit) {
                return false;
            }
        }
    }
    true
}

fn erases(granularity: u8, visit: Visit) -> bool {
    (1..=3).all(|count| {
        (0..=count).all(|block| {
            let g = small(granularity, 1, count);
            let case = Case { args: vec![block], image: vec![0x3C; g.room()], ..Case::of(Op::Erase, g) };
            every_fuse(case, visit)
        })
    })
}

/// Every length that a block can have, and the longest that can be named.
fn aligns(granularity: u8, visit: Visit) -> bool {
    let g = small(granularity, 1, 1);
    let numbers = (0..=65_540).chain(u32::MAX - 9..=u32::MAX);
    numbers.into_iter().all(|n| visit(Case { args: vec![n], ..Case::of(Op::Align, g) }))
}

const SIZES: [u32; 16] = [0, 4, 60, 63, 64, 65, 66, 68, 256, 257, 260, 65_532, 65_535, 65_536, 65_540, u32::MAX];
const COUNTS: [u32; 9] = [0, 1, 2, 256, 257, 65_536, 65_537, 262_144, u32::MAX];

fn geometries(visit: Visit) -> bool {
    for granularity in [0, 1, 2, 3, 4, 5, 8, 255] {
        for (s, c) in (0..=4).flat_map(|s| (0..=4).map(move |c| (s, c))) {
            for (size, count) in SIZES.into_iter().flat_map(|size| COUNTS.map(|count| (size, count))) {
                let g = Geometry { granularity, s, c, strict: 0, size, count };
                let room = size as u64 * count as u64;
                let image = if room <= 1024 { vec![0xFF; room as usize] } else { Vec::new() };
                if !visit(Case { image, ..Case::of(Op::Check, g) }) {
                    return false;
                }
            }
        }
    }
    true
}
