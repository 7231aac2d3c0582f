//! Under the strict mark: each function that stores, with every byte of every unit that it stores programmed or not, at every
//! fuse; stores of up to three units, FF among them; the mark's own rules; and some of every layer's other small cases.

use super::{
    collector::{built, rows},
    every_fuse,
    objects::{block, data, first},
    small, Visit,
};
use crate::{
    case::Case,
    cases::{batch::laid, strict::stored, strict::NO_MARKS},
    geometry::Geometry,
    model::{
        blocks::DATA,
        header::{NO_TYPE, TYPES},
        layout, Flash,
    },
    op::{Layer, Op},
};

const WORDS: [u8; 2] = [1, 4];

/// One in so many of the small cases that are made for the other mode.
const STEP: u64 = 13;

pub fn all(layer: Layer, visit: Visit) -> bool {
    // the collector's rows are of sizes of one byte
    let widths: &[u8] = if layer == Layer::Collector { &[1] } else { &[1, 3] };
    let own = WORDS.into_iter().all(|granularity| {
        widths.iter().all(|&s| {
            let g = |count| Geometry { strict: 1, ..small(granularity, s, count) };
            match layer {
                Layer::Medium => stores(g(1), visit) && ranges(g(1), visit) && erases(g(2), visit),
                Layer::Objects => objects(g(1), visit) && writers(g(1), visit) && copies(g(2), visit),
                Layer::Blocks => blocks(g(2), visit),
                Layer::Collector => collector(g(1), visit),
                Layer::Batch => batches(g(1), visit),
                Layer::Storage | Layer::Sweep => true,
            }
        })
    });
    own && (layer != Layer::Medium || marks(visit)) && some(layer, visit)
}

/// Some of the layer's small cases, with the mark.
fn some(layer: Layer, visit: Visit) -> bool {
    let mut seen = 0;
    super::all(layer, &mut |case| {
        seen += 1;
        seen % STEP != 0 || visit(Case { geometry: Geometry { strict: 1, ..case.geometry }, ..case })
    })
}

/// The case, and with every choice of bytes of every unit that it stores: 00, 7F, or what it would store.
fn every_unit(case: Case, visit: Visit) -> bool {
    let width = layout::width(case.geometry) as usize;
    let after = stored(&case);
    let units = (0..after.len()).step_by(width).filter(|&at| after[at..at + width] != case.image[at..at + width]);
    let met = |at: usize, bytes: u32, old: Option<u8>| {
        let mut met = case.clone();
        for i in (0..width).filter(|i| bytes >> i & 1 == 1) {
            met.image[at + i] = old.unwrap_or(after[at + i]);
        }
        met
    };
    units.into_iter().all(|at| {
        (1..1 << width)
            .all(|bytes| [Some(0), Some(0x7F), None].into_iter().all(|old| every_fuse(met(at, bytes, old), visit)))
    }) && every_fuse(case.clone(), visit)
}

fn on(op: Op, flash: &Flash, args: Vec<u32>) -> Case {
    Case { args, image: flash.image.clone(), ..Case::of(op, flash.geometry) }
}

/// A unit's bytes: those that are chosen get a number, the others are FF.
fn unit(width: usize, bytes: u32, number: u8) -> Vec<u8> {
    (0..width).map(|i| if bytes >> i & 1 == 1 { number } else { 0xFF }).collect()
}

/// One unit with every choice of old and new bytes, then two and three units, each erased or not, with data or with FF.
fn stores(g: Geometry, visit: Visit) -> bool {
    let width = layout::width(g) as usize;
    let full = (1 << width) - 1;
    let write = |old: &[Vec<u8>], new: &[Vec<u8>]| {
        let mut flash = Flash::erased(g);
        let old = old.concat();
        flash.image[8..8 + old.len()].copy_from_slice(&old);
        Case { bytes: new.concat(), ..on(Op::Write, &flash, vec![0, 8]) }
    };
    let one = (0..=full).all(|old| {
        (0..=full).all(|new| {
            [0x00, 0x7F].into_iter().all(|byte| {
                let mut case = write(&[unit(width, old, byte)], &[unit(width, new, 0xF0)]);
                (0..width).all(|_| every_fuse(case.clone(), visit) && case.bytes.pop().is_some())
            })
        })
    });
    let pick = |n: u32| unit(width, if n & 1 == 1 { full } else { 0 }, 0x41);
    let more = (2..=3).all(|units| {
        (0..1u32 << (2 * units)).all(|n| {
            let (old, new): (Vec<_>, Vec<_>) =
                (0..units).map(|i| (pick(n >> (2 * i)), pick(n >> (2 * i + 1)))).collect();
            every_fuse(write(&old, &new), visit)
        })
    });
    one && more
}

/// Every offset and many lengths where everything is programmed: range and alignment come first.
fn ranges(g: Geometry, visit: Visit) -> bool {
    let flash = Flash::new(g, vec![0x41; g.room()], None);
    (0..=66).all(|offset| {
        [0, 1, 2, 3, 4, 5, 8, 60, 63, 64, 65].into_iter().all(|len| {
            (0..=1).all(|block| {
                let case = Case { bytes: data(len), ..on(Op::Write, &flash, vec![block, offset]) };
                visit(Case { fuse: Some(0), ..case.clone() }) && visit(case)
            })
        })
    })
}

/// An erase of what is programmed.
fn erases(g: Geometry, visit: Visit) -> bool {
    let flash = Flash::new(g, vec![0x3C; g.room()], None);
    (0..=2).all(|block| every_fuse(on(Op::Erase, &flash, vec![block]), visit))
}

/// Every mark with every granularity, also where the room or another number of the geometry is wrong.
fn marks(visit: Visit) -> bool {
    [1].into_iter().chain(NO_MARKS).all(|strict| {
        [0, 1, 2, 3, 4, 5, 8, 255].into_iter().all(|granularity| {
            let good = Geometry { strict, ..small(granularity, 1, 1) };
            let others =
                [good, Geometry { s: 0, ..good }, Geometry { size: 66, ..good }, Geometry { count: 257, ..good }];
            others.into_iter().all(|g| {
                [63, 64, 65].into_iter().all(|room| {
                    let image = vec![0xFF; room];
                    visit(Case { image: image.clone(), ..Case::of(Op::Check, g) })
                        && visit(Case { image, args: vec![0, 64], bytes: vec![1], ..Case::of(Op::Write, g) })
                        && visit(Case { args: vec![5], ..Case::of(Op::Align, g) })
                })
            })
        })
    })
}

/// Allocation of each type, whole objects, every state to every state, and sizes.
fn objects(g: Geometry, visit: Visit) -> bool {
    let (flash, at) = (block(g), first(g));
    let headers = [(NO_TYPE, 0), (TYPES[0], 1), (TYPES[1], 2), (TYPES[2], 3)];
    TYPES.into_iter().all(|kind| every_unit(on(Op::WriterAllocate, &flash, vec![0, at, kind]), visit))
        && (0..=9).all(|len| {
            let case = on(Op::WriteTo, &flash, vec![0, at, TYPES[1]]);
            every_unit(Case { bytes: data(len), ..case.clone() }, visit)
                && every_unit(Case { bytes: vec![0xFF; len], ..case }, visit)
        })
        && headers.into_iter().all(|(kind, state)| {
            let with = |op, args, size| Case { array: vec![kind, state, size, 0, at], ..on(op, &flash, args) };
            let unset = layout::unset(g);
            (0..=3).all(|target| every_unit(with(Op::UpdateState, vec![target], unset), visit))
                && every_unit(with(Op::InfoFinalize, vec![], 3), visit)
                && every_unit(with(Op::InfoDelete, vec![], 3), visit)
                && [0, 3, 254, 255, 256, 65_535, unset]
                    .into_iter()
                    .all(|size| every_unit(with(Op::SetPayloadSize, vec![size], unset), visit))
        })
}

/// Writers with a tail of every length: more data, a finish, a delete.
fn writers(g: Geometry, visit: Visit) -> bool {
    (0..=5).all(|held| {
        let mut flash = block(g);
        let mut w = flash.writer_allocate(0, first(g), TYPES[1]).unwrap();
        flash.writer_write(&mut w, &data(held)).unwrap();
        let with = |op, bytes| Case { array: w.numbers(), bytes, ..on(op, &flash, vec![]) };
        (0..=9).all(|len| every_unit(with(Op::WriterWrite, data(len)), visit))
            && [0, 1, 4].into_iter().all(|from| {
                let mut bytes = data(9);
                bytes[from..from + 4].fill(0xFF);
                every_unit(with(Op::WriterWrite, bytes), visit)
            })
            && every_unit(with(Op::WriterFinalize, vec![]), visit)
            && every_unit(with(Op::WriterDelete, vec![]), visit)
    })
}

/// Copies and moves to the other block, of one turn and of two; and of FF to where everything behind the header is programmed.
fn copies(g: Geometry, visit: Visit) -> bool {
    let copy = |op: Op, payload: &[u8]| {
        let mut flash = block(g);
        flash.write_to(0, first(g), TYPES[1], payload).unwrap();
        let array = flash.read_header(0, first(g)).unwrap().numbers().to_vec();
        Case { array, ..on(op, &flash, vec![1, first(g)]) }
    };
    [Op::CopyObject, Op::MoveObject].into_iter().all(|op| {
        let behind = 64 + first(g) as usize + layout::header_len(g) as usize;
        let mut blank = copy(op, &[0xFF; 20]);
        blank.image[behind..].fill(0x41);
        every_fuse(blank, visit)
            && [0, 1, 3, 4, 5, 16, 17, 20, 23].into_iter().all(|len| every_unit(copy(op, &data(len)), visit))
    })
}

/// Headers over erased and over written ones, types over types, and formats, which meet nothing.
fn blocks(g: Geometry, visit: Visit) -> bool {
    let counts = [0, 7, u32::MAX];
    let header = |kind, count| {
        let mut flash = Flash::erased(g);
        flash.block_header_write(0, kind, count).unwrap();
        flash
    };
    (0..=4).all(|kind| {
        counts.into_iter().all(|count| {
            let flash = header(kind, count);
            let mut used = flash.clone();
            used.image[30] = 0;
            every_unit(on(Op::BlockHeaderWrite, &Flash::erased(g), vec![0, kind, count]), visit)
                && (0..=4).all(|to| every_fuse(on(Op::BlockHeaderWrite, &flash, vec![0, to, count]), visit))
                && (2..=4).all(|to| every_unit(on(Op::SetBlockType, &flash, vec![0, to]), visit))
                && [&flash, &used].into_iter().all(|flash| {
                    every_unit(on(Op::FormatBlock, flash, vec![0]), visit)
                        && every_fuse(on(Op::FormatStorage, flash, vec![]), visit)
                })
        })
    })
}

/// Every pass over short rows of objects in every state.
fn collector(g: Geometry, visit: Visit) -> bool {
    rows().iter().all(|row| {
        let flash = built(g, row);
        let scanned = flash.scan_block(0).map_or(0, |record| record.used);
        Op::of_layer(Layer::Collector).into_iter().all(|op| {
            [(scanned, 0), (scanned + 1, 1)].into_iter().all(|(used, allow)| {
                every_unit(Case { array: vec![DATA, 5, used, allow], ..on(op, &flash, vec![]) }, visit)
            })
        })
    })
}

/// One to three records of small lengths.
fn batches(g: Geometry, visit: Visit) -> bool {
    let flash = block(g);
    let lists: [&[u32]; 8] = [&[], &[0], &[1], &[5], &[0, 0], &[4, 1], &[0, 0, 0], &[2, 1, 0]];
    lists.into_iter().all(|lens| {
        let array = laid(g, first(g), lens).concat();
        every_unit(Case { array, bytes: data(9), ..on(Op::WriteAll, &flash, vec![0]) }, visit)
    })
}
