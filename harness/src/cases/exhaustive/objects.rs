//! Objects: every offset and length written, every byte of a header, every mark, every fuse.

use super::{every_fuse, small, Visit, GRANULARITIES};
use crate::{
    case::Case,
    geometry::Geometry,
    model::{
        blocks::DATA,
        header::{NO_TYPE, TYPES},
        layout, Flash,
    },
    op::Op,
};

pub fn all(visit: Visit) -> bool {
    GRANULARITIES.into_iter().all(|granularity| {
        let g = small(granularity, 1, 1);
        writes(g, visit)
            && types_and_sizes(g, visit)
            && marks(g, visit)
            && states(g, visit)
            && writers(g, visit)
            && moves(small(granularity, 1, 2), visit)
            && moves(small(granularity, 3, 2), visit)
            && ends(g, visit)
    })
}

pub fn first(g: Geometry) -> u32 {
    layout::block_header_len(g) as u32
}

/// A Data block without objects.
pub fn block(g: Geometry) -> Flash {
    let mut flash = Flash::erased(g);
    for block in 0..g.count {
        flash.block_header_write(block, DATA, 0).unwrap();
    }
    flash
}

pub fn data(len: usize) -> Vec<u8> {
    (0..len).map(|i| 0x41 + i as u8).collect()
}

fn case(op: Op, flash: &Flash, args: Vec<u32>) -> Case {
    Case { args, image: flash.image.clone(), ..Case::of(op, flash.geometry) }
}

/// `write_to` at every offset with every length; at the first place with every fuse.
fn writes(g: Geometry, visit: Visit) -> bool {
    let flash = block(g);
    (0..=66).all(|offset| {
        (0..=60usize).all(|len| {
            let case = Case { bytes: data(len), ..case(Op::WriteTo, &flash, vec![0, offset, TYPES[1]]) };
            if offset == first(g) {
                every_fuse(case, visit)
            } else {
                visit(case)
            }
        })
    })
}

/// Reading functions at one place.
fn look(flash: &Flash, at: u32, visit: Visit) -> bool {
    let mut step = case(Op::IteratorNext, flash, vec![]);
    step.array = vec![0, at];
    let mut read = case(Op::ReaderRead, flash, vec![]);
    let header = flash.read_header(0, at).map_or([TYPES[1], 2, 5, 0, at], |header| header.numbers());
    read.array = [&header[..], &[0]].concat();
    read.bytes = vec![0xA5; 70];
    [Op::HeaderRead, Op::InfoRead, Op::LocationReadMetadata].into_iter().all(|op| visit(case(op, flash, vec![0, at])))
        && (0..2).all(|allow| visit(case(Op::ReaderNew, flash, vec![0, at, allow])))
        && TYPES.into_iter().all(|kind| visit(case(Op::WriterAllocate, flash, vec![0, at, kind])))
        && visit(step)
        && visit(read)
}

/// Every type byte, every size byte.
fn types_and_sizes(g: Geometry, visit: Visit) -> bool {
    let mut flash = block(g);
    let at = first(g);
    flash.write_to(0, at, TYPES[1], &data(3)).unwrap();
    (0..=255).all(|byte| {
        let (mut kind, mut size) = (flash.clone(), flash.clone());
        kind.image[at as usize] = byte;
        size.image[at as usize + layout::size_at(g) as usize] = byte;
        look(&kind, at, visit) && look(&size, at, visit)
    })
}

/// Every state byte, or pairs of marks.
fn marks(g: Geometry, visit: Visit) -> bool {
    let mut flash = block(g);
    let at = first(g);
    flash.write_to(0, at, TYPES[1], &data(3)).unwrap();
    let some: Vec<u8> = vec![0xFF, 0x00, 0xF0, 0xF1, 0x0F, 0x01, 0x7F, 0x80, 0xFE];
    let all: Vec<u8> = (0..=255).collect();
    let (one, two) = if g.granularity == 0 { (1, 2) } else { (g.granularity as usize, 2 * g.granularity as usize) };
    let (ones, twos) = if g.granularity == 0 { (&all, &vec![3]) } else { (&some, &some) };
    ones.iter().all(|&a| {
        twos.iter().all(|&b| {
            flash.image[at as usize + one] = a;
            flash.image[at as usize + two] = b;
            look(&flash, at, visit)
        })
    })
}

/// Every state to every state, with every fuse; sizes set on every state.
fn states(g: Geometry, visit: Visit) -> bool {
    let flash = block(g);
    let headers = [(NO_TYPE, 0), (TYPES[0], 1), (TYPES[1], 2), (TYPES[2], 3)];
    headers.into_iter().all(|(kind, state)| {
        [first(g), 0, 52, 62, 63, 64, 13].into_iter().all(|at| {
            let on = |op, args, size| Case { array: vec![kind, state, size, 0, at], ..case(op, &flash, args) };
            (0..=4).all(|target| every_fuse(on(Op::UpdateState, vec![target], 255), visit))
                && every_fuse(on(Op::InfoFinalize, vec![], 3), visit)
                && every_fuse(on(Op::InfoDelete, vec![], 3), visit)
                && [0, 3, 254, 255, 256, 65_535].into_iter().all(|size| {
                    every_fuse(on(Op::SetPayloadSize, vec![size], 255), visit)
                        && every_fuse(on(Op::SetPayloadSize, vec![size], 3), visit)
                })
        })
    })
}

/// Writers after a first chunk: a second chunk, finish, delete, each with every fuse.
fn writers(g: Geometry, visit: Visit) -> bool {
    (0..=9usize).all(|held| {
        let mut flash = block(g);
        let mut w = flash.writer_allocate(0, first(g), TYPES[1]).unwrap();
        flash.writer_write(&mut w, &data(held)).unwrap();
        let on = |op, bytes| Case { array: w.numbers(), bytes, ..case(op, &flash, vec![]) };
        (0..=50usize).all(|len| every_fuse(on(Op::WriterWrite, data(len)), visit))
            && every_fuse(on(Op::WriterFinalize, vec![]), visit)
            && every_fuse(on(Op::WriterDelete, vec![]), visit)
            && [Op::WriterSpace, Op::WriterPayloadSize, Op::WriterTotalSize].into_iter().all(|op| {
                let mut idle = on(op, vec![]);
                idle.image.clear();
                visit(idle)
            })
    })
}

/// Copies and moves to the other block, every payload length, every fuse.
fn moves(g: Geometry, visit: Visit) -> bool {
    (0..=46usize).all(|len| {
        let mut flash = block(g);
        if flash.write_to(0, first(g), TYPES[1], &data(len)).is_err() {
            return true;
        }
        let header = flash.read_header(0, first(g)).unwrap().numbers().to_vec();
        [Op::CopyObject, Op::MoveObject].into_iter().all(|op| {
            [first(g), first(g) + 4, 40, 48, 52, 60, 62]
                .into_iter()
                .all(|to| every_fuse(Case { array: header.clone(), ..case(op, &flash, vec![1, to]) }, visit))
        })
    })
}

/// An empty object at every offset: where listing ends.
fn ends(g: Geometry, visit: Visit) -> bool {
    (0..=64u32).all(|at| {
        let mut flash = block(g);
        let _ = flash.write_to(0, at, TYPES[1], &[]);
        look(&flash, at, visit)
    })
}
