//! What is refused before any step: 6, then 7, then impossible values with 4.

use crate::{
    answer::{BAD_GEOMETRY, BAD_ROOM, INVALID_OPERATION},
    case::Case,
    geometry::Geometry,
    model::{
        blocks::{METADATA, UNDEFINED},
        header::{FREE, NO_TYPE, TYPES},
        layout, Answer,
    },
    op::{Op, Shape},
};

/// "A cursor above 65,536" is impossible.
pub const CURSOR_LIMIT: u32 = 65_536;

/// Records of a batch.
pub const MOST_RECORDS: u64 = 64;

pub fn refuse(case: &Case) -> Answer<()> {
    if !case.geometry.good() {
        return Err(BAD_GEOMETRY);
    }
    if case.has_image() && case.image.len() != case.geometry.room() {
        return Err(BAD_ROOM);
    }
    let shape = case.op.signature().array;
    if !possible_len(case.geometry, shape, case.array.len() as u64) {
        return Err(BAD_ROOM);
    }
    if possible_array(case.geometry, shape, &case.array) && possible_args(case) && !spent(case) {
        Ok(())
    } else {
        Err(INVALID_OPERATION)
    }
}

/// A table has a record a block, a batch at most 64, and there is a word for each byte of the image; all others have the length
/// that their shape says.
fn possible_len(g: Geometry, shape: Shape, len: u64) -> bool {
    match shape {
        Shape::Table => len == 4 * g.count as u64,
        Shape::Batch => len <= 4 * MOST_RECORDS && len % 4 == 0,
        Shape::Words => len == g.room() as u64,
        _ => true,
    }
}

fn possible_array(g: Geometry, shape: Shape, n: &[u32]) -> bool {
    match shape {
        Shape::None | Shape::Iterator | Shape::Batch | Shape::Words => true,
        Shape::Header => possible_header(n),
        Shape::Writer => possible_header(n) && possible_writer(g, n),
        Shape::Reader => possible_header(n) && n[5] <= CURSOR_LIMIT,
        Shape::Metadata => possible_header(n) && n[8] <= CURSOR_LIMIT,
        Shape::Record | Shape::Table => n.chunks(4).all(|record| record[0] <= UNDEFINED && record[3] <= 1),
    }
}

fn possible_header(n: &[u32]) -> bool {
    if n[0] == NO_TYPE {
        n[1] == FREE
    } else {
        TYPES.contains(&n[0]) && (1..=3).contains(&n[1])
    }
}

/// "A pending tail as long as the width or longer (under Bit and Word(1), not empty)".
fn possible_writer(g: Geometry, n: &[u32]) -> bool {
    n[5] <= CURSOR_LIMIT && (n[6] as u64) < layout::width(g) && n[7..11].iter().all(|&b| b <= 255) && n[11] <= 1
}

fn possible_args(case: &Case) -> bool {
    match case.op {
        Op::UpdateState => case.args[0] <= 3,
        Op::WriterAllocate | Op::WriteTo => TYPES.contains(&case.args[2]),
        Op::BlockHeaderWrite => case.args[1] <= UNDEFINED,
        Op::SetBlockType => (METADATA..=UNDEFINED).contains(&case.args[1]),
        _ => true,
    }
}

/// "Each later write, finish or delete of it gives 4."
fn spent(case: &Case) -> bool {
    matches!(case.op, Op::WriterWrite | Op::WriterFinalize | Op::WriterDelete) && case.array[11] == 1
}
