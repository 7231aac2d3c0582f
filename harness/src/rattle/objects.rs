//! The objects' functions.

use super::{c, interface::*, Lent};
use crate::{
    case::Case,
    op::{Op, Shape},
};

/// Whether a function is one of the writer's, which the archive has where the feature `writer` is on.
#[cfg(not(feature = "writer"))]
pub fn writes(op: Op) -> bool {
    matches!(op.signature().array, Shape::Writer)
        || matches!(op, Op::WriterAllocate | Op::WriteTo | Op::CopyObject | Op::MoveObject)
}

pub fn call(case: &Case, l: &mut Lent) -> u8 {
    match case.op.signature().array {
        #[cfg(feature = "writer")]
        Shape::Writer => writer(case, l),
        Shape::Reader => reader(case, l),
        Shape::Header => by_header(case, l),
        Shape::None => by_place(case, l),
        _ => walk(case, l),
    }
}

fn by_place(case: &Case, l: &mut Lent) -> u8 {
    let arg = |i: usize| case.args[i];
    let (bytes, len) = (l.bytes.as_ptr(), l.bytes.len());
    let out = l.w.as_mut_ptr();
    match case.op {
        Op::LocationIntoBytes => c!(stumpchoir_location_into_bytes(case, arg(0), arg(1), l.b.as_mut_ptr(), &raw mut l.q)),
        Op::LocationFromBytes => c!(stumpchoir_location_from_bytes(case, bytes, len, out)),
        Op::HeaderRead => c!(stumpchoir_header_read(case; image l, arg(0), arg(1), out)),
        #[cfg(feature = "writer")]
        Op::WriterAllocate => c!(stumpchoir_writer_allocate(case; store l, arg(0), arg(1), arg(2) as u8, out)),
        #[cfg(feature = "writer")]
        Op::WriteTo => c!(stumpchoir_write_to(case; store l, arg(0), arg(1), arg(2) as u8, bytes, len, &raw mut l.q)),
        Op::ReaderNew => c!(stumpchoir_reader_new(case; image l, arg(0), arg(1), arg(2) != 0, out)),
        Op::InfoRead => c!(stumpchoir_info_read(case; image l, arg(0), arg(1), out, out.wrapping_add(1))),
        Op::LocationReadMetadata => c!(stumpchoir_location_read_metadata(case; image l, arg(0), arg(1), out)),
        Op::IteratorNew => c!(stumpchoir_iterator_new(case, arg(0), out)),
        _ => unreachable!(),
    }
}

fn walk(case: &Case, l: &mut Lent) -> u8 {
    let array = l.array.as_mut_ptr();
    let (found, out) = (l.w.as_mut_ptr(), l.w.as_mut_ptr().wrapping_add(1));
    match case.op {
        Op::MetadataNext => c!(stumpchoir_metadata_next_object_location(case; image l, array, found, out)),
        Op::MetadataReset => c!(stumpchoir_metadata_reset(case, array)),
        Op::IteratorNext => c!(stumpchoir_iterator_next(case; image l, array, found, out)),
        _ => unreachable!(),
    }
}

fn by_header(case: &Case, l: &mut Lent) -> u8 {
    let arg = |i: usize| case.args[i];
    let array = l.array.as_mut_ptr();
    let out = l.w.as_mut_ptr();
    match case.op {
        Op::UpdateState => c!(stumpchoir_update_state(case; store l, array, arg(0) as u8)),
        Op::SetPayloadSize => c!(stumpchoir_set_payload_size(case; store l, array, arg(0))),
        Op::InfoTotalSize => c!(stumpchoir_info_total_size(case, array, &raw mut l.q)),
        Op::InfoFinalize => c!(stumpchoir_info_finalize(case; store l, array)),
        Op::InfoDelete => c!(stumpchoir_info_delete(case; store l, array)),
        #[cfg(feature = "writer")]
        Op::CopyObject => c!(stumpchoir_copy_object(case; store l, array, arg(0), arg(1), out)),
        #[cfg(feature = "writer")]
        Op::MoveObject => c!(stumpchoir_move_object(case; store l, array, arg(0), arg(1), out)),
        Op::InfoReadMetadata => c!(stumpchoir_info_read_metadata(case; image l, array, out)),
        _ => unreachable!(),
    }
}

#[cfg(feature = "writer")]
fn writer(case: &Case, l: &mut Lent) -> u8 {
    let array = l.array.as_mut_ptr();
    let (bytes, len) = (l.bytes.as_ptr(), l.bytes.len());
    match case.op {
        Op::WriterSpace => c!(stumpchoir_writer_space(case, array, &raw mut l.q)),
        Op::WriterPayloadSize => c!(stumpchoir_writer_payload_size(case, array, &raw mut l.q)),
        Op::WriterTotalSize => c!(stumpchoir_writer_total_size(case, array, &raw mut l.q)),
        Op::WriterWrite => c!(stumpchoir_writer_write(case; store l, array, bytes, len)),
        Op::WriterFinalize => c!(stumpchoir_writer_finalize(case; store l, array)),
        Op::WriterDelete => c!(stumpchoir_writer_delete(case; store l, array)),
        _ => unreachable!(),
    }
}

fn reader(case: &Case, l: &mut Lent) -> u8 {
    let array = l.array.as_mut_ptr();
    let (bytes, len) = (l.bytes.as_mut_ptr(), l.bytes.len());
    match case.op {
        Op::ReaderLen => c!(stumpchoir_reader_len(case, array, &raw mut l.q)),
        Op::ReaderRemaining => c!(stumpchoir_reader_remaining(case, array, &raw mut l.q)),
        Op::ReaderRewind => c!(stumpchoir_reader_rewind(case, array)),
        Op::ReaderRead => c!(stumpchoir_reader_read(case; image l, array, bytes, len, &raw mut l.q)),
        _ => unreachable!(),
    }
}
