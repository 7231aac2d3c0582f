//! Calls of the text's objects.rs.

use crate::{
    case::Case,
    flash::Chip,
    ll::objects::{reach, ObjectHeader, ObjectInfo, ObjectIterator, ObjectReader, ObjectWriter},
    op::{Op, Shape},
    run::Shown,
    standins::now,
    StorageError,
};

type Done = Result<(), StorageError>;

pub fn call<M: Chip>(case: &Case, medium: &mut M, shown: &mut Shown) -> Done {
    match case.op.signature().array {
        Shape::Writer => now(writer(case, medium, shown)),
        Shape::Reader => now(reader(case, medium, shown)),
        Shape::Header => now(by_header(case, medium, shown)),
        Shape::None => now(by_place(case, medium, shown)),
        _ => now(walk(case, medium, shown)),
    }
}

/// Functions on places and on a location's bytes.
async fn by_place<M: Chip>(case: &Case, medium: &mut M, shown: &mut Shown) -> Done {
    let arg = |i: usize| case.args[i];
    let at = || reach::place(arg(0), arg(1));
    match case.op {
        Op::LocationIntoBytes => {
            let bytes = at().into_bytes::<M>();
            shown.values[6] = bytes.len() as u64;
            for (value, byte) in shown.values.iter_mut().zip(bytes.iter()) {
                *value = *byte as u64;
            }
        }
        Op::LocationFromBytes => {
            let found = reach::location_from_bytes::<M>(&case.bytes);
            shown.numbers(&[found.block as u32, found.offset as u32]);
        }
        Op::HeaderRead => shown.numbers(&reach::header_numbers(&ObjectHeader::read(at(), medium).await?)),
        Op::WriterAllocate => {
            let writer = ObjectWriter::allocate(at(), reach::object_type(arg(2)), medium).await?;
            shown.numbers(&reach::writer_numbers(&writer));
        }
        Op::WriteTo => {
            let kind = reach::object_type(arg(2));
            shown.value(ObjectWriter::write_to(at(), kind, medium, &case.bytes).await? as u64);
        }
        Op::ReaderNew => {
            let reader = ObjectReader::new(at(), medium, arg(2) != 0).await?;
            shown.numbers(&reach::reader_numbers(&reader));
        }
        Op::InfoRead => {
            let info = ObjectInfo::read(at(), medium).await?;
            shown.found(info.map(|info| reach::header_numbers(&info.header)));
        }
        Op::LocationReadMetadata => {
            let metadata = reach::read_metadata(at(), medium).await?;
            shown.numbers(&reach::metadata_numbers(&metadata));
        }
        Op::IteratorNew => {
            let iterator = ObjectIterator::new::<M>(arg(0) as usize);
            shown.numbers(&[iterator.block_idx() as u32, iterator.current_offset() as u32]);
        }
        _ => unreachable!(),
    }
    Ok(())
}

/// Metadata's list and the iterator.
async fn walk<M: Chip>(case: &Case, medium: &mut M, shown: &mut Shown) -> Done {
    match case.op {
        Op::MetadataNext => {
            let mut metadata = reach::metadata::<M>(&case.array);
            let found = metadata.next_object_location(medium).await?;
            shown.found(found.map(|at| [at.block as u32, at.offset as u32]));
            shown.array = reach::metadata_numbers(&metadata).to_vec();
        }
        Op::MetadataReset => {
            let mut metadata = reach::metadata::<M>(&case.array);
            metadata.reset();
            shown.array = reach::metadata_numbers(&metadata).to_vec();
        }
        Op::IteratorNext => {
            let mut iterator = reach::iterator(&case.array);
            // The text gives None at a free place and at the end; its own test tells them apart.
            let ended = iterator.current_offset() + reach::header_len::<M>() >= M::BLOCK_SIZE;
            let info = iterator.next(medium).await?;
            shown.found(info.map(|info: ObjectInfo<M>| reach::header_numbers(&info.header)));
            if ended {
                shown.values[0] = 2;
            }
            shown.array = vec![iterator.block_idx() as u32, iterator.current_offset() as u32];
        }
        _ => unreachable!(),
    }
    Ok(())
}

async fn by_header<M: Chip>(case: &Case, medium: &mut M, shown: &mut Shown) -> Done {
    let mut header = reach::header(&case.array);
    let info = || reach::info::<M>(&case.array);
    let at = || reach::place(case.args[0], case.args[1]);
    match case.op {
        Op::UpdateState => header.update_state(medium, reach::state(case.args[0])).await?,
        Op::SetPayloadSize => header.set_payload_size(medium, case.args[0] as usize).await?,
        Op::InfoTotalSize => shown.value(info().total_size() as u64),
        Op::InfoFinalize => header = info().finalize(medium).await?.header,
        Op::InfoDelete => {
            // The text consumes the value, so its header cannot be told.
            shown.known = 0;
            info().delete(medium).await?;
        }
        Op::CopyObject => {
            let copy = info().copy_object(medium, at()).await?;
            shown.numbers(&reach::header_numbers(&copy.header));
        }
        Op::MoveObject => {
            let copy = info().move_object(medium, at()).await?;
            shown.numbers(&reach::header_numbers(&copy.header));
        }
        Op::InfoReadMetadata => {
            let metadata = info().read_metadata(medium).await?;
            shown.numbers(&reach::metadata_numbers(&metadata));
        }
        _ => unreachable!(),
    }
    shown.array = reach::header_numbers(&header).to_vec();
    Ok(())
}

async fn writer<M: Chip>(case: &Case, medium: &mut M, shown: &mut Shown) -> Done {
    let mut writer = reach::writer::<M>(&case.array);
    match case.op {
        Op::WriterSpace => shown.value(writer.space() as u64),
        Op::WriterPayloadSize => shown.value(writer.payload_size() as u64),
        Op::WriterTotalSize => shown.value(writer.total_size() as u64),
        Op::WriterWrite => {
            writer.write(medium, &case.bytes).await?;
            shown.array = reach::writer_numbers(&writer).to_vec();
        }
        Op::WriterFinalize => {
            // Only the header comes back; cursor and tail are consumed.
            let info = writer.finalize(medium).await?;
            shown.array[..5].copy_from_slice(&reach::header_numbers(&info.header));
            shown.known = 5;
        }
        Op::WriterDelete => {
            shown.known = 0;
            writer.delete(medium).await?;
        }
        _ => unreachable!(),
    }
    Ok(())
}

async fn reader<M: Chip>(case: &Case, medium: &mut M, shown: &mut Shown) -> Done {
    let mut reader = reach::reader::<M>(&case.array);
    match case.op {
        Op::ReaderLen => shown.value(reader.len() as u64),
        Op::ReaderRemaining => shown.value(reader.remaining() as u64),
        Op::ReaderRewind => reader.rewind(),
        Op::ReaderRead => {
            let read = reader.read(medium, &mut shown.bytes).await?;
            shown.value(read as u64);
        }
        _ => unreachable!(),
    }
    shown.array = reach::reader_numbers(&reader).to_vec();
    Ok(())
}
