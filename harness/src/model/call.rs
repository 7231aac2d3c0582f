//! Runs a case on the model.

use crate::{
    answer::{INVALID_OPERATION, POWER_LOST},
    case::Case,
    model::{
        blocks::Record,
        collector::Collector,
        early,
        header::{self, Header, DELETED, FINALIZED},
        layout,
        listing::Listing,
        metadata::Metadata,
        reader::Reader,
        writer::Writer,
        Answer, Flash,
    },
    op::{Layer, Op, Shape},
    outcome::Outcome,
};

/// What the model gives, and whether the erase count's rule decided.
pub struct Ran {
    pub outcome: Outcome,
    pub rule: bool,
}

pub fn run(case: &Case) -> Ran {
    let mut after = Outcome::before(case);
    let mut rule = false;
    if case.op.signature().tells_always() {
        after.values.fill(0);
    }
    let answer = early::refuse(case).and_then(|()| match case.op.signature().layer {
        Layer::Collector => collect(case, &mut after, &mut rule),
        Layer::Batch => batch(case, &mut after),
        Layer::Sweep => sweep(case, &mut after),
        _ => call(case, &mut after),
    });
    if let Err(number) = answer {
        after.answer = number;
        let writer = case.op.signature().array == Shape::Writer;
        if writer && number == POWER_LOST {
            after.array[11] = 1;
        }
    }
    Ran { outcome: after, rule }
}

fn collect(case: &Case, after: &mut Outcome, rule: &mut bool) -> Answer<()> {
    let flash = Flash::new(case.geometry, std::mem::take(&mut after.image), case.fuse);
    let mut collector = Collector::new(flash, &case.array);
    let answer = match case.op {
        Op::DeleteInvalidObjects => collector.delete_invalid_objects(),
        Op::EraseInvalidFinishedBlocks => collector.erase_invalid_finished_blocks(),
        Op::EraseFullFinishedBlocks => collector.erase_full_finished_blocks(),
        _ => collector.run(),
    };
    after.array = collector.numbers();
    *rule = collector.rule;
    after.fuse = collector.flash.fuse;
    after.image = collector.flash.image;
    answer
}

/// The count of records done is told also after a refusal.
fn batch(case: &Case, after: &mut Outcome) -> Answer<()> {
    let mut flash = Flash::new(case.geometry, std::mem::take(&mut after.image), case.fuse);
    let answer = flash.write_all(case.args[0], &case.array, &case.bytes, &mut after.values[0]);
    after.image = flash.image;
    after.fuse = flash.fuse;
    answer
}

/// Both numbers of objects deleted are told also after a refusal. Words that are lent come back as 0.
fn sweep(case: &Case, after: &mut Outcome) -> Answer<()> {
    let mut flash = Flash::new(case.geometry, std::mem::take(&mut after.image), case.fuse);
    let (mut twins, mut unreferred) = (0, 0);
    let answer = flash.sweep(&mut twins, &mut unreferred);
    after.values = vec![twins, unreferred];
    after.array.fill(0);
    after.image = flash.image;
    after.fuse = flash.fuse;
    answer
}

/// Values, array and bytes change only when the call is done.
fn call(case: &Case, after: &mut Outcome) -> Answer<()> {
    let mut flash = Flash::new(case.geometry, std::mem::take(&mut after.image), case.fuse);
    let mut shown = Shown { values: after.values.clone(), array: case.array.clone(), bytes: case.bytes.clone() };
    let answer = match case.op.signature().layer {
        Layer::Medium => medium(case, &mut flash, &mut shown),
        Layer::Blocks => block(case, &mut flash, &mut shown),
        Layer::Storage => storage(case, &flash, &mut shown),
        _ => match case.op.signature().array {
            Shape::Writer => writer(case, &mut flash, &mut shown),
            Shape::Reader => reader(case, &mut flash, &mut shown),
            Shape::Header => by_header(case, &mut flash, &mut shown),
            _ => object(case, &mut flash, &mut shown),
        },
    };
    after.image = flash.image;
    after.fuse = flash.fuse;
    answer?;
    after.values = shown.values;
    after.array = shown.array;
    after.bytes = shown.bytes;
    Ok(())
}

/// What a done call shows beside the image.
struct Shown {
    values: Vec<u64>,
    array: Vec<u32>,
    bytes: Vec<u8>,
}

impl Shown {
    fn value(&mut self, value: u64) {
        self.values = vec![value];
    }

    fn numbers(&mut self, numbers: &[u32]) {
        self.values = numbers.iter().map(|&n| n as u64).collect();
    }

    /// 1 and the numbers, or 0 and the rest as it was.
    fn found(&mut self, numbers: Option<&[u32]>) {
        self.values[0] = numbers.is_some() as u64;
        for (value, &n) in self.values[1..].iter_mut().zip(numbers.unwrap_or(&[])) {
            *value = n as u64;
        }
    }
}

fn medium(case: &Case, flash: &mut Flash, shown: &mut Shown) -> Answer<()> {
    let arg = |i: usize| case.args[i];
    match case.op {
        Op::Check => {}
        Op::Align => shown.value(layout::align(case.geometry, arg(0) as u64)),
        Op::Read => shown.bytes = flash.read(arg(0), arg(1) as u64, case.bytes.len() as u64)?.to_vec(),
        Op::Write => flash.write(arg(0), arg(1) as u64, &case.bytes)?,
        Op::Erase => flash.erase(arg(0))?,
        _ => unreachable!(),
    }
    Ok(())
}

/// Functions on places, bytes, metadata and iterators.
fn object(case: &Case, flash: &mut Flash, shown: &mut Shown) -> Answer<()> {
    let g = case.geometry;
    let arg = |i: usize| case.args[i];
    match case.op {
        Op::LocationIntoBytes => {
            let bytes = header::location_into_bytes(g, arg(0), arg(1));
            shown.values[6] = bytes.len() as u64;
            for (value, byte) in shown.values.iter_mut().zip(bytes) {
                *value = byte as u64;
            }
        }
        Op::LocationFromBytes => shown.numbers(&header::location_from_bytes(g, &case.bytes)?),
        Op::HeaderRead => shown.numbers(&flash.read_header(arg(0), arg(1))?.numbers()),
        Op::WriterAllocate => shown.numbers(&flash.writer_allocate(arg(0), arg(1), arg(2))?.numbers()),
        Op::WriteTo => shown.value(flash.write_to(arg(0), arg(1), arg(2), &case.bytes)? as u64),
        Op::ReaderNew => shown.numbers(&flash.reader_new(arg(0), arg(1), arg(2) != 0)?.numbers()),
        Op::InfoRead => shown.found(flash.info_read(arg(0), arg(1))?.map(Header::numbers).as_ref().map(|n| &n[..])),
        Op::LocationReadMetadata => shown.numbers(&flash.location_read_metadata(arg(0), arg(1))?.numbers()),
        Op::MetadataNext => {
            let mut metadata = Metadata::from_numbers(&case.array);
            shown.found(flash.next_object_location(&mut metadata)?.as_ref().map(|n| &n[..]));
            shown.array = metadata.numbers();
        }
        Op::MetadataReset => shown.array[8] = 0,
        Op::IteratorNew => {
            let listing = Listing::new(g, arg(0));
            shown.numbers(&[listing.block, listing.offset]);
        }
        Op::IteratorNext => {
            let mut listing = Listing { block: case.array[0], offset: case.array[1] };
            let ended = listing.ended(g);
            shown.found(flash.list_next(&mut listing)?.map(Header::numbers).as_ref().map(|n| &n[..]));
            if ended {
                shown.values[0] = 2;
            }
            shown.array = vec![listing.block, listing.offset];
        }
        _ => unreachable!(),
    }
    Ok(())
}

fn by_header(case: &Case, flash: &mut Flash, shown: &mut Shown) -> Answer<()> {
    let mut header = Header::from_numbers(&case.array);
    let arg = |i: usize| case.args[i];
    match case.op {
        Op::UpdateState => flash.update_state(&mut header, arg(0))?,
        Op::SetPayloadSize => flash.set_payload_size(&mut header, arg(0))?,
        Op::InfoTotalSize => shown.value(header.total(case.geometry)),
        Op::InfoFinalize => flash.update_state(&mut header, FINALIZED)?,
        Op::InfoDelete => flash.update_state(&mut header, DELETED)?,
        Op::CopyObject => shown.numbers(&flash.copy_object(header, arg(0), arg(1))?.numbers()),
        Op::MoveObject => shown.numbers(&flash.move_object(header, arg(0), arg(1))?.numbers()),
        Op::InfoReadMetadata => shown.numbers(&flash.info_read_metadata(header)?.numbers()),
        _ => unreachable!(),
    }
    shown.array = header.numbers().to_vec();
    Ok(())
}

fn writer(case: &Case, flash: &mut Flash, shown: &mut Shown) -> Answer<()> {
    let g = case.geometry;
    let mut w = Writer::from_numbers(&case.array);
    match case.op {
        Op::WriterSpace => shown.value(w.space(g)? as u64),
        Op::WriterPayloadSize => shown.value(w.payload_size() as u64),
        Op::WriterTotalSize => shown.value(w.total_size(g) as u64),
        _ => {
            match case.op {
                Op::WriterWrite => flash.writer_write(&mut w, &case.bytes)?,
                Op::WriterFinalize => flash.writer_finalize(&mut w)?,
                Op::WriterDelete => flash.writer_delete(&mut w)?,
                _ => return Err(INVALID_OPERATION),
            }
            shown.array = w.numbers();
        }
    }
    Ok(())
}

fn reader(case: &Case, flash: &mut Flash, shown: &mut Shown) -> Answer<()> {
    let mut r = Reader::from_numbers(&case.array);
    match case.op {
        Op::ReaderLen => shown.value(r.len(case.geometry) as u64),
        Op::ReaderRemaining => shown.value(r.remaining(case.geometry)? as u64),
        Op::ReaderRewind => r.cursor = 0,
        Op::ReaderRead => {
            let bytes = flash.reader_read(&mut r, case.bytes.len())?;
            shown.value(bytes.len() as u64);
            shown.bytes[..bytes.len()].copy_from_slice(&bytes);
        }
        _ => unreachable!(),
    }
    shown.array = r.numbers();
    Ok(())
}

fn block(case: &Case, flash: &mut Flash, shown: &mut Shown) -> Answer<()> {
    let arg = |i: usize| case.args[i];
    if case.op.signature().array == Shape::Record {
        return record(case, shown);
    }
    match case.op {
        Op::BlockHeaderRead => {
            let (kind, erase_count) = flash.block_header(arg(0))?;
            shown.numbers(&[kind, erase_count]);
        }
        Op::BlockHeaderWrite => flash.block_header_write(arg(0), arg(1), arg(2))?,
        Op::IsBlockDataEmpty => shown.value(flash.is_block_data_empty(arg(0))? as u64),
        Op::FormatBlock => flash.format_block(arg(0))?,
        Op::FormatStorage => flash.format_storage()?,
        Op::ScanBlock => shown.numbers(&flash.scan_block(arg(0))?.numbers()),
        Op::SetBlockType => flash.set_block_type(arg(0), arg(1))?,
        Op::CalculateFreeableSpace => shown.value(flash.calculate_freeable_space(arg(0))?),
        _ => unreachable!(),
    }
    Ok(())
}

fn record(case: &Case, shown: &mut Shown) -> Answer<()> {
    let g = case.geometry;
    let mut record = Record::from_numbers(&case.array);
    match case.op {
        Op::RecordFreeSpace => shown.value(record.free_space(g)? as u64),
        Op::RecordIsEmpty => shown.value(record.is_empty(g) as u64),
        Op::RecordAddUsedBytes => record.add_used_bytes(g, case.args[0])?,
        Op::RecordUpdateStatsAfterErase => record.update_stats_after_erase(g)?,
        _ => unreachable!(),
    }
    shown.array = record.numbers().to_vec();
    Ok(())
}

fn storage(case: &Case, flash: &Flash, shown: &mut Shown) -> Answer<()> {
    let arg = |i: usize| case.args[i];
    match case.op {
        Op::Lookup => shown.numbers(&flash.lookup(&case.bytes, arg(0))?),
        Op::FileSize => shown.value(flash.file_size(arg(0), arg(1))?),
        Op::FileRead => {
            let read = flash.file_read(arg(0), arg(1), case.position(), case.bytes.len())?;
            shown.bytes[..read.len()].copy_from_slice(&read);
            shown.value(read.len() as u64);
        }
        Op::NamesNew => {
            let first = Listing::new(case.geometry, 0);
            shown.numbers(&[first.block, first.offset]);
        }
        Op::NamesNext => {
            let place = Listing { block: case.array[0], offset: case.array[1] };
            let next = flash.names_next(place, case.bytes.len())?;
            shown.values[0] = next.is_some() as u64;
            if let Some(name) = next {
                shown.bytes[..name.bytes.len()].copy_from_slice(&name.bytes);
                shown.values = vec![1, name.at[0] as u64, name.at[1] as u64, name.bytes.len() as u64];
                shown.array = vec![name.behind.block, name.behind.offset];
            }
        }
        _ => unreachable!(),
    }
    Ok(())
}
