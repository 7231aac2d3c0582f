//! norfs's file layer as sequences of the layer's calls, in the order of its text (lib.rs and writer.rs, which are read
//! and not compiled here). Places are handed in, where norfs chooses them; a path hash is a number.

use super::Bench;
use harness::{case::show_numbers, op::Op};

pub type Place = [u32; 2];

const METADATA: u32 = 0x8F;
const DATA: u32 = 0x8E;
const NAME: u32 = 0x8D;
const METADATA_BLOCK: u64 = 2;
const FREE: u64 = 0;
const FINALIZED: u32 = 2;
const DELETED: u32 = 3;

/// A file as it is made: hash, name, content, and where metadata, name and content go.
#[derive(Clone, Copy)]
pub struct File<'a> {
    pub hash: u32,
    pub name: &'a [u8],
    pub content: &'a [u8],
    pub metadata: Place,
    pub name_at: Place,
    pub content_at: Place,
}

/// `Storage::mount`: scans every block and gives up at the first refusal. The table of records.
pub fn mount(b: &mut Bench) -> Result<Vec<u32>, u8> {
    let mut table = Vec::new();
    for block in 0..b.geometry.count {
        table.extend(numbers(&b.ask(Op::ScanBlock, &[block], &[], &[])?.values));
    }
    Ok(table)
}

/// `Gc::run` with the table of a mount.
pub fn collect(b: &mut Bench) -> Result<(), u8> {
    let table = mount(b)?;
    b.ask(Op::Run, &[], &table, &[]).map(|_| ())
}

/// `Storage::lookup`: the metadata's place, or none for NotFound.
pub fn lookup(b: &mut Bench, hash: u32, name: &[u8]) -> Result<Option<Place>, u8> {
    for block in 0..b.geometry.count {
        if b.ask(Op::BlockHeaderRead, &[block], &[], &[])?.values[0] != METADATA_BLOCK {
            continue;
        }
        let mut at = numbers(&b.ask(Op::IteratorNew, &[block], &[], &[])?.values);
        loop {
            let next = b.ask(Op::IteratorNext, &[], &at, &[])?;
            if next.values[0] != 1 {
                break;
            }
            at = next.array;
            let header = numbers(&next.values[1..]);
            if header[1] == FINALIZED && is_named(b, &header, hash, name)? {
                return Ok(Some([header[3], header[4]]));
            }
        }
    }
    Ok(None)
}

/// Whether a metadata object has this hash and name: the name is read only where the hash is the same.
fn is_named(b: &mut Bench, header: &[u32], hash: u32, name: &[u8]) -> Result<bool, u8> {
    let metadata = b.ask(Op::InfoReadMetadata, &[], header, &[])?.values;
    if metadata[5] != hash as u64 {
        return Ok(false);
    }
    read(b, [metadata[6] as u32, metadata[7] as u32]).map(|found| found == name)
}

/// The content of a finished object.
pub fn read(b: &mut Bench, at: Place) -> Result<Vec<u8>, u8> {
    let reader = numbers(&b.ask(Op::ReaderNew, &[at[0], at[1], 0], &[], &[])?.values);
    let got = b.ask(Op::ReaderRead, &[], &reader, &vec![0; b.geometry.size as usize])?;
    Ok(got.bytes[..got.values[0] as usize].to_vec())
}

/// The content of the file whose metadata stands there: its objects, joined.
pub fn content(b: &mut Bench, at: Place) -> Result<Vec<u8>, u8> {
    let mut bytes = Vec::new();
    for place in locations(b, at)? {
        bytes.extend(read(b, place)?);
    }
    Ok(bytes)
}

fn locations(b: &mut Bench, at: Place) -> Result<Vec<Place>, u8> {
    let mut metadata = numbers(&b.ask(Op::LocationReadMetadata, &at, &[], &[])?.values);
    let mut found = Vec::new();
    loop {
        let next = b.ask(Op::MetadataNext, &[], &metadata, &[])?;
        if next.values[0] != 1 {
            return Ok(found);
        }
        metadata = next.array;
        found.push([next.values[1] as u32, next.values[2] as u32]);
    }
}

/// `Storage::delete_file_at`: the name's delete mark, the content's, and last the metadata's.
pub fn delete_file_at(b: &mut Bench, at: Place) -> Result<(), u8> {
    let metadata = numbers(&b.ask(Op::LocationReadMetadata, &at, &[], &[])?.values);
    delete(b, [metadata[6], metadata[7]])?;
    for place in locations(b, at)? {
        delete(b, place)?;
    }
    delete(b, at)
}

/// The delete mark of the object at a place, where there is one.
pub fn delete(b: &mut Bench, at: Place) -> Result<(), u8> {
    let header = b.ask(Op::HeaderRead, &at, &[], &[])?.values;
    if header[1] == FREE {
        return Ok(());
    }
    b.ask(Op::UpdateState, &[DELETED], &numbers(&header), &[]).map(|_| ())
}

/// `Writer::create` with content that fits one object: the name whole; the metadata's type, hash and name; the content's
/// type; its place in the metadata; the content and its end; the metadata's end.
pub fn create(b: &mut Bench, file: File) -> Result<(), u8> {
    b.ask(Op::WriteTo, &[file.name_at[0], file.name_at[1], NAME], &[], file.name)?;
    let metadata = allocate(b, file.metadata, METADATA)?;
    let metadata = write(b, metadata, &file.hash.to_le_bytes())?;
    let metadata = write_location(b, metadata, file.name_at)?;
    let data = allocate(b, file.content_at, DATA)?;
    let metadata = write_location(b, metadata, file.content_at)?;
    let data = write(b, data, file.content)?;
    finalize(b, data)?;
    finalize(b, metadata)
}

/// `Storage::store_writer` over a file that is there: the new one whole, then the old one's delete marks.
pub fn overwrite(b: &mut Bench, file: File) -> Result<(), u8> {
    let old = lookup(b, file.hash, file.name)?;
    create(b, file)?;
    old.map_or(Ok(()), |at| delete_file_at(b, at))
}

/// `MetaObject::move_object`: the proved move.
pub fn move_metadata(b: &mut Bench, from: Place, to: Place) -> Result<(), u8> {
    let header = numbers(&b.ask(Op::HeaderRead, &from, &[], &[])?.values);
    b.ask(Op::MoveObject, &to, &header, &[]).map(|_| ())
}

/// `DataObject::move_object`: new metadata that names the copy, up to its content; the copy whole; the new metadata's
/// end; the old metadata's delete mark; the old object's.
pub fn move_data(b: &mut Bench, metadata: Place, from: Place, new_metadata: Place, to: Place) -> Result<(), u8> {
    let old = numbers(&b.ask(Op::LocationReadMetadata, &metadata, &[], &[])?.values);
    let writer = allocate(b, new_metadata, METADATA)?;
    let writer = write(b, writer, &old[5].to_le_bytes())?;
    let mut writer = write_location(b, writer, [old[6], old[7]])?;
    for place in locations(b, metadata)? {
        writer = write_location(b, writer, if place == from { to } else { place })?;
    }
    let header = numbers(&b.ask(Op::HeaderRead, &from, &[], &[])?.values);
    b.ask(Op::CopyObject, &to, &header, &[])?;
    finalize(b, writer)?;
    delete(b, metadata)?;
    delete(b, from)
}

fn allocate(b: &mut Bench, at: Place, kind: u32) -> Result<Vec<u32>, u8> {
    Ok(numbers(&b.ask(Op::WriterAllocate, &[at[0], at[1], kind], &[], &[])?.values))
}

fn write(b: &mut Bench, writer: Vec<u32>, bytes: &[u8]) -> Result<Vec<u32>, u8> {
    Ok(b.ask(Op::WriterWrite, &[], &writer, bytes)?.array)
}

fn write_location(b: &mut Bench, writer: Vec<u32>, at: Place) -> Result<Vec<u32>, u8> {
    let bytes = b.ask(Op::LocationIntoBytes, &at, &[], &[])?.values;
    let bytes: Vec<u8> = bytes[..bytes[6] as usize].iter().map(|&byte| byte as u8).collect();
    write(b, writer, &bytes)
}

fn finalize(b: &mut Bench, writer: Vec<u32>) -> Result<(), u8> {
    b.ask(Op::WriterFinalize, &[], &writer, &[]).map(|_| ())
}

pub fn numbers(values: &[u64]) -> Vec<u32> {
    values.iter().map(|&n| u32::try_from(n).unwrap_or_else(|_| panic!("{}", show_numbers(values)))).collect()
}
