//! A batch: the text has none, so its `write_to` is called record by record.

use crate::{
    answer::{BAD_ROOM, INVALID_OPERATION},
    case::Case,
    flash::Chip,
    ll::objects::{reach, ObjectWriter},
    run::{number, Shown},
    standins::now,
};

/// Counts the records done as it goes, so that the count stands also when the text refuses or panics.
pub fn call<M: Chip>(case: &Case, medium: &mut M, shown: &mut Shown) -> Result<(), u8> {
    shown.value(0);
    for (done, record) in (1..).zip(case.array.chunks(4)) {
        write(case, medium, record)?;
        shown.value(done);
    }
    Ok(())
}

/// One record at its turn: its range, then its type, then the text.
fn write<M: Chip>(case: &Case, medium: &mut M, record: &[u32]) -> Result<(), u8> {
    let &[kind, offset, start, len] = record else { unreachable!("a list of whole records") };
    let payload = range(&case.bytes, start, len).ok_or(BAD_ROOM)?;
    if ![0x8F, 0x8E, 0x8D].contains(&kind) {
        return Err(INVALID_OPERATION);
    }
    let at = reach::place(case.args[0], offset);
    now(ObjectWriter::write_to(at, reach::object_type(kind), medium, payload)).map_err(number)?;
    Ok(())
}

/// None where it reaches past the payload.
fn range(payload: &[u8], start: u32, len: u32) -> Option<&[u8]> {
    payload.get(start as usize..)?.get(..len as usize)
}
