//! A batch: up to 64 records of one block, each written as `write_to` writes an object, up to the first refusal.

use crate::{
    answer::{BAD_ROOM, INVALID_OPERATION},
    model::{header::TYPES, Answer, Flash},
};

impl Flash {
    /// Records of type, offset, start and length in the payload; `done` counts those that are written whole.
    pub fn write_all(&mut self, block: u32, records: &[u32], payload: &[u8], done: &mut u64) -> Answer<()> {
        for n in records.chunks(4) {
            let (from, to) = (n[2] as u64, n[2] as u64 + n[3] as u64);
            if to > payload.len() as u64 {
                return Err(BAD_ROOM);
            }
            if !TYPES.contains(&n[0]) {
                return Err(INVALID_OPERATION);
            }
            self.write_to(block, n[1], n[0], &payload[from as usize..to as usize])?;
            *done += 1;
        }
        Ok(())
    }
}
