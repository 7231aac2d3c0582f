//! The reader of an object's payload.

use crate::{
    answer::{FS_CORRUPTED, RUST_PANIC},
    geometry::Geometry,
    model::{
        header::{Header, FINALIZED, FREE},
        layout, Answer, Flash,
    },
};

#[derive(Clone, Copy, PartialEq, Eq, Debug)]
pub struct Reader {
    pub header: Header,
    pub cursor: u32,
}

impl Reader {
    pub fn from_numbers(n: &[u32]) -> Reader {
        Reader { header: Header::from_numbers(n), cursor: n[5] }
    }

    pub fn numbers(self) -> Vec<u32> {
        let mut n = self.header.numbers().to_vec();
        n.push(self.cursor);
        n
    }

    pub fn len(self, g: Geometry) -> u32 {
        self.header.payload_or_none(g) as u32
    }

    /// 9 for "a reader's cursor beyond its length".
    pub fn remaining(self, g: Geometry) -> Answer<u32> {
        self.len(g).checked_sub(self.cursor).ok_or(RUST_PANIC)
    }
}

impl Flash {
    /// Only Finalized objects, or with `allow` any but Free.
    pub fn reader_new(&self, block: u32, offset: u32, allow: bool) -> Answer<Reader> {
        let header = self.read_header(block, offset)?;
        if header.state == FINALIZED || (allow && header.state != FREE) {
            return Ok(Reader { header, cursor: 0 });
        }
        Err(FS_CORRUPTED)
    }

    /// The next bytes, at most so many.
    pub fn reader_read(&self, r: &mut Reader, most: usize) -> Answer<Vec<u8>> {
        let g = self.geometry;
        let at = r.header.offset as u64 + layout::header_len(g) + r.cursor as u64;
        let len = (most as u64).min(r.remaining(g)? as u64);
        let bytes = self.read(r.header.block, at, len)?.to_vec();
        r.cursor += len as u32;
        Ok(bytes)
    }
}
