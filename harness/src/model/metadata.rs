//! Metadata objects: path hash, name location, then locations of data objects.

use crate::{
    answer::{FS_CORRUPTED, RUST_PANIC},
    model::{
        header::{location_from_bytes, Header},
        layout, Answer, Flash,
    },
};

#[derive(Clone, Copy, PartialEq, Eq, Debug)]
pub struct Metadata {
    pub header: Header,
    pub path_hash: u32,
    pub name: [u32; 2],
    pub cursor: u32,
}

impl Metadata {
    pub fn from_numbers(n: &[u32]) -> Metadata {
        Metadata { header: Header::from_numbers(n), path_hash: n[5], name: [n[6], n[7]], cursor: n[8] }
    }

    pub fn numbers(self) -> Vec<u32> {
        let mut n = self.header.numbers().to_vec();
        n.extend([self.path_hash, self.name[0], self.name[1], self.cursor]);
        n
    }
}

impl Flash {
    pub fn info_read_metadata(&self, header: Header) -> Answer<Metadata> {
        let g = self.geometry;
        let at = header.offset as u64 + layout::header_len(g);
        let path_hash = self.read_number(header.block, at, 4)?;
        let name = location_from_bytes(g, self.read(header.block, at + 4, layout::location_len(g))?)?;
        Ok(Metadata { header, path_hash, name, cursor: 0 })
    }

    pub fn location_read_metadata(&self, block: u32, offset: u32) -> Answer<Metadata> {
        let header = self.info_read(block, offset)?.ok_or(FS_CORRUPTED)?;
        self.info_read_metadata(header)
    }

    /// "A metadata payload below 4+c+s" gives 9; a whole location is read even where less is left.
    pub fn next_object_location(&self, m: &mut Metadata) -> Answer<Option<[u32; 2]>> {
        let g = self.geometry;
        let location = layout::location_len(g);
        let listed = match m.header.payload(g) {
            Some(payload) => (payload as u64).checked_sub(4 + location).ok_or(RUST_PANIC)?,
            None => 0,
        };
        if m.cursor as u64 >= listed {
            return Ok(None);
        }
        let at = m.header.offset as u64 + layout::header_len(g) + 4 + location + m.cursor as u64;
        let found = location_from_bytes(g, self.read(m.header.block, at, location)?)?;
        m.cursor += location as u32;
        Ok(Some(found))
    }
}
