//! Files by their names: lookup, a file's length and bytes, and the names one by one.

use crate::{
    answer::{BAD_ROOM, NOT_FOUND},
    model::{
        blocks::METADATA,
        header::{Header, FINALIZED},
        layout,
        listing::Listing,
        Answer, Flash,
    },
};

/// A name is compared by so many bytes at a time.
const TURN: usize = 16;

/// A name, where its metadata object is, and the place behind that.
pub struct Name {
    pub bytes: Vec<u8>,
    pub at: [u32; 2],
    pub behind: Listing,
}

impl Flash {
    /// The order: blocks that are Metadata by their headers, and in them the Finalized objects that a listing shows, of any
    /// type. The next one from a place on, which goes behind it; none behind the last block.
    fn next_finished(&self, place: &mut Listing) -> Answer<Option<Header>> {
        while place.block < self.geometry.count {
            if self.block_header(place.block)?.0 == METADATA {
                while let Some(header) = self.list_next(place)? {
                    if header.state == FINALIZED {
                        return Ok(Some(header));
                    }
                }
            }
            *place = Listing::new(self.geometry, place.block + 1);
        }
        Ok(None)
    }

    /// The place of the first metadata object with this hash and this name.
    pub fn lookup(&self, path: &[u8], hash: u32) -> Answer<[u32; 2]> {
        let mut place = Listing::new(self.geometry, 0);
        while let Some(header) = self.next_finished(&mut place)? {
            if self.is_named(header, path, hash)? {
                return Ok([header.block, header.offset]);
            }
        }
        Err(NOT_FOUND)
    }

    /// The name is opened only where the hash is the same, and read only where its length is.
    fn is_named(&self, header: Header, path: &[u8], hash: u32) -> Answer<bool> {
        let metadata = self.info_read_metadata(header)?;
        if metadata.path_hash != hash {
            return Ok(false);
        }
        let mut name = self.reader_new(metadata.name[0], metadata.name[1], false)?;
        if name.len(self.geometry) as usize != path.len() {
            return Ok(false);
        }
        for part in path.chunks(TURN) {
            if self.reader_read(&mut name, TURN)? != part {
                return Ok(false);
            }
        }
        Ok(true)
    }

    /// The lengths of the data objects of the metadata at a place, each of them opened.
    pub fn file_size(&self, block: u32, offset: u32) -> Answer<u64> {
        let mut metadata = self.location_read_metadata(block, offset)?;
        let mut size = 0;
        while let Some(at) = self.next_object_location(&mut metadata)? {
            size += self.reader_new(at[0], at[1], false)?.len(self.geometry) as u64;
        }
        Ok(size)
    }

    /// At most so many bytes of the joined data objects, from a position on. Once there are so many, nothing more is asked.
    pub fn file_read(&self, block: u32, offset: u32, position: u64, most: usize) -> Answer<Vec<u8>> {
        let mut metadata = self.location_read_metadata(block, offset)?;
        let (mut skip, mut bytes) = (position, Vec::new());
        while bytes.len() < most {
            let Some(at) = self.next_object_location(&mut metadata)? else { break };
            let size = self.reader_new(at[0], at[1], false)?.len(self.geometry) as u64;
            if size <= skip {
                skip -= size;
                continue;
            }
            let from = at[1] as u64 + layout::header_len(self.geometry) + skip;
            let len = (size - skip).min((most - bytes.len()) as u64);
            bytes.extend_from_slice(self.read(at[0], from, len)?);
            skip = 0;
        }
        Ok(bytes)
    }

    /// The next name of the order from a place on: none at the end, 7 where it is longer than `most`.
    pub fn names_next(&self, mut place: Listing, most: usize) -> Answer<Option<Name>> {
        let Some(header) = self.next_finished(&mut place)? else { return Ok(None) };
        let name = self.info_read_metadata(header)?.name;
        let mut reader = self.reader_new(name[0], name[1], false)?;
        let len = reader.len(self.geometry) as usize;
        if len > most {
            return Err(BAD_ROOM);
        }
        // an empty name is not read, as a lookup does not
        let bytes = if len == 0 { Vec::new() } else { self.reader_read(&mut reader, len)? };
        Ok(Some(Name { bytes, at: [header.block, header.offset], behind: place }))
    }
}
