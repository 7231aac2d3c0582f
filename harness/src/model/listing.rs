//! Listing: from behind the block header, span by span.

use crate::{
    geometry::Geometry,
    model::{header::Header, layout, Answer, Flash},
};

#[derive(Clone, Copy, PartialEq, Eq, Debug)]
pub struct Listing {
    pub block: u32,
    pub offset: u32,
}

impl Listing {
    pub fn new(g: Geometry, block: u32) -> Listing {
        Listing { block, offset: layout::block_header_len(g) as u32 }
    }

    /// "Stops when offset plus header is at least the block size".
    pub fn ended(self, g: Geometry) -> bool {
        self.offset as u64 + layout::header_len(g) >= g.size as u64
    }
}

impl Flash {
    /// The object at the listing, which goes behind it; none at the end and at a Free header.
    pub fn list_next(&self, l: &mut Listing) -> Answer<Option<Header>> {
        let g = self.geometry;
        if l.ended(g) {
            return Ok(None);
        }
        let found = self.info_read(l.block, l.offset)?;
        if let Some(header) = found {
            l.offset += layout::align(g, header.total(g)) as u32;
        }
        Ok(found)
    }
}
