//! Block headers, formatting, scanning, and the record of a block.

use crate::{
    answer::{FS_CORRUPTED, NOT_FORMATTED, RUST_PANIC},
    geometry::Geometry,
    model::{
        header::{ALLOCATED, DELETED, FREE},
        layout,
        listing::Listing,
        Answer, Flash,
    },
};

pub const EMPTY: u32 = 0;
pub const UNKNOWN: u32 = 1;
pub const METADATA: u32 = 2;
pub const DATA: u32 = 3;
pub const UNDEFINED: u32 = 4;

/// kind, erase count, used bytes, allow mark
#[derive(Clone, Copy, PartialEq, Eq, Debug)]
pub struct Record {
    pub kind: u32,
    pub erase_count: u32,
    pub used: u32,
    pub allow: u32,
}

impl Record {
    pub fn from_numbers(n: &[u32]) -> Record {
        Record { kind: n[0], erase_count: n[1], used: n[2], allow: n[3] }
    }

    pub fn numbers(self) -> [u32; 4] {
        [self.kind, self.erase_count, self.used, self.allow]
    }

    pub fn free_space(self, g: Geometry) -> Answer<u32> {
        g.size.checked_sub(self.used).ok_or(RUST_PANIC)
    }

    pub fn is_empty(self, g: Geometry) -> bool {
        self.used as u64 <= layout::block_header_len(g)
    }

    pub fn add_used_bytes(&mut self, g: Geometry, total: u32) -> Answer<()> {
        let sum = self.used as u64 + layout::align(g, total as u64);
        self.used = u32::try_from(sum).map_err(|_| RUST_PANIC)?;
        Ok(())
    }

    pub fn update_stats_after_erase(&mut self, g: Geometry) -> Answer<()> {
        let erase_count = self.erase_count.checked_add(1).ok_or(RUST_PANIC)?;
        *self = Record { kind: UNDEFINED, erase_count, used: layout::block_header_len(g) as u32, allow: 1 };
        Ok(())
    }
}

/// The type byte of a known kind.
pub fn type_byte(kind: u32) -> u8 {
    match kind {
        METADATA => 0x55,
        DATA => 0xAA,
        _ => 0xFF,
    }
}

/// The bytes of a block header. Empty and Unknown have nothing but the erase count.
pub fn header_bytes(g: Geometry, kind: u32, erase_count: u32) -> Vec<u8> {
    let mut bytes = vec![0xFF; layout::block_header_len(g) as usize];
    if kind >= METADATA {
        bytes[..3].copy_from_slice(&[0xBA, 0x01, layout::layout_byte(g)]);
        bytes[layout::block_type_at(g) as usize] = type_byte(kind);
    }
    bytes[4..8].copy_from_slice(&erase_count.to_le_bytes());
    bytes
}

impl Flash {
    /// Kind and erase count. "Kind ignores the erase count; an all-FF rest is Empty, anything else Unknown."
    pub fn block_header(&self, block: u32) -> Answer<(u32, u32)> {
        let g = self.geometry;
        let erase_count = self.read_number(block, 4, 4)?;
        let bytes = self.read(block, 0, layout::block_header_len(g))?;
        let same = |kind: &u32| header_bytes(g, *kind, erase_count) == bytes;
        let kind = [DATA, METADATA, UNDEFINED, EMPTY].into_iter().find(same).unwrap_or(UNKNOWN);
        Ok((kind, erase_count))
    }

    pub fn block_header_write(&mut self, block: u32, kind: u32, erase_count: u32) -> Answer<()> {
        self.write(block, 0, &header_bytes(self.geometry, kind, erase_count))
    }

    pub fn is_block_data_empty(&self, block: u32) -> Answer<bool> {
        let start = layout::block_header_len(self.geometry);
        let data = self.read(block, start, self.geometry.size as u64 - start)?;
        Ok(data.iter().all(|&b| b == 0xFF))
    }

    pub fn format_block(&mut self, block: u32) -> Answer<()> {
        let (kind, old) = self.block_header(block)?;
        let empty = self.is_block_data_empty(block)?;
        if kind == UNDEFINED && empty {
            return Ok(());
        }
        let erase_count = if kind >= METADATA { old.checked_add(1).ok_or(FS_CORRUPTED)? } else { 0 };
        let untouched = kind == EMPTY && old == u32::MAX && empty;
        if !untouched {
            self.erase(block)?;
        }
        self.block_header_write(block, UNDEFINED, erase_count)
    }

    pub fn format_storage(&mut self) -> Answer<()> {
        (0..self.geometry.count).try_for_each(|block| self.format_block(block))
    }

    pub fn scan_block(&self, block: u32) -> Answer<Record> {
        let (kind, erase_count) = self.block_header(block)?;
        if kind == EMPTY {
            return Err(NOT_FORMATTED);
        }
        if kind == UNKNOWN {
            let bytes = self.read(block, 0, self.geometry.size as u64)?;
            let used = bytes.iter().rposition(|&b| b != 0xFF).map_or(0, |last| last as u32 + 1);
            return Ok(Record { kind, erase_count, used, allow: 0 });
        }
        let mut listing = Listing::new(self.geometry, block);
        let mut last = FREE;
        while let Some(header) = self.list_next(&mut listing)? {
            last = header.state;
        }
        Ok(Record { kind, erase_count, used: listing.offset, allow: (last != ALLOCATED) as u32 })
    }

    pub fn set_block_type(&mut self, block: u32, kind: u32) -> Answer<()> {
        self.write(block, layout::block_type_at(self.geometry), &[type_byte(kind)])
    }

    /// 9 "when listing ran past the block".
    pub fn calculate_freeable_space(&self, block: u32) -> Answer<u64> {
        let g = self.geometry;
        let mut listing = Listing::new(g, block);
        let mut deleted = 0;
        while let Some(header) = self.list_next(&mut listing)? {
            if header.state == ALLOCATED || header.state == DELETED {
                deleted += header.total(g);
            }
        }
        let free = g.size.checked_sub(listing.offset).ok_or(RUST_PANIC)?;
        Ok(free as u64 + deleted)
    }
}
