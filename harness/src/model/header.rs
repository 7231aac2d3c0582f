//! Types, states and headers of objects.

use crate::{
    answer::{FS_CORRUPTED, INVALID_OPERATION, RUST_PANIC},
    geometry::Geometry,
    model::{layout, Answer, Flash},
};

pub const FREE: u32 = 0;
pub const ALLOCATED: u32 = 1;
pub const FINALIZED: u32 = 2;
pub const DELETED: u32 = 3;

/// FileMetadata, FileData, FileName.
pub const TYPES: [u32; 3] = [0x8F, 0x8E, 0x8D];
/// The type number of a Free header.
pub const NO_TYPE: u32 = 0xFF;

#[derive(Clone, Copy, PartialEq, Eq, Debug)]
pub struct Header {
    pub kind: u32,
    pub state: u32,
    /// as read or set; all FF means unset
    pub size: u32,
    pub block: u32,
    pub offset: u32,
}

impl Header {
    pub fn from_numbers(n: &[u32]) -> Header {
        Header { kind: n[0], state: n[1], size: n[2], block: n[3], offset: n[4] }
    }

    pub fn numbers(self) -> [u32; 5] {
        [self.kind, self.state, self.size, self.block, self.offset]
    }

    /// None where it is unset.
    pub fn payload(self, g: Geometry) -> Option<u32> {
        (self.size != layout::unset(g)).then_some(self.size)
    }

    /// "All FF means unset, taken as payload 0."
    pub fn payload_or_none(self, g: Geometry) -> u64 {
        self.payload(g).unwrap_or(0) as u64
    }

    pub fn total(self, g: Geometry) -> u64 {
        layout::header_len(g) + self.payload_or_none(g)
    }
}

impl Flash {
    /// Type and state at a place: (FF, Free), or one of the three types with its state.
    pub fn read_state(&self, block: u32, offset: u32) -> Answer<(u32, u32)> {
        let g = self.geometry;
        let bytes = self.read(block, offset as u64, layout::state_len(g))?;
        let kind = bytes[0] as u32;
        if kind == NO_TYPE {
            return Ok((NO_TYPE, FREE));
        }
        if !TYPES.contains(&kind) {
            return Err(FS_CORRUPTED);
        }
        let state = if g.granularity == 0 {
            match bytes[1] {
                0xFF => ALLOCATED,
                0xF0 => FINALIZED,
                0x00 => DELETED,
                _ => return Err(FS_CORRUPTED),
            }
        } else {
            let w = g.granularity as usize;
            match (bytes[w], bytes[2 * w]) {
                (0xFF, 0xFF) => ALLOCATED,
                (0x00, 0xFF) => FINALIZED,
                (0x00, 0x00) => DELETED,
                _ => return Err(FS_CORRUPTED),
            }
        };
        Ok((kind, state))
    }

    pub fn read_header(&self, block: u32, offset: u32) -> Answer<Header> {
        let g = self.geometry;
        let (kind, state) = self.read_state(block, offset)?;
        let size = self.read_number(block, offset as u64 + layout::size_at(g), g.s as u64)?;
        Ok(Header { kind, state, size, block, offset })
    }

    /// "`allocate` accepts Free, or Allocated of the same type."
    pub fn allocate(&mut self, block: u32, offset: u32, kind: u32) -> Answer<Header> {
        let (old, state) = self.read_state(block, offset)?;
        if state > ALLOCATED || (state == ALLOCATED && old != kind) {
            return Err(INVALID_OPERATION);
        }
        self.write(block, offset as u64, &[kind as u8])?;
        Ok(Header { kind, state: ALLOCATED, size: layout::unset(self.geometry), block, offset })
    }

    /// Stores a mark; the header follows when it is stored.
    pub fn update_state(&mut self, header: &mut Header, state: u32) -> Answer<()> {
        if state == FREE {
            return Err(RUST_PANIC);
        }
        if state == header.state {
            return Ok(());
        }
        if header.state == FREE || state == ALLOCATED || header.state > state {
            return Err(INVALID_OPERATION);
        }
        let mark = if state == FINALIZED { layout::finish_mark } else { layout::delete_mark };
        let (at, byte) = mark(self.geometry);
        self.write(header.block, header.offset as u64 + at, &[byte])?;
        header.state = state;
        Ok(())
    }

    /// Stores the low s bytes; the header holds the whole number.
    pub fn set_payload_size(&mut self, header: &mut Header, size: u32) -> Answer<()> {
        let g = self.geometry;
        if header.payload(g).is_some() {
            return Err(INVALID_OPERATION);
        }
        let at = header.offset as u64 + layout::size_at(g);
        self.write(header.block, at, &size.to_le_bytes()[..g.s as usize])?;
        header.size = size;
        Ok(())
    }
}

/// A location's bytes; larger numbers lose their high bytes.
pub fn location_into_bytes(g: Geometry, block: u32, offset: u32) -> Vec<u8> {
    let mut bytes = block.to_le_bytes()[..g.c as usize].to_vec();
    bytes.extend_from_slice(&offset.to_le_bytes()[..g.s as usize]);
    bytes
}

/// 9 unless there are just c + s bytes.
pub fn location_from_bytes(g: Geometry, bytes: &[u8]) -> Answer<[u32; 2]> {
    if bytes.len() as u64 != layout::location_len(g) {
        return Err(RUST_PANIC);
    }
    let number = |part: &[u8]| part.iter().rev().fold(0, |n, &b| n << 8 | b as u32);
    let (block, offset) = bytes.split_at(g.c as usize);
    Ok([number(block), number(offset)])
}
