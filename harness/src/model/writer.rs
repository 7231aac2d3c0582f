//! The writer: type first, then payload, then size, then mark. Under Word(4) a tail of up to 3 bytes is held.

use crate::{
    answer::{INSUFFICIENT_SPACE, INVALID_OPERATION, RUST_PANIC},
    geometry::Geometry,
    model::{
        header::{Header, ALLOCATED, DELETED, FINALIZED, FREE},
        layout, Answer, Flash,
    },
};

#[derive(Clone, PartialEq, Eq, Debug)]
pub struct Writer {
    pub header: Header,
    pub cursor: u32,
    pub tail: Vec<u8>,
}

impl Writer {
    /// From the twelve numbers of the C interface; spent is looked at elsewhere.
    pub fn from_numbers(n: &[u32]) -> Writer {
        let held = n[6] as usize;
        Writer {
            header: Header::from_numbers(n),
            cursor: n[5],
            tail: n[7..7 + held].iter().map(|&b| b as u8).collect(),
        }
    }

    pub fn numbers(&self) -> Vec<u32> {
        let mut n = self.header.numbers().to_vec();
        n.extend([self.cursor, self.tail.len() as u32, 0, 0, 0, 0, 0]);
        for (i, &b) in self.tail.iter().enumerate() {
            n[7 + i] = b as u32;
        }
        n
    }

    pub fn payload_size(&self) -> u32 {
        self.cursor + self.tail.len() as u32
    }

    pub fn total_size(&self, g: Geometry) -> u32 {
        layout::header_len(g) as u32 + self.payload_size()
    }

    fn end(&self, g: Geometry) -> u64 {
        self.header.offset as u64 + layout::header_len(g) + self.cursor as u64
    }

    /// 9 "when header, cursor and held tail pass the block end".
    pub fn space(&self, g: Geometry) -> Answer<u32> {
        let used = self.end(g) + self.tail.len() as u64;
        (g.size as u64).checked_sub(used).map(|n| n as u32).ok_or(RUST_PANIC)
    }
}

impl Flash {
    pub fn writer_allocate(&mut self, block: u32, offset: u32, kind: u32) -> Answer<Writer> {
        Ok(Writer { header: self.allocate(block, offset, kind)?, cursor: 0, tail: Vec::new() })
    }

    /// Stores payload bytes at the cursor, which moves by their number.
    fn append(&mut self, w: &mut Writer, data: &[u8]) -> Answer<()> {
        self.write(w.header.block, w.end(self.geometry), data)?;
        w.cursor += data.len() as u32;
        Ok(())
    }

    /// Stores the held tail, if there is one.
    fn flush(&mut self, w: &mut Writer) -> Answer<()> {
        if w.tail.is_empty() {
            return Ok(());
        }
        let tail = std::mem::take(&mut w.tail);
        self.append(w, &tail)
    }

    pub fn writer_write(&mut self, w: &mut Writer, data: &[u8]) -> Answer<()> {
        if w.header.state != ALLOCATED {
            return Err(INVALID_OPERATION);
        }
        if (w.space(self.geometry)? as usize) < data.len() {
            return Err(INSUFFICIENT_SPACE);
        }
        let width = layout::width(self.geometry) as usize;
        let mut rest = data;
        if !w.tail.is_empty() {
            let filling = rest.len().min(width - w.tail.len());
            w.tail.extend_from_slice(&rest[..filling]);
            rest = &rest[filling..];
            if w.tail.len() == width {
                self.flush(w)?;
            }
        }
        let (whole, last) = rest.split_at(rest.len() - rest.len() % width);
        self.append(w, whole)?;
        w.tail.extend_from_slice(last);
        Ok(())
    }

    /// Stores tail and size.
    fn store_size(&mut self, w: &mut Writer) -> Answer<()> {
        self.flush(w)?;
        self.set_payload_size(&mut w.header, w.cursor)
    }

    pub fn writer_finalize(&mut self, w: &mut Writer) -> Answer<()> {
        if w.header.state != ALLOCATED {
            return Err(INVALID_OPERATION);
        }
        self.store_size(w)?;
        self.update_state(&mut w.header, FINALIZED)
    }

    /// A Finalized writer keeps its tail unstored; a Free or Deleted one stores nothing.
    pub fn writer_delete(&mut self, w: &mut Writer) -> Answer<()> {
        if w.header.state == FREE || w.header.state == DELETED {
            return Ok(());
        }
        if w.header.state == ALLOCATED {
            self.store_size(w)?;
        }
        self.update_state(&mut w.header, DELETED)
    }

    pub fn write_to(&mut self, block: u32, offset: u32, kind: u32, data: &[u8]) -> Answer<u32> {
        let mut w = self.writer_allocate(block, offset, kind)?;
        self.writer_write(&mut w, data)?;
        self.writer_finalize(&mut w)?;
        Ok(w.header.total(self.geometry) as u32)
    }
}
