//! The collector's three passes, each over blocks from 0 up, on the image and the table.

use crate::{
    answer::{FS_CORRUPTED, RUST_PANIC},
    model::{
        blocks::{Record, EMPTY, METADATA, UNKNOWN},
        header::{Header, ALLOCATED, DELETED},
        layout,
        listing::Listing,
        Answer, Flash,
    },
};

pub struct Collector {
    pub flash: Flash,
    pub table: Vec<Record>,
    /// whether the erase count's rule gave the answer, where the text is known to part from the paper
    pub rule: bool,
}

impl Collector {
    pub fn new(flash: Flash, numbers: &[u32]) -> Collector {
        Collector { flash, table: numbers.chunks(4).map(Record::from_numbers).collect(), rule: false }
    }

    pub fn numbers(&self) -> Vec<u32> {
        self.table.iter().flat_map(|record| record.numbers()).collect()
    }

    fn blocks(&self) -> std::ops::Range<u32> {
        0..self.table.len() as u32
    }

    pub fn run(&mut self) -> Answer<()> {
        self.delete_invalid_objects()?;
        self.erase_invalid_finished_blocks()?;
        self.erase_full_finished_blocks()
    }

    pub fn delete_invalid_objects(&mut self) -> Answer<()> {
        self.blocks().try_for_each(|block| self.delete_invalid_in(block))
    }

    pub fn erase_invalid_finished_blocks(&mut self) -> Answer<()> {
        self.blocks().try_for_each(|block| self.erase_invalid(block))
    }

    pub fn erase_full_finished_blocks(&mut self) -> Answer<()> {
        self.blocks().try_for_each(|block| self.erase_full(block))
    }

    fn delete_invalid_in(&mut self, block: u32) -> Answer<()> {
        let kind = self.table[block as usize].kind;
        if kind == UNKNOWN {
            return Err(FS_CORRUPTED);
        }
        if kind == EMPTY {
            return Ok(());
        }
        let mut listing = Listing::new(self.flash.geometry, block);
        while let Some(header) = self.flash.list_next(&mut listing)? {
            if header.state == ALLOCATED && !self.delete_invalid(header)? {
                return Ok(());
            }
        }
        Ok(())
    }

    /// Deletes an unfinished object, unless its size is what the block's used bytes say. False: it stays.
    fn delete_invalid(&mut self, mut header: Header) -> Answer<bool> {
        let g = self.flash.geometry;
        let record = &mut self.table[header.block as usize];
        let before = header.offset as u64 + layout::header_len(g);
        let by_table = (record.used as u64).checked_sub(before).ok_or(RUST_PANIC)? as u32;
        match header.payload(g) {
            Some(payload) if payload == by_table => return Ok(false),
            Some(_) => {}
            None => self.flash.set_payload_size(&mut header, by_table)?,
        }
        self.flash.update_state(&mut header, DELETED)?;
        record.allow = 1;
        Ok(true)
    }

    fn erase_invalid(&mut self, block: u32) -> Answer<()> {
        if self.table[block as usize].allow == 1 {
            return Ok(());
        }
        let mut listing = Listing::new(self.flash.geometry, block);
        let mut first = None;
        while let Some(header) = self.flash.list_next(&mut listing)? {
            if header.state != DELETED {
                first = Some(header.state);
                break;
            }
        }
        if first != Some(ALLOCATED) {
            return Ok(());
        }
        if self.flash.list_next(&mut listing)?.is_some() {
            return Err(FS_CORRUPTED);
        }
        self.format(block)
    }

    fn erase_full(&mut self, block: u32) -> Answer<()> {
        let g = self.flash.geometry;
        if self.table[block as usize].used as u64 >= g.size as u64 - layout::header_len(g) {
            return Ok(());
        }
        let mut listing = Listing::new(g, block);
        while let Some(header) = self.flash.list_next(&mut listing)? {
            if header.state != DELETED {
                return Ok(());
            }
        }
        self.format(block)
    }

    /// A pass has decided to format this block: kind, then the erase count's rule, then chip and record.
    fn format(&mut self, block: u32) -> Answer<()> {
        let record = &mut self.table[block as usize];
        if record.kind < METADATA {
            return Err(FS_CORRUPTED);
        }
        if record.erase_count == u32::MAX {
            self.rule = true;
            let mut powered = Flash { fuse: None, ..self.flash.clone() };
            return Err(powered.format_block(block).err().unwrap_or(RUST_PANIC));
        }
        self.flash.format_block(block)?;
        record.update_stats_after_erase(self.flash.geometry)
    }
}
