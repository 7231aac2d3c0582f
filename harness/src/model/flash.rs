//! The paper's medium: reads, stores in units of rising order, erases, the fuse and the strict mark.

use crate::{
    answer::{IO, NOT_ERASED, POWER_LOST},
    geometry::Geometry,
    model::layout,
};

/// A value, or the number of the refusal.
pub type Answer<T> = Result<T, u8>;

#[derive(Clone)]
pub struct Flash {
    pub geometry: Geometry,
    pub image: Vec<u8>,
    pub fuse: Option<u32>,
}

impl Flash {
    pub fn new(geometry: Geometry, image: Vec<u8>, fuse: Option<u32>) -> Flash {
        Flash { geometry, image, fuse }
    }

    /// An erased chip with power.
    pub fn erased(geometry: Geometry) -> Flash {
        Flash::new(geometry, vec![0xFF; geometry.room()], None)
    }

    /// "Block below the count, offset plus length at most the block size, else Io."
    fn place(&self, block: u32, offset: u64, len: u64) -> Answer<usize> {
        let g = self.geometry;
        if block >= g.count || offset + len > g.size as u64 {
            return Err(IO);
        }
        Ok(block as usize * g.size as usize + offset as usize)
    }

    pub fn read(&self, block: u32, offset: u64, len: u64) -> Answer<&[u8]> {
        let at = self.place(block, offset, len)?;
        Ok(&self.image[at..at + len as usize])
    }

    /// Low byte first.
    pub fn read_number(&self, block: u32, offset: u64, len: u64) -> Answer<u32> {
        let bytes = self.read(block, offset, len)?;
        Ok(bytes.iter().rev().fold(0, |n, &b| n << 8 | b as u32))
    }

    /// "The data is padded with FF to whole words that must also fit. Each unit in rising order becomes old AND new." Under the
    /// mark 10 stands between 3 and 8, with nothing stored.
    pub fn write(&mut self, block: u32, offset: u64, data: &[u8]) -> Answer<()> {
        let width = layout::width(self.geometry);
        let mut padded = data.to_vec();
        padded.resize(layout::align(self.geometry, data.len() as u64) as usize, 0xFF);
        if offset % width != 0 {
            return Err(IO);
        }
        let at = self.place(block, offset, padded.len() as u64)?;
        if self.geometry.marked() && self.programs_again(at, &padded) {
            return Err(NOT_ERASED);
        }
        let units = padded.len() / width as usize;
        let powered = self.spend(units);
        for i in 0..powered * width as usize {
            self.image[at + i] &= padded[i];
        }
        if powered < units {
            return Err(POWER_LOST);
        }
        Ok(())
    }

    /// Whether a unit that is not all FF is to get data that is not all FF.
    fn programs_again(&self, at: usize, padded: &[u8]) -> bool {
        let width = layout::width(self.geometry) as usize;
        let erased = |unit: &[u8]| unit.iter().all(|&byte| byte == 0xFF);
        (0..padded.len()).step_by(width).any(|i| {
            let old = &self.image[at + i..at + i + width];
            !erased(old) && !erased(&padded[i..i + width])
        })
    }

    /// "Erase sets a block to FF and counts as one unit."
    pub fn erase(&mut self, block: u32) -> Answer<()> {
        let at = self.place(block, 0, 0)?;
        if self.spend(1) < 1 {
            return Err(POWER_LOST);
        }
        let size = self.geometry.size as usize;
        self.image[at..at + size].fill(0xFF);
        Ok(())
    }

    /// Takes power for so many units; gives how many there is power for.
    fn spend(&mut self, units: usize) -> usize {
        let Some(left) = self.fuse else { return units };
        let powered = units.min(left as usize);
        self.fuse = Some(left - powered as u32);
        powered
    }
}
