//! The medium that the text is given: the paper's rules for reads, stores, erases, the fuse and the strict mark.
//!
//! Granularity, block size and count are constants; the widths s and c are numbers of the thread, set for each case.

use std::cell::Cell;

use crate::{
    answer::{NOT_ERASED, POWER_LOST},
    medium::{MediumError, StorageMedium, WriteGranularity},
};

thread_local! {
    static WIDTHS: Cell<(usize, usize)> = const { Cell::new((1, 1)) };
}

/// Sets s and c for the calls of this thread that follow.
pub fn set_widths(s: u8, c: u8) {
    WIDTHS.set((s as usize, c as usize));
}

/// A medium that can be made from an image and told from.
pub trait Chip: StorageMedium {
    fn new(image: Vec<u8>, fuse: Option<u32>, strict: bool) -> Self;
    /// Image, fuse, and what the medium refused that the text has no name for: 8 or 10.
    fn end(self) -> (Vec<u8>, Option<u32>, Option<u8>);
}

pub struct Flash<const GRANULARITY: u8, const SIZE: usize, const COUNT: usize> {
    image: Vec<u8>,
    fuse: Option<u32>,
    strict: bool,
    refused: Option<u8>,
}

/// Whether it has a byte that is not FF; a word that is cut short is padded with FF.
fn programmed(word: &[u8]) -> bool {
    word.iter().any(|&byte| byte != 0xFF)
}

impl<const G: u8, const SIZE: usize, const COUNT: usize> Flash<G, SIZE, COUNT> {
    fn in_range(block: usize, offset: usize, len: usize) -> bool {
        block < COUNT && offset <= SIZE && len <= SIZE - offset
    }

    /// Takes one unit of power, if there is one.
    fn unit(&mut self) -> bool {
        match &mut self.fuse {
            None => true,
            Some(0) => {
                self.refused = Some(POWER_LOST);
                false
            }
            Some(left) => {
                *left -= 1;
                true
            }
        }
    }
}

impl<const G: u8, const SIZE: usize, const COUNT: usize> Chip for Flash<G, SIZE, COUNT> {
    fn new(image: Vec<u8>, fuse: Option<u32>, strict: bool) -> Self {
        Self { image, fuse, strict, refused: None }
    }

    fn end(self) -> (Vec<u8>, Option<u32>, Option<u8>) {
        (self.image, self.fuse, self.refused)
    }
}

impl<const G: u8, const SIZE: usize, const COUNT: usize> StorageMedium for Flash<G, SIZE, COUNT> {
    const BLOCK_SIZE: usize = SIZE;
    const BLOCK_COUNT: usize = COUNT;
    const WRITE_GRANULARITY: WriteGranularity = match G {
        0 => WriteGranularity::Bit,
        1 => WriteGranularity::Word(1),
        _ => WriteGranularity::Word(4),
    };

    async fn erase(&mut self, block: usize) -> Result<(), MediumError> {
        if block >= COUNT || !self.unit() {
            return Err(MediumError::Erase);
        }
        self.image[block * SIZE..(block + 1) * SIZE].fill(0xFF);
        Ok(())
    }

    async fn read(&mut self, block: usize, offset: usize, data: &mut [u8]) -> Result<(), MediumError> {
        if !Self::in_range(block, offset, data.len()) {
            return Err(MediumError::Read);
        }
        let at = block * SIZE + offset;
        data.copy_from_slice(&self.image[at..at + data.len()]);
        Ok(())
    }

    async fn write(&mut self, block: usize, offset: usize, data: &[u8]) -> Result<(), MediumError> {
        let word = if G == 4 { 4 } else { 1 };
        let units = data.len().div_ceil(word);
        if offset % word != 0 || !Self::in_range(block, offset, units * word) {
            return Err(MediumError::Write);
        }
        let mut at = block * SIZE + offset;
        let mut words = self.image[at..].chunks(word).zip(data.chunks(word));
        if self.strict && words.any(|(old, new)| programmed(old) && programmed(new)) {
            self.refused = Some(NOT_ERASED);
            return Err(MediumError::Write);
        }
        for new in data.chunks(word) {
            if !self.unit() {
                return Err(MediumError::Write);
            }
            for (old, new) in self.image[at..].iter_mut().zip(new) {
                *old &= new;
            }
            at += word;
        }
        Ok(())
    }

    fn block_size_bytes() -> usize {
        WIDTHS.get().0
    }

    fn block_count_bytes() -> usize {
        WIDTHS.get().1
    }

    fn object_size_bytes() -> usize {
        WIDTHS.get().0
    }
}
