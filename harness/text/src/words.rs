//! The text's `align` for words of other lengths than 01's: its branches take any.

use crate::{
    medium::{MediumError, StorageMedium, WriteGranularity},
    Align,
};

/// A medium of words of LEN bytes, with nothing in it.
struct Words<const LEN: usize>;

impl<const LEN: usize> StorageMedium for Words<LEN> {
    const BLOCK_SIZE: usize = 0;
    const BLOCK_COUNT: usize = 0;
    const WRITE_GRANULARITY: WriteGranularity = WriteGranularity::Word(LEN);

    async fn erase(&mut self, _: usize) -> Result<(), MediumError> {
        Err(MediumError::Erase)
    }

    async fn read(&mut self, _: usize, _: usize, _: &mut [u8]) -> Result<(), MediumError> {
        Err(MediumError::Read)
    }

    async fn write(&mut self, _: usize, _: usize, _: &[u8]) -> Result<(), MediumError> {
        Err(MediumError::Write)
    }
}

macro_rules! aligns {
    ($($len:literal)*) => { &[$(($len, Words::<$len>::align)),*] };
}

pub const ALIGNS: &[(usize, Align)] =
    aligns! { 1 2 3 4 5 6 7 8 9 10 12 15 16 17 31 32 33 64 100 255 256 4096 65535 65536 };
