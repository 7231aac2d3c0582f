//! Stands for norfs's counting medium, which no run here uses.

use crate::medium::{StorageMedium, WriteGranularity};
use norfs_driver::medium::MediumError;

pub struct Counters<P> {
    pub medium: P,
    pub erase_count: usize,
    pub read_count: usize,
    pub write_count: usize,
}

impl<P: StorageMedium> StorageMedium for Counters<P> {
    const BLOCK_SIZE: usize = P::BLOCK_SIZE;
    const BLOCK_COUNT: usize = P::BLOCK_COUNT;
    const WRITE_GRANULARITY: WriteGranularity = P::WRITE_GRANULARITY;

    async fn erase(&mut self, block: usize) -> Result<(), MediumError> {
        self.medium.erase(block).await
    }

    async fn read(&mut self, block: usize, offset: usize, data: &mut [u8]) -> Result<(), MediumError> {
        self.medium.read(block, offset, data).await
    }

    async fn write(&mut self, block: usize, offset: usize, data: &[u8]) -> Result<(), MediumError> {
        self.medium.write(block, offset, data).await
    }
}
