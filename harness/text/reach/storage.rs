// Appended by the harness: the types that the functions above stand on. The functions are lib.rs's, byte for byte.

use crate::{
    debug,
    ll::{
        blocks::{self, BlockInfo, BlockType, IndexedBlockInfo},
        objects::{ObjectLocation, ObjectReader, ObjectState},
    },
    medium::StorageMedium,
    StorageError,
};

/// Stands for `str`, since a path may have any bytes here; with the hash that goes with it.
#[allow(non_camel_case_types)]
pub struct str {
    pub bytes: Vec<u8>,
    pub hash: u32,
}

impl str {
    fn len(&self) -> usize {
        self.bytes.len()
    }

    fn as_bytes(&self) -> &[u8] {
        &self.bytes
    }
}

/// For a logging line, which is never run.
impl core::fmt::Display for str {
    fn fmt(&self, f: &mut core::fmt::Formatter<'_>) -> core::fmt::Result {
        write!(f, "{:?}", self.bytes)
    }
}

/// Stands for lib.rs's function, which calls norfs's fxhash.rs, and that is not in the text.
fn hash_path(path: &str) -> u32 {
    path.hash
}

/// As in lib.rs, with a vector for the array.
pub struct BlockInfoCollection<M: StorageMedium> {
    blocks: Vec<BlockInfo<M>>,
}

impl<M: StorageMedium> BlockInfoCollection<M> {
    /// Reads the header of every block, and nothing else of it. (Mounting scans them all, and gives up where one is refused.)
    pub async fn read(medium: &mut M) -> Result<Self, StorageError> {
        let mut blocks = Vec::new();
        for block in 0..M::BLOCK_COUNT {
            let header = blocks::reach::ops(medium).read_header(block).await?;
            let [kind, erase_count] = blocks::reach::header_numbers::<M>(&header);
            blocks.push(blocks::reach::record(&[kind, erase_count, 0, 0]));
        }
        Ok(Self { blocks })
    }
}

/// As in lib.rs: a medium, and what is known of its blocks.
pub struct Storage<M: StorageMedium> {
    pub medium: M,
    pub blocks: BlockInfoCollection<M>,
}

impl<M: StorageMedium> Storage<M> {
    pub async fn find(&mut self, path: &str) -> Result<ObjectLocation, StorageError> {
        self.lookup(path).await
    }
}

impl<M: StorageMedium> AsMut<M> for Storage<M> {
    fn as_mut(&mut self) -> &mut M {
        &mut self.medium
    }
}

/// A store in which a lookup finds the place that is given.
pub struct Opened<M: StorageMedium> {
    pub medium: M,
    pub at: ObjectLocation,
}

impl<M: StorageMedium> Opened<M> {
    async fn lookup(&mut self, _: &str) -> Result<ObjectLocation, StorageError> {
        Ok(self.at)
    }
}

impl<M: StorageMedium> AsMut<M> for Opened<M> {
    fn as_mut(&mut self) -> &mut M {
        &mut self.medium
    }
}
