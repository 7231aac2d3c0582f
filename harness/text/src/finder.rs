//! The text's `lookup` in a store that stays open, to be timed; over a medium of its own, with the widths that the text
//! itself gives, so that nothing is looked up that a compiler would know.

use crate::{
    geometry::Geometry,
    medium::{MediumError, StorageMedium, WriteGranularity},
    run::number,
    standins::now,
    storage::{self, BlockInfoCollection, Storage},
    Find,
};

/// An image that is only read.
struct Still<const GRANULARITY: u8, const SIZE: usize, const COUNT: usize>(Vec<u8>);

impl<const G: u8, const SIZE: usize, const COUNT: usize> StorageMedium for Still<G, SIZE, COUNT> {
    const BLOCK_SIZE: usize = SIZE;
    const BLOCK_COUNT: usize = COUNT;
    const WRITE_GRANULARITY: WriteGranularity = if G == 4 { WriteGranularity::Word(4) } else { WriteGranularity::Bit };

    async fn erase(&mut self, _: usize) -> Result<(), MediumError> {
        Err(MediumError::Erase)
    }

    async fn read(&mut self, block: usize, offset: usize, data: &mut [u8]) -> Result<(), MediumError> {
        if block >= COUNT || offset > SIZE || data.len() > SIZE - offset {
            return Err(MediumError::Read);
        }
        let at = block * SIZE + offset;
        data.copy_from_slice(&self.0[at..at + data.len()]);
        Ok(())
    }

    async fn write(&mut self, _: usize, _: usize, _: &[u8]) -> Result<(), MediumError> {
        Err(MediumError::Write)
    }
}

fn find_in<M: StorageMedium + 'static>(g: Geometry, mut medium: M, path: storage::str) -> Option<Find> {
    if (g.s as usize, g.c as usize) != (M::block_size_bytes(), M::block_count_bytes()) {
        return None;
    }
    let blocks = now(BlockInfoCollection::read(&mut medium)).ok()?;
    let mut storage = Storage { medium, blocks };
    Some(Box::new(move || {
        let at = now(storage.find(&path)).map_err(number)?;
        Ok([at.block as u32, at.offset as u32])
    }))
}

macro_rules! stores {
    ($g:expr, $image:expr, $path:expr; $($size:literal x $count:literal)*) => {
        match ($g.granularity, $g.size, $g.count) {
            $(
                (0, $size, $count) => find_in($g, Still::<0, $size, $count>($image.to_vec()), $path),
                (4, $size, $count) => find_in($g, Still::<4, $size, $count>($image.to_vec()), $path),
            )*
            _ => None,
        }
    };
}

/// None where there is no instance.
pub fn finder(g: Geometry, image: &[u8], path: &[u8], hash: u32) -> Option<Find> {
    let path = storage::str { bytes: path.to_vec(), hash };
    stores! { g, image, path; 256 x 4 4096 x 16 4096 x 256 65536 x 256 }
}
