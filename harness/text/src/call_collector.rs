//! Calls of the text's gc/mod.rs, over a table made from the case's numbers.

use crate::{
    case::Case,
    flash::Chip,
    gc::{reach, Gc},
    ll::blocks::{self, BlockInfo},
    op::Op,
    run::Shown,
    standins::now,
    StorageError,
};

/// Shows the table also when the text refuses or panics.
struct Table<'a, M: Chip> {
    records: Vec<BlockInfo<M>>,
    shown: &'a mut Shown,
}

impl<M: Chip> Drop for Table<'_, M> {
    fn drop(&mut self) {
        let numbers = |record| blocks::reach::record_numbers(record).unwrap_or([u32::MAX; 4]);
        self.shown.array = self.records.iter().flat_map(numbers).collect();
    }
}

pub fn call<M: Chip>(case: &Case, medium: &mut M, shown: &mut Shown) -> Result<(), StorageError> {
    let records = case.array.chunks(4).map(blocks::reach::record).collect();
    let mut table = Table { records, shown };
    let mut gc = Gc::new(medium, &mut table.records);
    now(async {
        match case.op {
            Op::DeleteInvalidObjects => reach::delete_invalid_objects(&mut gc).await,
            Op::EraseInvalidFinishedBlocks => reach::erase_invalid_finished_blocks(&mut gc).await,
            Op::EraseFullFinishedBlocks => reach::erase_full_finished_blocks(&mut gc).await,
            _ => gc.run().await,
        }
    })
}
