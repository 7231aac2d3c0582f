//! Calls of the text's blocks.rs.

use crate::{
    case::Case,
    flash::Chip,
    ll::blocks::{reach, BlockHeader, BlockInfo, IndexedBlockInfo},
    op::{Op, Shape},
    run::Shown,
    standins::now,
    StorageError,
};

pub fn call<M: Chip>(case: &Case, medium: &mut M, shown: &mut Shown) -> Result<(), StorageError> {
    if case.op.signature().array == Shape::Record {
        record::<M>(case, shown);
        return Ok(());
    }
    now(block(case, medium, shown))
}

async fn block<M: Chip>(case: &Case, medium: &mut M, shown: &mut Shown) -> Result<(), StorageError> {
    let block = case.args.first().map_or(0, |&block| block as usize);
    match case.op {
        Op::BlockHeaderRead => {
            let header: BlockHeader<M> = reach::ops(medium).read_header(block).await?;
            shown.numbers(&reach::header_numbers(&header));
        }
        Op::BlockHeaderWrite => reach::write(reach::header(case.args[1], case.args[2]), block, medium).await?,
        Op::IsBlockDataEmpty => shown.value(reach::ops(medium).is_block_data_empty(block).await? as u64),
        Op::FormatBlock => reach::ops(medium).format_block(block).await?,
        Op::FormatStorage => reach::ops(medium).format_storage().await?,
        Op::ScanBlock => {
            let record = reach::ops(medium).scan_block(block).await?;
            shown.numbers(&reach::record_numbers(&record).unwrap());
        }
        Op::SetBlockType => reach::set_block_type(medium, block, case.args[1]).await?,
        Op::CalculateFreeableSpace => {
            let indexed = IndexedBlockInfo(block, BlockInfo::new_unknown());
            shown.value(indexed.calculate_freeable_space(medium).await? as u64);
        }
        _ => unreachable!(),
    }
    Ok(())
}

fn record<M: Chip>(case: &Case, shown: &mut Shown) {
    let mut record: BlockInfo<M> = reach::record(&case.array);
    match case.op {
        Op::RecordFreeSpace => shown.value(record.free_space() as u64),
        Op::RecordIsEmpty => shown.value(record.is_empty() as u64),
        Op::RecordAddUsedBytes => record.add_used_bytes(case.args[0] as usize),
        Op::RecordUpdateStatsAfterErase => record.update_stats_after_erase(),
        _ => unreachable!(),
    }
    shown.array = reach::record_numbers(&record).unwrap().to_vec();
}
