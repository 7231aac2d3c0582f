/// Appended by the harness: makes values from numbers and tells the numbers of values. The text above is unchanged.
#[allow(dead_code)]
pub mod reach {
    use super::*;

    /// 0 Empty, 1 Unknown, 2 Metadata, 3 Data, 4 Undefined
    const KINDS: [BlockHeaderKind; 5] = [
        BlockHeaderKind::Empty,
        BlockHeaderKind::Unknown,
        BlockHeaderKind::Known(BlockType::Metadata),
        BlockHeaderKind::Known(BlockType::Data),
        BlockHeaderKind::Known(BlockType::Undefined),
    ];

    pub fn header<M: StorageMedium>(kind: u32, erase_count: u32) -> BlockHeader<M> {
        BlockHeader { header: KINDS[kind as usize], erase_count, _medium: PhantomData }
    }

    pub fn header_numbers<M: StorageMedium>(header: &BlockHeader<M>) -> [u32; 2] {
        let kind = KINDS.iter().position(|kind| *kind == header.header).unwrap();
        [kind as u32, header.erase_count]
    }

    pub fn block_type(kind: u32) -> BlockType {
        KINDS[kind as usize].as_known().unwrap()
    }

    pub async fn write<M: StorageMedium>(
        header: BlockHeader<M>,
        block: usize,
        medium: &mut M,
    ) -> Result<(), StorageError> {
        header.write(block, medium).await
    }

    /// kind, erase count, used bytes, allow mark
    pub fn record<M: StorageMedium>(n: &[u32]) -> BlockInfo<M> {
        BlockInfo { header: header(n[0], n[1]), used_bytes: n[2] as usize, allow_alloc: n[3] == 1 }
    }

    /// None where the used bytes are no u32.
    pub fn record_numbers<M: StorageMedium>(record: &BlockInfo<M>) -> Option<[u32; 4]> {
        let [kind, erase_count] = header_numbers(&record.header);
        Some([kind, erase_count, u32::try_from(record.used_bytes).ok()?, record.allow_alloc as u32])
    }

    pub(crate) fn ops<M: StorageMedium>(medium: &mut M) -> BlockOps<'_, M> {
        BlockOps::new(medium)
    }

    pub async fn set_block_type<M: StorageMedium>(
        medium: &mut M,
        block: usize,
        kind: u32,
    ) -> Result<(), StorageError> {
        BlockOps::new(medium).set_block_type(block, block_type(kind)).await
    }
}
