/// Appended by the harness: calls the passes one by one. The text above is unchanged.
#[allow(dead_code)]
pub mod reach {
    use super::*;

    pub async fn delete_invalid_objects<M: StorageMedium>(gc: &mut Gc<'_, M>) -> Result<(), StorageError> {
        gc.delete_invalid_objects().await
    }

    pub async fn erase_invalid_finished_blocks<M: StorageMedium>(gc: &mut Gc<'_, M>) -> Result<(), StorageError> {
        gc.erase_invalid_finished_blocks().await
    }

    pub async fn erase_full_finished_blocks<M: StorageMedium>(gc: &mut Gc<'_, M>) -> Result<(), StorageError> {
        gc.erase_full_finished_blocks().await
    }
}
