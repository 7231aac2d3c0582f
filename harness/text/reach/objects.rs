/// Appended by the harness: makes values from numbers and tells the numbers of values. The text above is unchanged.
#[allow(dead_code)]
pub mod reach {
    use super::*;

    /// type, state, size, block, offset
    pub fn header(n: &[u32]) -> ObjectHeader {
        let data = match n[1] {
            1 => ObjectDataState::Untrusted,
            2 => ObjectDataState::Valid,
            _ => ObjectDataState::Deleted,
        };
        let state = match ObjectType::parse(n[0] as u8) {
            Some(ty) => CompositeObjectState::Allocated(ty, data),
            None => CompositeObjectState::Free,
        };
        ObjectHeader { state, payload_size: ObjectPayloadSize { payload_size: n[2] as usize }, location: place(n[3], n[4]) }
    }

    pub fn header_numbers(header: &ObjectHeader) -> [u32; 5] {
        let ty = header.object_type().map_or(0xFF, |ty| ty as u32);
        let size = header.payload_size.payload_size as u32;
        [ty, header.state() as u32, size, header.location.block as u32, header.location.offset as u32]
    }

    pub fn header_len<M: StorageMedium>() -> usize {
        ObjectHeader::byte_count::<M>()
    }

    pub fn place(block: u32, offset: u32) -> ObjectLocation {
        ObjectLocation { block: block as usize, offset: offset as usize }
    }

    pub fn location_from_bytes<M: StorageMedium>(bytes: &[u8]) -> ObjectLocation {
        ObjectLocation::from_bytes::<M>(bytes)
    }

    pub fn state(n: u32) -> ObjectState {
        [ObjectState::Free, ObjectState::Allocated, ObjectState::Finalized, ObjectState::Deleted][n as usize]
    }

    pub fn object_type(n: u32) -> ObjectType {
        ObjectType::parse(n as u8).unwrap()
    }

    pub fn writer<M: StorageMedium>(n: &[u32]) -> ObjectWriter<M> {
        let tail: [u8; 4] = core::array::from_fn(|i| n[7 + i] as u8);
        let mut buffer = heapless08::Vec::new();
        buffer.extend_from_slice(&tail[..n[6] as usize]).unwrap();
        ObjectWriter { object: header(n), cursor: n[5] as usize, buffer, _medium: PhantomData }
    }

    pub fn writer_numbers<M: StorageMedium>(writer: &ObjectWriter<M>) -> [u32; 12] {
        let mut n = [0; 12];
        n[..5].copy_from_slice(&header_numbers(&writer.object));
        n[5] = writer.cursor as u32;
        n[6] = writer.buffer.len() as u32;
        for (place, byte) in n[7..11].iter_mut().zip(writer.buffer.iter()) {
            *place = *byte as u32;
        }
        n
    }

    pub fn reader<M: StorageMedium>(n: &[u32]) -> ObjectReader<M> {
        ObjectReader { location: place(n[3], n[4]), object: header(n), cursor: n[5] as usize, _medium: PhantomData }
    }

    pub fn reader_numbers<M: StorageMedium>(reader: &ObjectReader<M>) -> [u32; 6] {
        let h = header_numbers(&reader.object);
        let at = reader.location;
        [h[0], h[1], h[2], at.block as u32, at.offset as u32, reader.cursor as u32]
    }

    pub fn info<M: StorageMedium>(n: &[u32]) -> ObjectInfo<M> {
        ObjectInfo::with_header(header(n))
    }

    pub fn metadata<M: StorageMedium>(n: &[u32]) -> MetadataObjectHeader<M> {
        MetadataObjectHeader {
            object: header(n),
            path_hash: n[5],
            filename_location: place(n[6], n[7]),
            data_object_cursor: n[8] as usize,
            _parent: None,
            _medium: PhantomData,
        }
    }

    pub fn metadata_numbers<M: StorageMedium>(metadata: &MetadataObjectHeader<M>) -> [u32; 9] {
        let h = header_numbers(&metadata.object);
        let name = metadata.filename_location;
        let cursor = metadata.data_object_cursor as u32;
        [h[0], h[1], h[2], h[3], h[4], metadata.path_hash, name.block as u32, name.offset as u32, cursor]
    }

    pub fn iterator(n: &[u32]) -> ObjectIterator {
        ObjectIterator { location: place(n[0], n[1]) }
    }

    pub async fn read_metadata<M: StorageMedium>(
        at: ObjectLocation,
        medium: &mut M,
    ) -> Result<MetadataObjectHeader<M>, StorageError> {
        at.read_metadata(medium).await
    }
}
