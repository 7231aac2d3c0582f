//! Stands for norfs's file reader, which no run here uses.

use crate::{ll::objects::MetadataObjectHeader, medium::StorageMedium};

pub struct Reader<M: StorageMedium>(pub MetadataObjectHeader<M>);

impl<M: StorageMedium> Reader<M> {
    pub fn new(metadata: MetadataObjectHeader<M>) -> Self {
        Self(metadata)
    }
}
