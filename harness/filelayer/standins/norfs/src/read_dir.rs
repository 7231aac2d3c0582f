//! Stands for norfs's directory reader, which no run here uses.

use crate::{medium::StorageMedium, Storage};

pub struct ReadDir<M>(core::marker::PhantomData<M>);

impl<M: StorageMedium> ReadDir<M>
where
    [(); M::BLOCK_COUNT]:,
{
    pub fn new(_: &Storage<M>) -> Self {
        Self(core::marker::PhantomData)
    }
}
