//! Stands for `heapless08::Vec`: at most N items in place.

#[derive(Clone, Debug)]
pub struct Vec<T, const N: usize> {
    items: [T; N],
    len: usize,
}

impl<T: Copy + Default, const N: usize> Vec<T, N> {
    pub fn new() -> Self {
        Self { items: [T::default(); N], len: 0 }
    }

    /// Appends all of them, or none where they do not fit.
    #[allow(clippy::result_unit_err)]
    pub fn extend_from_slice(&mut self, more: &[T]) -> Result<(), ()> {
        let end = self.len + more.len();
        self.items.get_mut(self.len..end).ok_or(())?.copy_from_slice(more);
        self.len = end;
        Ok(())
    }
}

impl<T: Copy + Default, const N: usize> Default for Vec<T, N> {
    fn default() -> Self {
        Self::new()
    }
}

impl<T, const N: usize> core::ops::Deref for Vec<T, N> {
    type Target = [T];
    fn deref(&self) -> &[T] {
        &self.items[..self.len]
    }
}
