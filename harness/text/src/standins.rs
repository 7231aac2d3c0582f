//! What the repository's text wants beside itself: logging macros, a vector of fixed room, `StorageError`, an executor.

/// A logging line: looked at by the compiler, never run.
#[macro_export]
macro_rules! silent {
    ($($words:tt)*) => {
        if false {
            let _ = format_args!($($words)*);
        }
    };
}

#[macro_export]
macro_rules! trace { ($($words:tt)*) => { $crate::silent!($($words)*) }; }
#[macro_export]
macro_rules! debug { ($($words:tt)*) => { $crate::silent!($($words)*) }; }
#[macro_export]
macro_rules! warn { ($($words:tt)*) => { $crate::silent!($($words)*) }; }
#[macro_export]
macro_rules! error { ($($words:tt)*) => { $crate::silent!($($words)*) }; }

/// Stands for `heapless08::Vec`: at most N items in place.
#[derive(Clone, Debug)]
pub struct FixedVec<T, const N: usize> {
    items: [T; N],
    len: usize,
}

impl<T: Copy + Default, const N: usize> FixedVec<T, N> {
    pub fn new() -> Self {
        Self { items: [T::default(); N], len: 0 }
    }

    /// Appends all of them, or none where they do not fit.
    #[allow(clippy::result_unit_err)]
    pub fn extend_from_slice(&mut self, more: &[T]) -> Result<(), ()> {
        let end = self.len + more.len();
        self.items.get_mut(self.len..end).ok_or(())?.copy_from_slice(more);
        self.len = end;
        Ok(())
    }
}

impl<T: Copy + Default, const N: usize> Default for FixedVec<T, N> {
    fn default() -> Self {
        Self::new()
    }
}

impl<T, const N: usize> core::ops::Deref for FixedVec<T, N> {
    type Target = [T];
    fn deref(&self) -> &[T] {
        &self.items[..self.len]
    }
}

/// The names of the text's lib.rs that this layer gives.
#[derive(Debug, Clone, Copy, PartialEq, Eq)]
pub enum StorageError {
    NotFound,
    NotFormatted,
    FsCorrupted,
    Io,
    InvalidOperation,
    InsufficientSpace,
}

#[cfg(norfs_text)]
impl From<crate::medium::MediumError> for StorageError {
    fn from(_: crate::medium::MediumError) -> Self {
        Self::Io
    }
}

/// Runs a future that never waits.
pub fn now<F: core::future::Future>(future: F) -> F::Output {
    let mut context = core::task::Context::from_waker(core::task::Waker::noop());
    match core::pin::pin!(future).poll(&mut context) {
        core::task::Poll::Ready(value) => value,
        core::task::Poll::Pending => unreachable!("the medium answers at once"),
    }
}
