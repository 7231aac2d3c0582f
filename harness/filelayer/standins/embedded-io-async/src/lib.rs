//! Stands for `embedded_io_async`: the names that norfs implements.

#![allow(async_fn_in_trait)]

pub enum ErrorKind {
    Other,
}

pub trait Error {
    fn kind(&self) -> ErrorKind;
}

pub trait ErrorType {
    type Error: Error;
}

pub trait Write: ErrorType {
    async fn write(&mut self, buf: &[u8]) -> Result<usize, Self::Error>;
    async fn write_all(&mut self, buf: &[u8]) -> Result<(), Self::Error>;
    async fn flush(&mut self) -> Result<(), Self::Error>;
}
