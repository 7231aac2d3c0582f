//! A plain second implementation of the paper (01-scope, with the readings of 03-open-points), for every case.

pub mod batch;
pub mod blocks;
mod call;
pub mod collector;
pub mod early;
pub mod flash;
pub mod header;
pub mod info;
pub mod layout;
pub mod listing;
pub mod metadata;
pub mod reader;
pub mod storage;
pub mod sweep;
pub mod writer;

pub use call::{run, Ran};
pub use flash::{Answer, Flash};
