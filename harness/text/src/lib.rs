//! The repository's text over a medium with the paper's rules, and the words in which a case is put to it.
//!
//! Reading order: `op` (the functions), `case` and `outcome` (what goes in and comes out), `standins` and `flash` (what
//! the text is given), `instances` and the `call_` modules (how a case is run on it).

#![allow(async_fn_in_trait)]

/// The text writes `heapless08::Vec`; this name makes that `crate::Vec`, the stand-in.
extern crate self as heapless08;
pub use standins::{FixedVec as Vec, StorageError};

// The text's modules: medium, ll::objects, ll::blocks, gc, and what is cut out of lib.rs (build.rs writes this file).
include!(concat!(env!("OUT_DIR"), "/norfs.rs"));

pub mod answer;
pub mod case;
pub mod geometry;
pub mod hexrun;
pub mod op;
pub mod outcome;
pub mod sha256;
pub mod standins;

#[cfg(norfs_text)]
mod call_batch;
#[cfg(norfs_text)]
mod call_blocks;
#[cfg(norfs_text)]
mod call_collector;
#[cfg(norfs_text)]
mod call_objects;
#[cfg(norfs_text)]
mod call_storage;
#[cfg(norfs_text)]
mod finder;
#[cfg(norfs_text)]
mod flash;
#[cfg(norfs_text)]
mod instances;
#[cfg(norfs_text)]
mod panics;
#[cfg(norfs_text)]
mod run;
#[cfg(norfs_text)]
mod words;

/// Whether the text is compiled in.
pub const PRESENT: bool = cfg!(norfs_text);

/// The text's outcome of a case that no early test refuses; none where there is no instance for its geometry.
#[cfg(norfs_text)]
pub fn run(case: &case::Case) -> Option<outcome::Outcome> {
    instances::run(case)
}

#[cfg(not(norfs_text))]
pub fn run(_: &case::Case) -> Option<outcome::Outcome> {
    None
}

/// The text's `lookup` of one path in one store, to be timed: a place, or the number of the refusal.
pub type Find = Box<dyn FnMut() -> Result<[u32; 2], u8>>;

/// None where there is no instance for the geometry, and without the text.
#[cfg(norfs_text)]
pub use finder::finder;
#[cfg(not(norfs_text))]
pub fn finder(_: geometry::Geometry, _: &[u8], _: &[u8], _: u32) -> Option<Find> {
    None
}

/// The text's `align` for words of one length.
pub type Align = fn(usize) -> usize;

/// Lengths of words, each with its `align`; none without the text.
#[cfg(norfs_text)]
pub use words::ALIGNS;
#[cfg(not(norfs_text))]
pub const ALIGNS: &[(usize, Align)] = &[];

/// The pairs of block size and count that the text is compiled for.
pub const SIZES: [(u32, u32); 16] = [
    (64, 1),
    (64, 2),
    (64, 3),
    (64, 4),
    (68, 1),
    (68, 3),
    (128, 2),
    (128, 4),
    (256, 1),
    (256, 4),
    (260, 2),
    (260, 3),
    (1024, 1),
    (1024, 2),
    (65536, 1),
    (65536, 2),
];
