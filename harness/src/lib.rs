//! The judge of Stumpchoir: the repository's Rust text over a medium with the paper's rules, a plain second
//! implementation of the paper, and the Rattle library behind its C interface, compared case by case.
//!
//! Reading order: `op` (the functions), `case` and `outcome` (what goes in and comes out), `model` (the paper),
//! `oracle` (the text), `rattle` (the library), `cases` (where cases come from), `compare`, `shrink`, `recorded`, `moves`,
//! `inspector`.

pub use text::{answer, case, geometry, hexrun, op, outcome, sha256};

pub mod cases;
pub mod compare;
pub mod inspector;
pub mod model;
pub mod moves;
pub mod oracle;
pub mod random;
pub mod rattle;
pub mod recorded;
pub mod shrink;
pub mod table;
