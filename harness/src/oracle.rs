//! Runs a case on the repository's text, where it can be put to it.

use crate::{
    answer::{BAD_GEOMETRY, BAD_ROOM},
    case::Case,
    model::early,
    op::{Layer, Op},
    outcome::Outcome,
};

pub use text::{finder, SIZES};

pub const SKIPPED: &str = "the repository's text was not at hand when this was built (see NORFS_SRC)";

/// Whether the text is compiled in.
pub fn present() -> bool {
    text::PRESENT
}

/// Whether the text has functions of the layer.
pub fn has(layer: Layer) -> bool {
    layer != Layer::Sweep
}

/// The text's outcome, or why this case cannot be put to it.
pub fn run(case: &Case) -> Result<Outcome, &'static str> {
    if !present() {
        return Err(SKIPPED);
    }
    match early::refuse(case) {
        Ok(()) => {}
        Err(BAD_GEOMETRY) => return Err("geometry refused (6), which the text has no rule for"),
        Err(BAD_ROOM) => return Err("room refused (7), which the text has no rule for"),
        Err(_) => return Err("impossible value or spent writer (4), which the text has no rule for"),
    }
    if !has(case.op.signature().layer) {
        return Err("the sweep, which norfs has not");
    }
    if case.op == Op::Check {
        return Err("check has nothing of the text in it");
    }
    if matches!(case.op, Op::FileRead | Op::NamesNew | Op::NamesNext) {
        return Err("reading and names, which are in files of norfs that are not in the text");
    }
    if case.op == Op::RecordAddUsedBytes && case.array[2] as u64 + case.args[0] as u64 + 3 > u32::MAX as u64 {
        return Err("used bytes near 2^32, which the text counts in 64 bits");
    }
    text::run(case).ok_or("no instance of the text for this block size and count")
}
