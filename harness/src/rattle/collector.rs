//! The collector's functions.

use super::{c, interface::*, Lent};
use crate::{case::Case, op::Op};

pub fn call(case: &Case, l: &mut Lent) -> u8 {
    let (table, len) = (l.array.as_mut_ptr(), l.array.len());
    match case.op {
        Op::DeleteInvalidObjects => c!(stumpchoir_delete_invalid_objects(case; store l, table, len)),
        Op::EraseInvalidFinishedBlocks => c!(stumpchoir_erase_invalid_finished_blocks(case; store l, table, len)),
        Op::EraseFullFinishedBlocks => c!(stumpchoir_erase_full_finished_blocks(case; store l, table, len)),
        _ => c!(stumpchoir_run(case; store l, table, len)),
    }
}
