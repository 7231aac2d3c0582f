//! The blocks' functions.

use super::{c, interface::*, Lent};
use crate::{
    case::Case,
    op::{Op, Shape},
};

pub fn call(case: &Case, l: &mut Lent) -> u8 {
    if case.op.signature().array == Shape::Record {
        return record(case, l);
    }
    let arg = |i: usize| case.args[i];
    let out = l.w.as_mut_ptr();
    match case.op {
        Op::BlockHeaderRead => c!(stumpchoir_block_header_read(case; image l, arg(0), out)),
        Op::BlockHeaderWrite => c!(stumpchoir_block_header_write(case; store l, arg(0), arg(1), arg(2))),
        Op::IsBlockDataEmpty => c!(stumpchoir_is_block_data_empty(case; image l, arg(0), out)),
        Op::FormatBlock => c!(stumpchoir_format_block(case; store l, arg(0))),
        Op::FormatStorage => c!(stumpchoir_format_storage(case; store l)),
        Op::ScanBlock => c!(stumpchoir_scan_block(case; image l, arg(0), out)),
        Op::SetBlockType => c!(stumpchoir_set_block_type(case; store l, arg(0), arg(1))),
        Op::CalculateFreeableSpace => c!(stumpchoir_calculate_freeable_space(case; image l, arg(0), &raw mut l.q)),
        _ => unreachable!(),
    }
}

fn record(case: &Case, l: &mut Lent) -> u8 {
    let array = l.array.as_mut_ptr();
    let out = l.w.as_mut_ptr();
    match case.op {
        Op::RecordFreeSpace => c!(stumpchoir_record_free_space(case, array, &raw mut l.q)),
        Op::RecordIsEmpty => c!(stumpchoir_record_is_empty(case, array, out)),
        Op::RecordAddUsedBytes => c!(stumpchoir_record_add_used_bytes(case, array, case.args[0])),
        Op::RecordUpdateStatsAfterErase => c!(stumpchoir_record_update_stats_after_erase(case, array)),
        _ => unreachable!(),
    }
}
