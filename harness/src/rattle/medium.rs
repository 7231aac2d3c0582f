//! The medium's functions.

use super::{c, interface::*, Lent};
use crate::{case::Case, op::Op};

pub fn call(case: &Case, l: &mut Lent) -> u8 {
    let arg = |i: usize| case.args[i];
    let len = l.bytes.len();
    match case.op {
        Op::Check => c!(stumpchoir_check(case; image l)),
        Op::Align => c!(stumpchoir_align(case, arg(0), &raw mut l.q)),
        Op::Read => c!(stumpchoir_read(case; image l, arg(0), arg(1), l.bytes.as_mut_ptr(), len)),
        Op::Write => c!(stumpchoir_write(case; store l, arg(0), arg(1), l.bytes.as_ptr(), len)),
        Op::Erase => c!(stumpchoir_erase(case; store l, arg(0))),
        _ => unreachable!(),
    }
}
