//! Files by their names.

use super::{c, interface::*, Lent};
use crate::{case::Case, op::Op};

pub fn call(case: &Case, l: &mut Lent) -> u8 {
    let arg = |i: usize| case.args[i];
    let out = l.w.as_mut_ptr();
    let (bytes, len) = (l.bytes.as_mut_ptr(), l.bytes.len());
    match case.op {
        Op::Lookup => c!(stumpchoir_lookup(case; image l, bytes, len, arg(0), out)),
        Op::FileSize => c!(stumpchoir_file_size(case; image l, arg(0), arg(1), &raw mut l.q)),
        Op::FileRead => {
            let position = case.position();
            c!(stumpchoir_file_read(case; image l, arg(0), arg(1), position, bytes, len, &raw mut l.q))
        }
        Op::NamesNew => c!(stumpchoir_names_new(case, out)),
        Op::NamesNext => {
            let (names, location) = (l.array.as_mut_ptr(), out.wrapping_add(1));
            c!(stumpchoir_names_next(case; image l, names, bytes, len, out, location, &raw mut l.q))
        }
        _ => unreachable!(),
    }
}
