//! What is left over after power cuts.

use super::{c, interface::*, Lent};
use crate::{case::Case, op::Op};

pub fn call(case: &Case, l: &mut Lent) -> u8 {
    let twins = l.w.as_mut_ptr();
    let unreferred = twins.wrapping_add(1);
    if case.op == Op::Sweep {
        return c!(stumpchoir_sweep(case; store l, twins, unreferred));
    }
    let (words, words_len) = (l.array.as_mut_ptr(), l.array.len());
    c!(stumpchoir_sweep_with(case; store l, twins, unreferred, words, words_len))
}
