//! Several objects of a block in one call.

use super::{c, interface::*, Lent};
use crate::case::Case;

pub fn call(case: &Case, l: &mut Lent) -> u8 {
    let (records, count) = (l.array.as_ptr(), l.array.len());
    let (payload, len) = (l.bytes.as_ptr(), l.bytes.len());
    let done = l.w.as_mut_ptr();
    c!(stumpchoir_write_all(case; store l, case.args[0], records, count, payload, len, done))
}
