//! Every byte of a small store, made wrong.

use super::{letters, lookup, names, read, size, two_files, Visit, HASH};
use crate::{
    geometry::Geometry,
    model::{layout, Flash},
};

const WRONG: [u8; 18] =
    [0x00, 0x01, 0x02, 0x03, 0x04, 0x08, 0x0C, 0x7F, 0x80, 0x8C, 0x8D, 0x8E, 0x8F, 0xF0, 0xFE, 0xFF, 0x55, 0xAA];

pub fn all(g: Geometry, visit: Visit) -> bool {
    let store = two_files(g);
    let whole = &store.flash;
    let places = [store.files[0].at, store.files[1].at];
    (0..whole.image.len()).filter(|&at| near(whole, at)).all(|at| {
        WRONG.into_iter().filter(|&byte| byte != whole.image[at]).all(|byte| {
            let mut flash = whole.clone();
            flash.image[at] = byte;
            let first = [0, layout::block_header_len(g) as u32];
            visit(lookup(&flash, HASH, b"one"))
                && visit(lookup(&flash, HASH, &letters(17)))
                && visit(names(&flash, first, 17))
                && visit(names(&flash, [2, first[1]], 17))
                && visit(size(&flash, places[0]))
                && visit(read(&flash, places[0], 0, 9))
                && visit(read(&flash, places[1], 1, 3))
        })
    })
}

/// Whether a byte is written, or stands a header's length behind one that is.
fn near(flash: &Flash, at: usize) -> bool {
    let from = at.saturating_sub(layout::header_len(flash.geometry) as usize);
    flash.image[from..=at].iter().any(|&byte| byte != 0xFF)
}
