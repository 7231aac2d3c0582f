//! Lookups: every length of a path against names, every byte that can differ, equal hashes and names, names that run past
//! their block, and every place that a name can be looked for at.

use super::{letters, lookup, names, two_files, Visit, HASH, KINDS};
use crate::{
    cases::stores::{payload, poke, set_size, Store},
    geometry::Geometry,
    model::{
        header::{location_into_bytes, TYPES},
        layout, Flash,
    },
};

pub fn all(g: Geometry, visit: Visit) -> bool {
    lengths(g, visit) && differing(g, visit) && collisions(g, visit) && overruns(g, visit) && places(g, visit)
}

fn one_file(g: Geometry, name: &[u8]) -> Store {
    let mut store = Store::of(g, &KINDS);
    store.file([2, 0], HASH, name, &[]).unwrap();
    store
}

/// Paths of every length up to 40 against names that begin alike.
fn lengths(g: Geometry, visit: Visit) -> bool {
    [0, 1, 2, 15, 16, 17, 31, 32, 33].into_iter().all(|len| {
        let store = one_file(g, &letters(len));
        (0..=40).all(|path| {
            [HASH, HASH + 1, HASH ^ 1 << 31].into_iter().all(|hash| visit(lookup(&store.flash, hash, &letters(path))))
        })
    })
}

/// A path of every length that differs in one byte.
fn differing(g: Geometry, visit: Visit) -> bool {
    (1..=40).all(|len| {
        let store = one_file(g, &letters(len));
        (0..len).all(|at| {
            [0x01, 0x80].into_iter().all(|bits| {
                let mut path = letters(len);
                path[at] ^= bits;
                visit(lookup(&store.flash, HASH, &path))
            })
        })
    })
}

/// Three files, each with one of four names and one of two hashes; each name and hash is looked up.
fn collisions(g: Geometry, visit: Visit) -> bool {
    let names: [&[u8]; 4] = [b"", b"a", b"b", b"ab"];
    let one = |i: usize| (names[i % 4], (i / 4) as u32);
    (0..512).all(|n| {
        let mut store = Store::of(g, &KINDS);
        for (to, i) in [([1, 0], n % 8), ([1, 3], n / 8 % 8), ([2, 3], n / 64)] {
            let (name, hash) = one(i);
            store.file(to, hash, name, &[]).unwrap();
        }
        (0..8).all(|i| visit(lookup(&store.flash, one(i).1, one(i).0)))
    })
}

/// A name so many bytes before its block's end, with a size around what is left and around whole turns of 16.
fn overruns(g: Geometry, visit: Visit) -> bool {
    (0..=36u32).all(|room| {
        let at = g.size - layout::header_len(g) as u32 - room;
        let aligned = at / layout::width(g) as u32 * layout::width(g) as u32;
        let left = g.size - aligned - layout::header_len(g) as u32;
        let mut store = Store::of(g, &KINDS);
        store.flash.write_to(0, aligned, TYPES[2], &letters(left as usize)).unwrap();
        store.put(1, TYPES[0], &payload(g, HASH, [0, aligned], &[])).unwrap();
        let sizes = [left.saturating_sub(1), left, left + 1, left + 2, left + 16, left + 17, left / 16 * 16 + 16];
        sizes.into_iter().all(|size| {
            set_size(&mut store.flash, [0, aligned], size);
            let path = letters(size as usize);
            visit(lookup(&store.flash, HASH, &path))
                && visit(names(&store.flash, [1, 0], size as usize))
                && [0, 14, 15, 16, 31, 32, 47, path.len().wrapping_sub(1)].into_iter().all(|at| {
                    let mut other = path.clone();
                    match other.get_mut(at) {
                        Some(byte) => *byte ^= 1,
                        None => return true,
                    }
                    visit(lookup(&store.flash, HASH, &other))
                })
        })
    })
}

/// A name looked for at every offset of every block, and of one that is not there.
fn places(g: Geometry, visit: Visit) -> bool {
    let store = two_files(g);
    let at = store.files[0].at;
    (0..=g.count).all(|block| {
        (0..=g.size + 4).all(|offset| {
            let mut flash: Flash = store.flash.clone();
            let first = layout::header_len(g) as u32 + 4;
            for (i, byte) in (first..).zip(location_into_bytes(g, block, offset)) {
                poke(&mut flash, at, i, byte);
            }
            visit(lookup(&flash, HASH, b"one"))
                && visit(lookup(&flash, HASH, &letters(17)))
                && visit(names(&flash, [1, layout::block_header_len(g) as u32], 40))
        })
    })
}
