//! The names from every place, and what is looked at: blocks of every kind, and metadata that is moved.

use super::{letters, lookup, names, read, two_files, Visit, HASH};
use crate::{
    case::Case,
    cases::stores::{delete, poke, set_size, Store},
    geometry::Geometry,
    model::{
        blocks::{EMPTY, UNDEFINED},
        layout, Flash,
    },
    op::Op,
};

pub fn all(g: Geometry, visit: Visit) -> bool {
    visit(Case::of(Op::NamesNew, g)) && places(g, visit) && rooms(g, visit) && kinds(g, visit) && moves(g, visit)
}

/// Every offset of every block and some far ones; whole, with the first file deleted, and with a broken object.
fn places(g: Geometry, visit: Visit) -> bool {
    let store = two_files(g);
    let at = store.files[0].at;
    let (mut deleted, mut broken, mut unset) = (store.flash.clone(), store.flash.clone(), store.flash.clone());
    delete(&mut deleted, at);
    poke(&mut broken, store.files[1].at, 0, 0x8C);
    set_size(&mut unset, at, layout::unset(g));
    let far = [255, 256, 65_535, 65_536, 1 << 31, u32::MAX - 2, u32::MAX];
    [store.flash, deleted, broken, unset].iter().all(|flash| {
        let mut step = |block, offset| [2, 40].into_iter().all(|len| visit(names(flash, [block, offset], len)));
        (0..=g.count).all(|block| (0..=g.size + 2).chain(far).all(|offset| step(block, offset)))
            && far.into_iter().all(|block| [0, 8, 12, u32::MAX].into_iter().all(|offset| step(block, offset)))
    })
}

/// Names of every length, into every buffer around it.
fn rooms(g: Geometry, visit: Visit) -> bool {
    (0..=40).all(|len: usize| {
        let mut store = Store::of(g, &super::KINDS);
        store.file([1, 0], HASH, &letters(len), &[]).unwrap();
        let first = [0, layout::block_header_len(g) as u32];
        [0, 1, len.saturating_sub(1), len, len + 1, len + 7]
            .into_iter()
            .all(|room| visit(names(&store.flash, first, room)))
    })
}

/// The same file in four blocks of all kinds: only Metadata blocks are looked at.
fn kinds(g: Geometry, visit: Visit) -> bool {
    let many = (UNDEFINED - EMPTY + 1) as usize;
    (0..many.pow(4)).all(|n| {
        let kinds: Vec<u32> = (0..4).map(|block| (n / many.pow(block) % many) as u32).collect();
        let mut store = Store::of(g, &kinds);
        for block in 0..4 {
            store.file([block, block], HASH, b"n", &[b"12"]).unwrap();
        }
        let first = layout::block_header_len(g) as u32;
        visit(lookup(&store.flash, HASH, b"n"))
            && visit(lookup(&store.flash, HASH, b"m"))
            && (0..4).all(|block| visit(names(&store.flash, [block, first], 4)))
    })
}

/// A metadata object moved to the other Metadata block, cut at every unit.
fn moves(g: Geometry, visit: Visit) -> bool {
    let store = two_files(g);
    (0..2).all(|i| {
        let (file, other) = (&store.files[i], &store.files[1 - i]);
        let header = store.flash.read_header(file.at[0], file.at[1]).unwrap();
        let to = [other.at[0], *crate::cases::images::spots(&store.flash, other.at[0]).last().unwrap()];
        (0..60).all(|fuse| {
            let mut flash: Flash = store.flash.clone();
            flash.fuse = Some(fuse);
            let _ = flash.move_object(header, to[0], to[1]);
            let first = [0, layout::block_header_len(g) as u32];
            visit(lookup(&flash, HASH, &file.name))
                && visit(lookup(&flash, HASH, &other.name))
                && [first, file.at, to].into_iter().all(|from| visit(names(&flash, from, 40)))
                && [file.at, to].into_iter().all(|at| visit(read(&flash, at, 1, 9)))
        })
    })
}
