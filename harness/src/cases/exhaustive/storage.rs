//! Files by their names: every path, position, buffer, place and byte of small stores.

mod bytes;
mod names;
mod paths;
mod reads;

use super::{Visit, GRANULARITIES};
use crate::{
    case::Case,
    cases::stores::{Place, Store},
    geometry::Geometry,
    model::{
        blocks::{DATA, METADATA},
        Flash,
    },
    op::Op,
};

pub fn all(visit: Visit) -> bool {
    GRANULARITIES.into_iter().all(|granularity| {
        [(1, 1), (3, 2)].into_iter().all(|(s, c)| {
            let g = Geometry { granularity, s, c, strict: 0, size: 128, count: 4 };
            paths::all(g, visit) && reads::all(g, visit) && names::all(g, visit) && bytes::all(g, visit)
        })
    }) && orders(visit)
}

const HASH: u32 = 0x0403_0201;
const KINDS: [u32; 4] = [DATA, METADATA, METADATA, DATA];

/// So many letters; names of one length are alike.
fn letters(len: usize) -> Vec<u8> {
    (b'a'..=b'z').cycle().take(len).collect()
}

/// Two files, the second with its metadata in the later block; the first has three data objects.
fn two_files(g: Geometry) -> Store {
    let mut store = Store::of(g, &KINDS);
    store.file([1, 0], HASH, b"one", &[b"1", b"", b"222"]).unwrap();
    store.file([2, 3], HASH, &letters(17), &[b"33333"]).unwrap();
    store
}

fn lookup(flash: &Flash, hash: u32, path: &[u8]) -> Case {
    on(flash, Case { args: vec![hash], bytes: path.to_vec(), ..Case::of(Op::Lookup, flash.geometry) })
}

fn size(flash: &Flash, at: Place) -> Case {
    on(flash, Case { args: at.to_vec(), ..Case::of(Op::FileSize, flash.geometry) })
}

fn read(flash: &Flash, at: Place, position: u64, len: usize) -> Case {
    let args = vec![at[0], at[1], position as u32, (position >> 32) as u32];
    on(flash, Case { args, bytes: vec![0xA5; len], ..Case::of(Op::FileRead, flash.geometry) })
}

fn names(flash: &Flash, from: Place, len: usize) -> Case {
    on(flash, Case { array: from.to_vec(), bytes: vec![0xA5; len], ..Case::of(Op::NamesNext, flash.geometry) })
}

fn on(flash: &Flash, case: Case) -> Case {
    Case { image: flash.image.clone(), ..case }
}

/// What is refused first: a wrong geometry, a wrong room, and then what the image says.
fn orders(visit: Visit) -> bool {
    GRANULARITIES.into_iter().all(|granularity| {
        let g = Geometry { granularity, s: 1, c: 1, strict: 0, size: 128, count: 4 };
        let (flash, at) = (two_files(g).flash, [1, 0]);
        let calls = [lookup(&flash, 0, b""), size(&flash, at), read(&flash, at, 0, 0), names(&flash, [9, 9], 0)];
        let none = Case::of(Op::NamesNew, g);
        let wrong = [Geometry { granularity: 2, ..g }, Geometry { s: 0, ..g }, Geometry { size: 126, ..g }];
        [g].into_iter().chain(wrong).all(|geometry| {
            let rooms = [512, 511, 513, 0, 256];
            visit(Case { geometry, ..none.clone() })
                && calls.iter().all(|call| {
                    rooms.into_iter().all(|room| {
                        let mut case = Case { geometry, ..call.clone() };
                        case.image.resize(room, 0xFF);
                        visit(case)
                    })
                })
        })
    })
}
