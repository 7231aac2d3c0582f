//! Reading: every position and buffer of small files, every size of metadata and data, every place of a data object.

use super::{lookup, names, read, size, Visit, HASH, KINDS};
use crate::{
    cases::stores::{payload, poke, set_size, Place, Store},
    geometry::Geometry,
    model::{
        header::{location_into_bytes, TYPES},
        layout, Flash,
    },
};

pub fn all(g: Geometry, visit: Visit) -> bool {
    positions(g, visit)
        && metadata_sizes(g, visit)
        && metadata_ends(g, visit)
        && data_sizes(g, visit)
        && places(g, visit)
}

/// Data objects of these lengths, by which of them stand in the list.
const LISTS: [(&[usize], &[usize]); 10] = [
    (&[], &[]),
    (&[0], &[0]),
    (&[5], &[0]),
    (&[4, 3], &[0, 1]),
    (&[4, 3], &[1, 0, 1]),
    (&[2], &[0, 0, 0]),
    (&[0, 1, 0], &[0, 1, 2]),
    (&[3, 0, 2, 1, 4], &[0, 1, 2, 3, 4]),
    (&[16, 1], &[0, 1]),
    (&[17], &[0, 0]),
];

const FAR: [u64; 8] = [255, u32::MAX as u64, 1 << 32, (1 << 32) + 1, 1 << 63, (1 << 63) + 1, u64::MAX - 1, u64::MAX];

/// A file of these data objects, spread over the two Data blocks, and where its metadata is.
fn file(g: Geometry, lens: &[usize], list: &[usize]) -> (Flash, Place) {
    let mut store = Store::of(g, &KINDS);
    let name = store.put(0, TYPES[2], b"n").unwrap();
    let bytes: Vec<u8> = (0..40).collect();
    let put = |(i, &len): (usize, &usize)| store.put([3, 0][i % 2], TYPES[1], &bytes[10 * i % 23..][..len]).unwrap();
    let data: Vec<Place> = lens.iter().enumerate().map(put).collect();
    let list: Vec<Place> = list.iter().map(|&i| data[i]).collect();
    let at = store.put(2, TYPES[0], &payload(g, HASH, name, &list)).unwrap();
    (store.flash, at)
}

/// Every position up to behind the end and some far ones, with every buffer up to longer than the file.
fn positions(g: Geometry, visit: Visit) -> bool {
    LISTS.into_iter().all(|(lens, list)| {
        let (flash, at) = file(g, lens, list);
        let end = list.iter().map(|&i| lens[i]).sum::<usize>();
        visit(size(&flash, at))
            && (0..=end as u64 + 2)
                .chain(FAR)
                .all(|position| (0..=end + 2).all(|len| visit(read(&flash, at, position, len))))
    })
}

/// Opens the file in every way that a call can.
fn look(flash: &Flash, at: Place, visit: Visit) -> bool {
    let reads = [(0, 0), (0, 1), (0, 3), (0, 4), (0, 40), (3, 1), (3, 40), (7, 40), (u64::MAX, 1)];
    visit(size(flash, at)) && reads.into_iter().all(|(position, len)| visit(read(flash, at, position, len)))
}

/// Metadata with every low byte of its size, which is unset among them.
fn metadata_sizes(g: Geometry, visit: Visit) -> bool {
    let (mut flash, at) = file(g, &[3, 0, 4], &[0, 1, 2, 0]);
    (0..=255).chain([layout::unset(g)]).all(|size| {
        set_size(&mut flash, at, size);
        look(&flash, at, visit) && visit(lookup(&flash, HASH, b"n"))
    })
}

/// Metadata at every place near the end of its block, with sizes around its least one.
fn metadata_ends(g: Geometry, visit: Visit) -> bool {
    let (flash, whole) = file(g, &[3, 4], &[0, 1]);
    let start = (whole[0] * g.size + whole[1]) as usize;
    let len = (layout::header_len(g) + 4 + 3 * layout::location_len(g)) as usize;
    let bytes = flash.image[start..start + len].to_vec();
    (g.size - len as u32 - 2..g.size + 2).all(|offset| {
        let mut near = flash.clone();
        for (i, &byte) in (0..).zip(&bytes) {
            poke(&mut near, [1, offset], i, byte);
        }
        let least = 4 + layout::location_len(g) as u32;
        [0, least - 1, least, least + 1, 3 * least, layout::unset(g)].into_iter().all(|size| {
            set_size(&mut near, [1, offset], size);
            look(&near, [1, offset], visit) && visit(names(&near, [1, offset], 40))
        })
    })
}

/// The second of three data objects with every low byte of its size.
fn data_sizes(g: Geometry, visit: Visit) -> bool {
    let (mut flash, at) = file(g, &[3, 2, 4], &[0, 1, 2]);
    let mut metadata = flash.location_read_metadata(at[0], at[1]).unwrap();
    flash.next_object_location(&mut metadata).unwrap();
    let second = flash.next_object_location(&mut metadata).unwrap().unwrap();
    (0..=255).chain([layout::unset(g)]).all(|size| {
        set_size(&mut flash, second, size);
        look(&flash, at, visit)
    })
}

/// The second of three data objects looked for at every offset of every block, and of one that is not there.
fn places(g: Geometry, visit: Visit) -> bool {
    let (flash, at) = file(g, &[3, 2, 4], &[0, 1, 2]);
    let second = (layout::header_len(g) + 4 + 2 * layout::location_len(g)) as u32;
    (0..=g.count).all(|block| {
        (0..=g.size + 4).all(|offset| {
            let mut other = flash.clone();
            for (i, byte) in (second..).zip(location_into_bytes(g, block, offset)) {
                poke(&mut other, at, i, byte);
            }
            let reads = [(0, 3), (0, 4), (0, 40), (3, 1), (4, 40)];
            visit(size(&other, at)) && reads.into_iter().all(|(position, len)| visit(read(&other, at, position, len)))
        })
    })
}
