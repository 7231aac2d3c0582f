//! Sweeps: every row of four metadata objects, every place of a location, every size, state and byte of a small store, blocks
//! of every kind, what a cut move leaves, and what is refused first; each without and with words lent. Then every number of
//! words.

use super::{every_fuse, Visit, GRANULARITIES};
use crate::{
    case::Case,
    cases::{
        images::spots,
        stores::{payload, poke, set_size, Place, Store},
        sweep::{case, lent, words},
    },
    geometry::Geometry,
    model::{
        blocks::{DATA, EMPTY, METADATA, UNDEFINED},
        header::{location_into_bytes, TYPES},
        layout, Flash,
    },
    op::Op,
    random::Random,
};

pub fn all(visit: Visit) -> bool {
    let mut r = Random::new(0);
    let mut both = |case: Case| {
        let lent = lent(&mut r, &case);
        visit(case) && visit(lent)
    };
    every_store(&mut both) && lengths(visit)
}

fn every_store(visit: Visit) -> bool {
    GRANULARITIES.into_iter().all(|granularity| {
        [(1, 1), (3, 2)].into_iter().all(|(s, c)| {
            let g = Geometry { granularity, s, c, strict: 0, size: 128, count: 4 };
            rows(g, visit)
                && places(g, visit)
                && sizes(g, visit)
                && states(g, visit)
                && bytes(g, visit)
                && kinds(g, visit)
                && moves(g, visit)
                && refusals(g, visit)
        })
    }) && orders(visit)
}

const HASH: u32 = 0x0403_0201;
const KINDS: [u32; 4] = [DATA, METADATA, METADATA, DATA];

/// Two files, the first of them with a twin in the later block, and a name and a data object that nothing refers to.
struct Small {
    store: Store,
    /// metadata, then names and data
    objects: Vec<Place>,
}

fn small(g: Geometry) -> Small {
    let mut store = Store::of(g, &KINDS);
    let one = store.file([1, 0], HASH, b"one", &[b"1", b"22"]).unwrap();
    let two = store.file([2, 3], HASH, b"two", &[b""]).unwrap();
    let twin = store.put(2, TYPES[0], &payload(g, HASH, one.name_at, &one.data)).unwrap();
    let left = [store.put(0, TYPES[2], b"left").unwrap(), store.put(3, TYPES[1], b"5").unwrap()];
    let objects = [&[one.at, two.at, twin, one.name_at, two.name_at][..], &one.data, &two.data, &left].concat();
    Small { store, objects }
}

/// Four places for metadata, two in each block, with one of six at each: none, a file, the same of another type, with another
/// location, with its hash and name alone, and another file.
fn rows(g: Geometry, visit: Visit) -> bool {
    (0..6usize.pow(4)).all(|n| {
        let mut store = Store::of(g, &KINDS);
        let name = store.put(0, TYPES[2], b"name").unwrap();
        let data: Vec<Place> = (0..3).map(|i| store.put([3, 0, 3][i], TYPES[1], &[i as u8; 2]).unwrap()).collect();
        for (i, block) in [1, 1, 2, 2].into_iter().enumerate() {
            let of = |hash, data: &[Place]| payload(g, hash, name, data);
            let (ty, bytes) = match n / 6usize.pow(i as u32) % 6 {
                0 => continue,
                1 => (TYPES[0], of(HASH, &data[..2])),
                2 => (TYPES[1], of(HASH, &data[..2])),
                3 => (TYPES[0], of(HASH, &data[1..])),
                4 => (TYPES[0], of(HASH, &[])),
                _ => (TYPES[0], of(HASH + 1, &data[..2])),
            };
            store.put(block, ty, &bytes).unwrap();
        }
        every_fuse(case(&store.flash), visit)
    })
}

/// The name and the last data object of a file looked for at every offset of every block, and of one that is not there.
fn places(g: Geometry, visit: Visit) -> bool {
    let Small { store, objects } = small(g);
    let first = layout::header_len(g) as u32 + 4;
    [first, first + 2 * layout::location_len(g) as u32].into_iter().all(|from| {
        (0..=g.count).all(|block| {
            (0..=g.size + 4).all(|offset| {
                let mut flash = store.flash.clone();
                for (i, byte) in (from..).zip(location_into_bytes(g, block, offset)) {
                    poke(&mut flash, objects[0], i, byte);
                }
                every_fuse(case(&flash), visit)
            })
        })
    })
}

/// Each object with every low byte of its size, which is unset among them.
fn sizes(g: Geometry, visit: Visit) -> bool {
    let Small { store, objects } = small(g);
    objects.into_iter().all(|at| {
        (0..=255).chain([layout::unset(g)]).all(|size| {
            let mut flash = store.flash.clone();
            set_size(&mut flash, at, size);
            let case = case(&flash);
            visit(Case { fuse: Some(1), ..case.clone() }) && visit(case)
        })
    })
}

/// Two objects at a time, each in every state, and with marks that are none.
fn states(g: Geometry, visit: Visit) -> bool {
    let Small { store, objects } = small(g);
    let (finish, delete) = (layout::finish_mark(g).0 as u32, layout::delete_mark(g).0 as u32);
    let marks: &[[u8; 2]] = if g.granularity == 0 {
        &[[0xFF; 2], [0x00; 2], [0x7F; 2]]
    } else {
        &[[0xFF, 0xFF], [0, 0], [0xFF, 0], [1, 0]]
    };
    let pairs = objects.iter().flat_map(|a| objects.iter().map(move |b| [*a, *b]));
    pairs.into_iter().all(|pair| {
        marks.iter().all(|&one| {
            marks.iter().all(|&other| {
                let mut flash = store.flash.clone();
                for (at, mark) in pair.into_iter().zip([one, other]) {
                    poke(&mut flash, at, finish, mark[0]);
                    poke(&mut flash, at, delete, mark[1]);
                }
                every_fuse(case(&flash), visit)
            })
        })
    })
}

const WRONG: [u8; 14] = [0x00, 0x01, 0x03, 0x08, 0x0C, 0x7F, 0x8C, 0x8D, 0x8E, 0x8F, 0xF0, 0xFF, 0x55, 0xAA];

/// Every byte that is written, or stands a header's length behind one that is, made wrong.
fn bytes(g: Geometry, visit: Visit) -> bool {
    let whole = small(g).store.flash;
    let near = |at: usize| {
        let from = at.saturating_sub(layout::header_len(g) as usize);
        whole.image[from..=at].iter().any(|&byte| byte != 0xFF)
    };
    (0..whole.image.len()).filter(|&at| near(at)).all(|at| {
        WRONG.into_iter().filter(|&byte| byte != whole.image[at]).all(|byte| {
            let mut case = case(&whole);
            case.image[at] = byte;
            visit(Case { fuse: Some(1), ..case.clone() }) && visit(case)
        })
    })
}

/// Four blocks of all kinds: a name in the first, and data and metadata in each, but no data in a Metadata block.
fn kinds(g: Geometry, visit: Visit) -> bool {
    let many = (UNDEFINED - EMPTY + 1) as usize;
    (0..many.pow(4)).all(|n| {
        let kinds: Vec<u32> = (0..4).map(|block| (n / many.pow(block) % many) as u32).collect();
        let mut store = Store::of(g, &kinds);
        let name = store.put(0, TYPES[2], b"n").unwrap();
        for block in 0..4 {
            if kinds[block as usize] != METADATA {
                store.put(block, TYPES[1], b"12").unwrap();
            }
            if kinds[block as usize] != DATA || n % 2 == 0 {
                store.put(block, TYPES[0], &payload(g, HASH, name, &[])).unwrap();
            }
        }
        every_fuse(case(&store.flash), visit)
    })
}

/// Metadata moved to the other Metadata block, cut at every unit.
fn moves(g: Geometry, visit: Visit) -> bool {
    let Small { store, objects } = small(g);
    objects[..2].iter().all(|&[block, offset]| {
        let header = store.flash.read_header(block, offset).unwrap();
        let to = 3 - block;
        let end = *spots(&store.flash, to).last().unwrap();
        (0..40).all(|fuse| {
            let mut flash: Flash = store.flash.clone();
            flash.fuse = Some(fuse);
            let _ = flash.move_object(header, to, end);
            every_fuse(case(&flash), visit)
        })
    })
}

/// A header that is none behind the last object of each block, alone and with a location that points to nothing before or
/// behind it.
fn refusals(g: Geometry, visit: Visit) -> bool {
    let Small { store, objects } = small(g);
    let kinds = [METADATA, DATA, UNDEFINED].map(crate::model::blocks::type_byte);
    (0..g.count).all(|broken| {
        [None, Some(objects[0]), Some(objects[2])].into_iter().all(|dangling| {
            kinds.into_iter().all(|kind| {
                let mut flash = store.flash.clone();
                let end = *spots(&flash, broken).last().unwrap();
                poke(&mut flash, [broken, end], 0, 0x8C);
                poke(&mut flash, [broken, 0], layout::block_type_at(g) as u32, kind);
                if let Some(at) = dangling {
                    poke(&mut flash, at, layout::header_len(g) as u32 + 4, 9);
                }
                every_fuse(case(&flash), visit)
            })
        })
    })
}

/// What is refused first: a wrong geometry, a wrong room, and then what the image says.
fn orders(visit: Visit) -> bool {
    GRANULARITIES.into_iter().all(|granularity| {
        let g = Geometry { granularity, s: 1, c: 1, strict: 0, size: 128, count: 4 };
        let Small { store, objects } = small(g);
        let mut dangling = store.flash.clone();
        poke(&mut dangling, objects[0], layout::header_len(g) as u32 + 4, 9);
        let wrong = [Geometry { granularity: 2, ..g }, Geometry { s: 0, ..g }, Geometry { size: 126, ..g }];
        [g].into_iter().chain(wrong).all(|geometry| {
            [512, 511, 513, 0, 256].into_iter().all(|room| {
                [&store.flash, &dangling].into_iter().all(|flash| {
                    [None, Some(0), Some(u32::MAX)].into_iter().all(|fuse| {
                        let mut case = Case { geometry, fuse, ..case(flash) };
                        case.image.resize(room, 0xFF);
                        visit(case)
                    })
                })
            })
        })
    })
}

/// Every number of words up to two more than the image has bytes, and twice as many, in a sweep that is done and in one for each
/// refusal.
fn lengths(visit: Visit) -> bool {
    let mut r = Random::new(1);
    GRANULARITIES.into_iter().all(|granularity| {
        let g = Geometry { granularity, s: 1, c: 1, strict: 0, size: 128, count: 4 };
        each_answer(g).into_iter().all(|case| {
            (0..=g.room() + 2).chain([2 * g.room()]).all(|many| {
                let array = words(&mut r, many);
                visit(Case { op: Op::SweepWith, array, ..case.clone() })
            })
        })
    })
}

/// Sweeps of a small store that are done, cut, and refused for the geometry, the room, a listing, and a location.
fn each_answer(g: Geometry) -> Vec<Case> {
    let Small { store, objects } = small(g);
    let done = case(&store.flash);
    let mut broken = store.flash.clone();
    poke(&mut broken, [0, *spots(&store.flash, 0).last().unwrap()], 0, 0x8C);
    let mut dangling = store.flash.clone();
    poke(&mut dangling, objects[0], layout::header_len(g) as u32 + 4, 9);
    let [short, long] = [g.room() - 1, g.room() + 1].map(|room| {
        let mut case = done.clone();
        case.image.resize(room, 0xFF);
        case
    });
    let cut = |fuse| Case { fuse: Some(fuse), ..done.clone() };
    let wrong = Case { geometry: Geometry { s: 0, ..g }, ..short.clone() };
    vec![cut(0), cut(1), cut(3), wrong, short, long, case(&broken), case(&dangling), done]
}
