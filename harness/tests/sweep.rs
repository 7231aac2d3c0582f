//! The rules of a sweep by name, each with a small store on which all sides that can be asked agree.

mod bench;

use bench::{
    named::{empty, HASH},
    sweeps::{alike, notes, Said},
};
use harness::{
    case::Case,
    cases::{
        stores::{delete, payload, poke, set_size, File, Place, Store},
        sweep::case,
    },
    model::{
        blocks::{type_byte, UNDEFINED},
        header::{DELETED, FINALIZED, TYPES},
        layout, Flash,
    },
    op::Op,
    outcome::Outcome,
};

const GRANULARITIES: [u8; 3] = [0, 1, 4];

/// The outcome of a sweep, where it is the same on all sides, and also with words lent.
fn agreed(case: &Case) -> Outcome {
    let words = notes(case.image.len());
    let outcome = bench::named::agreed(case);
    let lent = bench::named::agreed(&Case { op: Op::SweepWith, array: words.clone(), ..case.clone() });
    alike(&outcome, &lent, &words);
    outcome
}

/// Sweeps the store, and gives what was said; after a refusal nothing may be stored.
fn swept(flash: &mut Flash) -> Said {
    let case = case(flash);
    let outcome = agreed(&case);
    let said = (outcome.answer, outcome.values[0], outcome.values[1]);
    assert!(outcome.done() || outcome.image == case.image);
    flash.image = outcome.image;
    said
}

fn said(store: &Store) -> Said {
    swept(&mut store.flash.clone())
}

fn state(flash: &Flash, at: Place) -> u32 {
    flash.read_header(at[0], at[1]).unwrap().state
}

/// A Data block, two Metadata blocks and another Data block, with a file of two data objects in block 2.
fn one_file(granularity: u8) -> (Store, File) {
    let mut store = empty(granularity);
    let file = store.file([2, 0], HASH, b"street", &[b"12", b"3"]).unwrap();
    (store, file)
}

fn whole(store: &Store, file: &File) -> Vec<u8> {
    payload(store.flash.geometry, file.hash, file.name_at, &file.data)
}

/// The file's metadata with its last data object at another place.
fn pointed(store: &Store, file: &File, to: Place) -> Vec<u8> {
    payload(store.flash.geometry, file.hash, file.name_at, &[file.data[0], to])
}

#[test]
fn a_store_without_anything_left_over_stays() {
    for granularity in GRANULARITIES {
        let (store, _) = one_file(granularity);
        assert_eq!(said(&store), (0, 0, 0));
        assert_eq!(agreed(&Case { fuse: Some(0), ..case(&store.flash) }).answer, 0, "no power is needed");
        assert_eq!(said(&empty(granularity)), (0, 0, 0), "without an object");
    }
}

#[test]
fn of_twins_the_first_in_lookup_order_stays() {
    for granularity in GRANULARITIES {
        for block in [1, 2] {
            let (mut store, file) = one_file(granularity);
            let twin = store.put(block, TYPES[0], &whole(&store, &file)).unwrap();
            let (first, second) = if block == 1 { (twin, file.at) } else { (file.at, twin) };
            assert_eq!(swept(&mut store.flash), (0, 1, 0));
            assert_eq!((state(&store.flash, first), state(&store.flash, second)), (FINALIZED, DELETED));
        }
    }
}

#[test]
fn of_three_twins_two_go_and_each_is_a_unit() {
    for granularity in GRANULARITIES {
        let (mut store, file) = one_file(granularity);
        for block in [1, 2] {
            store.put(block, TYPES[0], &whole(&store, &file)).unwrap();
        }
        for (fuse, (answer, twins)) in [(0, (8, 0)), (1, (8, 1)), (2, (0, 2)), (3, (0, 2))] {
            let outcome = agreed(&Case { fuse: Some(fuse), ..case(&store.flash) });
            assert_eq!((outcome.answer, &outcome.values[..]), (answer, &[twins, 0][..]));
            assert_eq!(outcome.fuse, Some(fuse - twins as u32));
        }
    }
}

#[test]
fn what_is_not_equal_in_type_and_payload_is_no_twin() {
    for granularity in GRANULARITIES {
        let (mut store, file) = one_file(granularity);
        let g = store.flash.geometry;
        store.put(1, TYPES[1], &whole(&store, &file)).unwrap();
        store.put(1, TYPES[0], &payload(g, HASH, file.name_at, &[])).unwrap();
        store.put(2, TYPES[0], &payload(g, HASH + 1, file.name_at, &file.data)).unwrap();
        assert_eq!(said(&store), (0, 0, 0));
        store.put(1, TYPES[0], &pointed(&store, &file, file.data[0])).unwrap();
        assert_eq!(said(&store), (0, 0, 0), "one location differs");
    }
}

#[test]
fn what_no_metadata_refers_to_goes() {
    for granularity in GRANULARITIES {
        let (mut store, file) = one_file(granularity);
        let left = [(0, TYPES[2]), (3, TYPES[1]), (3, TYPES[0])].map(|(block, ty)| store.put(block, ty, b"x").unwrap());
        assert_eq!(swept(&mut store.flash), (0, 0, 3), "of any type");
        assert!(left.iter().all(|&at| state(&store.flash, at) == DELETED));
        assert!([file.name_at, file.data[0], file.data[1]].iter().all(|&at| state(&store.flash, at) == FINALIZED));
    }
}

#[test]
fn deleted_and_unfinished_metadata_refers_to_nothing() {
    for granularity in GRANULARITIES {
        let (store, file) = one_file(granularity);
        let mark = layout::finish_mark(store.flash.geometry).0 as u32;
        let mut gone = store.flash.clone();
        delete(&mut gone, file.at);
        assert_eq!(swept(&mut gone), (0, 0, 3));
        let mut open = store.flash.clone();
        poke(&mut open, file.at, mark, 0xFF);
        assert_eq!(swept(&mut open), (0, 0, 3));
    }
}

#[test]
fn other_blocks_are_not_looked_at() {
    for granularity in GRANULARITIES {
        let (store, file) = one_file(granularity);
        let at = layout::block_type_at(store.flash.geometry) as u32;
        let mut metadata = store.flash.clone();
        poke(&mut metadata, [2, 0], at, type_byte(UNDEFINED));
        assert_eq!(swept(&mut metadata), (0, 0, 3), "metadata in an Undefined block refers to nothing");
        let mut data = store.flash.clone();
        poke(&mut data, [0, 0], at, type_byte(UNDEFINED));
        assert_eq!(swept(&mut data), (14, 0, 0), "and data in one is not there");
        let mut broken = store.flash.clone();
        poke(&mut broken, [1, 0], at, type_byte(UNDEFINED));
        poke(&mut broken, [1, file.at[1]], 0, 0x8C);
        assert_eq!(swept(&mut broken), (0, 0, 0), "its listing does not matter");
    }
}

#[test]
fn data_that_is_referred_to_more_than_once_stays() {
    for granularity in GRANULARITIES {
        let (mut store, file) = one_file(granularity);
        let g = store.flash.geometry;
        store.put(1, TYPES[0], &payload(g, 9, file.data[0], &[file.data[0], file.data[0], file.name_at])).unwrap();
        assert_eq!(swept(&mut store.flash), (0, 0, 0));
        delete(&mut store.flash, file.at);
        assert_eq!(swept(&mut store.flash), (0, 0, 1), "but for what only the first file had");
        assert_eq!(state(&store.flash, file.data[1]), DELETED);
    }
}

#[test]
fn a_location_where_no_finished_object_of_a_data_block_is_listed_dangles() {
    for granularity in GRANULARITIES {
        let (mut store, file) = one_file(granularity);
        let g = store.flash.geometry;
        let [gone, open] = [0, 1].map(|_| store.put(3, TYPES[1], b"4").unwrap());
        delete(&mut store.flash, gone);
        poke(&mut store.flash, open, layout::finish_mark(g).0 as u32, 0xFF);
        let end = [0, g.size - 20];
        let middle = [file.data[0][0], file.data[0][1] + layout::width(g) as u32];
        let last = [0, g.size - layout::header_len(g) as u32];
        store.flash.write_to(last[0], last[1], TYPES[1], &[]).unwrap();
        for to in [gone, open, middle, end, last, file.at, [0, 0], [0, 255], [4, 8], [255, 255], [1, file.name_at[1]]] {
            let mut other = store.clone();
            other.put(1, TYPES[0], &pointed(&store, &file, to)).unwrap();
            assert_eq!(said(&other), (14, 0, 0), "{to:?}");
            let mut other = store.clone();
            other.put(1, TYPES[0], &payload(g, HASH, to, &[])).unwrap();
            assert_eq!(said(&other), (14, 0, 0), "a name at {to:?}");
        }
        assert_eq!(said(&store), (0, 0, 0));
    }
}

#[test]
fn metadata_that_is_no_whole_payload_dangles() {
    for granularity in GRANULARITIES {
        let (mut store, file) = one_file(granularity);
        let g = store.flash.geometry;
        let (payload, location) = (whole(&store, &file), layout::location_len(g) as usize);
        for len in 0..=payload.len() {
            let mut other = store.clone();
            other.put(1, TYPES[0], &payload[..len]).unwrap();
            let twins = (len == payload.len()) as u64;
            let is_whole = len >= 4 + location && (len - 4) % location == 0;
            assert_eq!(said(&other), if is_whole { (0, twins, 0) } else { (14, 0, 0) }, "{len} bytes");
        }
        let fill = g.size - file.at[1] - layout::header_len(g) as u32;
        for size in [fill, fill + 1, fill + 2, 254] {
            set_size(&mut store.flash, file.at, size);
            assert_eq!(said(&store), (14, 0, 0), "up to its block's end, and past it");
        }
        let mut store = empty(granularity);
        let at = store.put(1, TYPES[0], &[]).unwrap();
        assert_eq!(said(&store), (14, 0, 0), "no hash");
        set_size(&mut store.flash, at, layout::unset(g));
        assert_eq!(said(&store), (14, 0, 0), "an unset size");
    }
}

#[test]
fn data_may_run_past_its_block_and_may_have_no_size() {
    for granularity in GRANULARITIES {
        let (store, file) = one_file(granularity);
        let last = file.data[1];
        for size in [store.flash.geometry.size, 254] {
            let mut flash = store.flash.clone();
            set_size(&mut flash, last, size);
            assert_eq!(swept(&mut flash), (0, 0, 0));
        }
        let mut store = empty(granularity);
        let g = store.flash.geometry;
        let [name, left] = [0, 3].map(|block| store.put(block, TYPES[2], b"").unwrap());
        for at in [name, left] {
            set_size(&mut store.flash, at, layout::unset(g));
        }
        store.put(1, TYPES[0], &payload(g, HASH, name, &[])).unwrap();
        assert_eq!(said(&store), (0, 0, 1));
    }
}

#[test]
fn a_listing_is_refused_before_what_dangles_wherever_it_stands() {
    for granularity in GRANULARITIES {
        for broken in 0..4 {
            for dangling in [1, 2] {
                let (mut store, file) = one_file(granularity);
                let g = store.flash.geometry;
                store.put(dangling, TYPES[0], &pointed(&store, &file, [9, 9])).unwrap();
                let left = store.put(3, TYPES[1], b"x").unwrap();
                assert_eq!(said(&store), (14, 0, 0));
                let end = *harness::cases::images::spots(&store.flash, broken).last().unwrap();
                poke(&mut store.flash, [broken, end], 0, 0x8C);
                assert_eq!(said(&store), (2, 0, 0), "block {broken}");
                assert_eq!(state(&store.flash, left), FINALIZED);
                let cut = agreed(&Case { fuse: Some(0), ..case(&store.flash) });
                assert_eq!((cut.answer, cut.fuse), (2, Some(0)), "before any store");
                let short = Case { image: vec![0xFF; g.room() - 1], ..case(&store.flash) };
                assert_eq!((agreed(&short).answer, &agreed(&short).values[..]), (7, &[0, 0][..]));
                let bad = Case { geometry: harness::geometry::Geometry { s: 0, ..g }, ..short };
                assert_eq!((agreed(&bad).answer, &agreed(&bad).values[..]), (6, &[0, 0][..]));
            }
        }
    }
}

#[test]
fn twins_go_before_what_nothing_refers_to() {
    for granularity in GRANULARITIES {
        let (mut store, file) = one_file(granularity);
        let left = store.put(0, TYPES[2], b"left").unwrap();
        let twin = store.put(2, TYPES[0], &whole(&store, &file)).unwrap();
        for (fuse, said, states) in [
            (0, (8, 0, 0), [FINALIZED, FINALIZED]),
            (1, (8, 1, 0), [DELETED, FINALIZED]),
            (2, (0, 1, 1), [DELETED, DELETED]),
        ] {
            let cut = agreed(&Case { fuse: Some(fuse), ..case(&store.flash) });
            assert_eq!((cut.answer, cut.values[0], cut.values[1]), said);
            let flash = Flash::new(store.flash.geometry, cut.image, None);
            assert_eq!([twin, left].map(|at| state(&flash, at)), states);
        }
    }
}

#[test]
fn another_number_of_words_is_refused_behind_geometry_and_image_and_before_all_else() {
    for granularity in GRANULARITIES {
        let (mut store, file) = one_file(granularity);
        let g = store.flash.geometry;
        store.put(2, TYPES[0], &whole(&store, &file)).unwrap();
        let mut broken = store.flash.clone();
        poke(&mut broken, [0, 0], layout::block_header_len(g) as u32, 0x8C);
        for many in [0, 1, g.room() / 4, g.room() - 1, g.room() + 1, 2 * g.room()] {
            let lent = |case: Case| Case { op: Op::SweepWith, array: notes(many), ..case };
            let short = Case { image: vec![0xFF; g.room() - 1], ..case(&store.flash) };
            let bad = harness::geometry::Geometry { s: 0, ..g };
            for (case, answer) in [
                (case(&store.flash), 7),
                (Case { fuse: Some(0), ..case(&store.flash) }, 7),
                (case(&broken), 7),
                (short.clone(), 7),
                (Case { geometry: bad, ..short }, 6),
                (Case { geometry: bad, ..case(&store.flash) }, 6),
            ] {
                let case = lent(case);
                let outcome = bench::named::agreed(&case);
                assert_eq!((outcome.answer, &outcome.values[..]), (answer, &[0, 0][..]), "{many} words");
                assert!((outcome.image, outcome.array, outcome.fuse) == (case.image, case.array, case.fuse), "{many}");
            }
        }
        assert_eq!((swept(&mut broken).0, said(&store)), (2, (0, 1, 0)));
    }
}
