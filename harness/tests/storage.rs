//! Files by their names: the rules of lookup, of a file's length and bytes, and of the names, each with a small store on
//! which all sides that can be asked agree.

mod bench;

use bench::named::{agreed, content, empty, first, lookup, names, next, read, size, HASH};
use harness::{
    case::Case,
    cases::stores::{delete, payload, poke, set_size, File, Store},
    model::{
        blocks::{DATA, EMPTY, METADATA, UNDEFINED, UNKNOWN},
        header::{location_into_bytes, TYPES},
        layout, Flash,
    },
    op::Op,
};

const GRANULARITIES: [u8; 3] = [0, 1, 4];

/// A file `street` of three data objects, with its metadata in the first Metadata block; on each granularity.
fn street(test: impl Fn(Store, File)) {
    for granularity in GRANULARITIES {
        let mut store = empty(granularity);
        let file = store.file([1, 0], HASH, b"street", &[b"12", b"", b"345"]).unwrap();
        test(store, file);
    }
}

/// So many bytes of a long name.
fn long(len: usize) -> Vec<u8> {
    (b'a'..=b'z').cycle().take(len).collect()
}

/// Takes the finish mark back.
fn open_again(flash: &mut Flash, at: [u32; 2]) {
    poke(flash, at, layout::finish_mark(flash.geometry).0 as u32, 0xFF);
}

/// Makes a location of the metadata at a place another one: the name's is the first.
fn point(flash: &mut Flash, at: [u32; 2], index: u64, to: [u32; 2]) {
    let g = flash.geometry;
    let from = layout::header_len(g) + 4 + index * layout::location_len(g);
    for (offset, byte) in (from as u32..).zip(location_into_bytes(g, to[0], to[1])) {
        poke(flash, at, offset, byte);
    }
}

#[test]
fn a_file_is_found_by_its_hash_and_its_name() {
    street(|store, file| {
        assert_eq!(lookup(&store.flash, HASH, b"street"), Ok(file.at), "where the metadata is");
        assert_eq!(lookup(&store.flash, HASH + 1, b"street"), Err(13));
        for path in [&b"streeT"[..], b"stree", b"streets", b"Street", b""] {
            assert_eq!(lookup(&store.flash, HASH, path), Err(13));
        }
    });
}

#[test]
fn the_first_in_block_and_offset_order_is_found() {
    street(|mut store, file| {
        let later = store.file([2, 3], HASH, b"street", &[]).unwrap();
        let behind = store.file([1, 3], HASH, b"street", &[]).unwrap();
        for at in [file.at, behind.at, later.at] {
            assert_eq!(lookup(&store.flash, HASH, b"street"), Ok(at));
            delete(&mut store.flash, at);
        }
        assert_eq!(lookup(&store.flash, HASH, b"street"), Err(13), "a deleted one is not found");
    });
}

#[test]
fn equal_hashes_and_equal_names_are_told_apart() {
    street(|mut store, file| {
        let name = store.file([1, 3], HASH, b"avenue", &[]).unwrap();
        let hash = store.file([2, 3], HASH + 1, b"street", &[]).unwrap();
        assert_eq!(lookup(&store.flash, HASH, b"street"), Ok(file.at));
        assert_eq!(lookup(&store.flash, HASH, b"avenue"), Ok(name.at));
        assert_eq!(lookup(&store.flash, HASH + 1, b"street"), Ok(hash.at));
        assert_eq!(lookup(&store.flash, HASH + 1, b"avenue"), Err(13));
    });
}

#[test]
fn a_path_of_no_bytes_matches_an_empty_name_only() {
    street(|mut store, _| {
        assert_eq!(lookup(&store.flash, HASH, b""), Err(13));
        let file = store.file([1, 3], HASH, b"", &[]).unwrap();
        assert_eq!(lookup(&store.flash, HASH, b""), Ok(file.at));
    });
}

#[test]
fn a_path_may_have_any_bytes() {
    for granularity in GRANULARITIES {
        let mut store = empty(granularity);
        let name = [0xFF, 0x00, 0xC3, 0x28, 0x8F];
        let file = store.file([1, 0], HASH, &name, &[]).unwrap();
        assert_eq!(lookup(&store.flash, HASH, &name), Ok(file.at));
    }
}

#[test]
fn an_object_of_any_type_is_looked_at() {
    for kind in TYPES {
        street(|mut store, file| {
            poke(&mut store.flash, file.at, 0, kind as u8);
            assert_eq!(lookup(&store.flash, HASH, b"street"), Ok(file.at));
            assert_eq!(content(&store.flash, file.at), Ok(b"12345".to_vec()));
        });
    }
}

#[test]
fn only_finished_objects_are_looked_at() {
    street(|mut store, file| {
        let twin = store.file([1, 3], HASH, b"street", &[]).unwrap();
        open_again(&mut store.flash, file.at);
        assert_eq!(lookup(&store.flash, HASH, b"street"), Ok(twin.at));
        assert_eq!(names(&store.flash), (vec![b"street".to_vec()], Ok(())));
    });
}

#[test]
fn only_metadata_blocks_are_looked_at() {
    for granularity in GRANULARITIES {
        let g = empty(granularity).flash.geometry;
        for kind in [EMPTY, UNKNOWN, DATA, UNDEFINED, METADATA] {
            let mut store = Store::of(g, &[kind, DATA, METADATA, DATA]);
            let there = store.file([0, 1], HASH, b"a", &[]).unwrap();
            let later = store.file([2, 1], HASH, b"a", &[]).unwrap();
            let found = if kind == METADATA { &there } else { &later };
            assert_eq!(lookup(&store.flash, HASH, b"a"), Ok(found.at), "kind {kind}");
            poke(&mut store.flash, there.at, 0, 0x8C);
            let broken = if kind == METADATA { Err(2) } else { Ok(later.at) };
            assert_eq!(lookup(&store.flash, HASH, b"a"), broken, "what is broken there matters to Metadata alone");
        }
    }
}

#[test]
fn a_refusal_on_the_way_ends_the_lookup() {
    street(|mut store, file| {
        let later = store.file([2, 3], HASH, b"later", &[]).unwrap();
        poke(&mut store.flash, later.at, 0, 0x8C);
        assert_eq!(lookup(&store.flash, HASH, b"street"), Ok(file.at), "it is found before");
        assert_eq!(lookup(&store.flash, HASH, b"none"), Err(2));
    });
}

#[test]
fn a_name_is_opened_only_where_the_hash_is_equal() {
    street(|mut store, file| {
        let places = [([0, 100], 2), ([0, 127], 3), ([9, 8], 3), (file.data[0], 13), ([2, 100], 2)];
        for (to, answer) in places {
            point(&mut store.flash, file.at, 0, to);
            assert_eq!(lookup(&store.flash, HASH, b"street"), Err(answer), "{to:?}");
            assert_eq!(lookup(&store.flash, HASH + 1, b"street"), Err(13));
        }
    });
    street(|mut store, file| {
        delete(&mut store.flash, file.name_at);
        assert_eq!(lookup(&store.flash, HASH, b"street"), Err(2), "a deleted name");
    });
    street(|mut store, file| {
        open_again(&mut store.flash, file.name_at);
        assert_eq!(lookup(&store.flash, HASH, b"street"), Err(2), "an unfinished name");
    });
}

/// A name of which the block has some 20 bytes, with another size; and where its metadata is.
fn overrun(granularity: u8, size: u32) -> (Flash, [u32; 2]) {
    let mut store = empty(granularity);
    let g = store.flash.geometry;
    let at = [3, (g.size - layout::header_len(g) as u32 - 20) / 4 * 4];
    store.flash.write_to(at[0], at[1], TYPES[2], &long(20)).unwrap();
    set_size(&mut store.flash, at, size);
    let metadata = store.put(1, TYPES[0], &payload(g, HASH, at, &[])).unwrap();
    (store.flash, metadata)
}

#[test]
fn a_name_past_its_block_is_told_where_all_turns_before_are_equal() {
    for granularity in GRANULARITIES {
        let (flash, at) = overrun(granularity, 40);
        assert_eq!(lookup(&flash, HASH, &long(40)), Err(3));
        let mut other = long(40);
        other[15] ^= 1;
        assert_eq!(lookup(&flash, HASH, &other), Err(13), "the first 16 bytes differ");
        other = long(40);
        other[16] ^= 1;
        assert_eq!(lookup(&flash, HASH, &other), Err(3), "the second turn cannot be read");
        assert_eq!(lookup(&flash, HASH, &long(20)), Err(13), "another length is not read");
        assert_eq!(next(&flash, [1, at[1]], 40), Err(3));
        assert_eq!(next(&flash, [1, at[1]], 39), Err(7), "its length is compared first");
    }
}

#[test]
fn an_unset_name_is_empty() {
    street(|mut store, file| {
        set_size(&mut store.flash, file.name_at, 255);
        assert_eq!(lookup(&store.flash, HASH, b"street"), Err(13));
        assert_eq!(lookup(&store.flash, HASH, b""), Ok(file.at));
        assert_eq!(names(&store.flash), (vec![vec![]], Ok(())));
    });
}

#[test]
fn metadata_past_its_block_is_io() {
    for granularity in GRANULARITIES {
        let mut store = empty(granularity);
        let g = store.flash.geometry;
        let len = g.size - layout::block_header_len(g) as u32 - 2 * layout::header_len(g) as u32 - 4;
        store.put(1, TYPES[0], &vec![0xEE; len as usize]).unwrap();
        let at = store.put(1, TYPES[0], &[1, 2, 3]).unwrap();
        delete(&mut store.flash, [1, layout::block_header_len(g) as u32]);
        assert_eq!(lookup(&store.flash, HASH, b"x"), Err(3), "hash and name are read, whatever the size says");
        assert_eq!((size(&store.flash, at), content(&store.flash, at)), (Err(3), Err(3)));
    }
}

#[test]
fn an_object_whose_header_ends_with_its_block_is_not_looked_at() {
    for granularity in GRANULARITIES {
        let mut store = empty(granularity);
        let g = store.flash.geometry;
        let len = g.size as u64 - layout::block_header_len(g) - 2 * layout::header_len(g);
        let before = store.put(1, TYPES[1], &vec![0x41; len as usize]).unwrap();
        delete(&mut store.flash, before);
        let last = store.put(1, TYPES[0], &[]).unwrap();
        assert_eq!(lookup(&store.flash, HASH, b"x"), Err(13), "{granularity}");
        assert_eq!(next(&store.flash, last, 9), Ok(None));
    }
}

#[test]
fn short_metadata_is_found_and_cannot_be_read() {
    street(|mut store, file| {
        for short in 0..6 {
            set_size(&mut store.flash, file.at, short);
            assert_eq!(lookup(&store.flash, HASH, b"street"), Ok(file.at));
            assert_eq!(size(&store.flash, file.at), Err(9));
            assert_eq!(read(&store.flash, file.at, 0, 1), Err(9));
            assert_eq!(read(&store.flash, file.at, 0, 0), Ok(vec![]), "nothing is asked for an empty buffer");
        }
        set_size(&mut store.flash, file.at, 6);
        assert_eq!((size(&store.flash, file.at), content(&store.flash, file.at)), (Ok(0), Ok(vec![])));
        set_size(&mut store.flash, file.at, 255);
        assert_eq!((size(&store.flash, file.at), content(&store.flash, file.at)), (Ok(0), Ok(vec![])), "an unset size");
        set_size(&mut store.flash, file.at, 7);
        assert_eq!(content(&store.flash, file.at), Ok(b"12".to_vec()), "a part of a location is read as a whole one");
    });
}

#[test]
fn a_file_is_its_data_joined() {
    street(|store, file| {
        assert_eq!(size(&store.flash, file.at), Ok(5));
        for position in 0..7 {
            for len in 0..7 {
                let whole = &b"12345"[position.min(5)..];
                let part = whole[..len.min(whole.len())].to_vec();
                assert_eq!(read(&store.flash, file.at, position as u64, len), Ok(part));
            }
        }
    });
}

#[test]
fn reading_in_pieces_joins_to_reading_at_once() {
    street(|store, file| {
        for piece in 1..6 {
            let mut joined = Vec::new();
            loop {
                let more = read(&store.flash, file.at, joined.len() as u64, piece).unwrap();
                if more.is_empty() {
                    break;
                }
                joined.extend(more);
            }
            assert_eq!(joined, b"12345");
        }
    });
}

#[test]
fn a_position_at_or_past_the_end_reads_nothing() {
    street(|store, file| {
        for position in [5, 6, 1 << 32, u64::MAX - 1, u64::MAX] {
            assert_eq!(read(&store.flash, file.at, position, 9), Ok(vec![]));
        }
    });
}

#[test]
fn a_repeated_location_is_read_as_written() {
    street(|mut store, file| {
        point(&mut store.flash, file.at, 2, file.data[0]);
        point(&mut store.flash, file.at, 3, file.data[0]);
        assert_eq!((size(&store.flash, file.at), content(&store.flash, file.at)), (Ok(6), Ok(b"121212".to_vec())));
    });
}

#[test]
fn once_the_buffer_is_full_no_more_is_opened() {
    street(|mut store, file| {
        delete(&mut store.flash, file.data[1]);
        assert_eq!(read(&store.flash, file.at, 0, 2), Ok(b"12".to_vec()));
        assert_eq!(read(&store.flash, file.at, 0, 3), Err(2), "and the whole buffer is as it was");
        assert_eq!(size(&store.flash, file.at), Err(2));
    });
}

#[test]
fn an_object_with_nothing_to_give_is_opened_and_not_read() {
    street(|mut store, file| {
        set_size(&mut store.flash, file.data[0], 200);
        assert_eq!(read(&store.flash, file.at, 200, 9), Ok(b"345".to_vec()), "it runs past its block");
        assert_eq!(read(&store.flash, file.at, 199, 9), Err(3));
        assert_eq!(size(&store.flash, file.at), Ok(203));
        delete(&mut store.flash, file.data[0]);
        assert_eq!(read(&store.flash, file.at, 200, 9), Err(2));
    });
}

#[test]
fn metadata_is_opened_wherever_an_object_is() {
    street(|mut store, file| {
        delete(&mut store.flash, file.at);
        assert_eq!(content(&store.flash, file.at), Ok(b"12345".to_vec()), "a deleted one too");
        for (at, answer) in [([1, 100], 2), ([1, 127], 3), ([4, 8], 3), ([u32::MAX, u32::MAX], 3)] {
            assert_eq!((size(&store.flash, at), read(&store.flash, at, 0, 0)), (Err(answer), Err(answer)), "{at:?}");
        }
    });
}

#[test]
fn names_come_one_a_call_in_the_order_of_a_lookup() {
    street(|mut store, file| {
        let later = store.file([2, 3], HASH, b"later", &[]).unwrap();
        let behind = store.file([1, 3], HASH, b"", &[]).unwrap();
        let start = first(store.flash.geometry);
        assert_eq!(start, [0, layout::block_header_len(store.flash.geometry) as u32]);
        let (name, at, place) = next(&store.flash, start, 9).unwrap().unwrap();
        assert_eq!((&name[..], at, place), (&b"street"[..], file.at, behind.at), "the place is right behind it");
        let (name, at, place) = next(&store.flash, place, 9).unwrap().unwrap();
        assert_eq!((&name[..], at, place[0]), (&b""[..], behind.at, 1));
        let (name, at, place) = next(&store.flash, place, 9).unwrap().unwrap();
        assert_eq!((&name[..], at, place[0]), (&b"later"[..], later.at, 2));
        assert_eq!(next(&store.flash, place, 9), Ok(None), "the end is no refusal");
        assert_eq!(next(&store.flash, place, 0), Ok(None), "and stays the end");
    });
}

#[test]
fn names_go_on_from_any_place() {
    street(|store, file| {
        for place in [[4, 8], [5, 0], [u32::MAX, 8], [1, 127], [1, u32::MAX], [3, 0]] {
            assert_eq!(next(&store.flash, place, 9), Ok(None), "{place:?}");
        }
        assert_eq!(next(&store.flash, [0, u32::MAX], 9).unwrap().unwrap().1, file.at, "the next block is listed whole");
        assert_eq!(next(&store.flash, [1, 0], 9), Err(2), "a block's own header is no object");
    });
}

#[test]
fn a_name_longer_than_its_buffer_stays_where_it_is() {
    street(|store, file| {
        for len in 0..6 {
            assert_eq!(next(&store.flash, file.at, len), Err(7));
        }
        assert_eq!(next(&store.flash, file.at, 6).unwrap().unwrap().0, b"street");
    });
}

#[test]
fn broken_metadata_stops_the_names_for_good() {
    street(|mut store, file| {
        store.file([2, 3], HASH, b"later", &[]).unwrap();
        delete(&mut store.flash, file.name_at);
        assert_eq!(names(&store.flash), (vec![], Err(2)));
        assert_eq!(next(&store.flash, [2, file.at[1]], 9).unwrap().unwrap().0, b"later", "from behind it they go on");
    });
}

#[test]
fn geometry_and_room_come_first() {
    let flash = empty(0).flash;
    let calls = [
        Case { args: vec![0], ..Case::of(Op::Lookup, flash.geometry) },
        Case { args: vec![9, 9], ..Case::of(Op::FileSize, flash.geometry) },
        Case { args: vec![9, 9, 0, 0], ..Case::of(Op::FileRead, flash.geometry) },
        Case { array: vec![9, 9], ..Case::of(Op::NamesNext, flash.geometry) },
    ];
    for mut case in calls {
        case.image = flash.image[1..].to_vec();
        assert_eq!(agreed(&case).answer, 7);
        case.geometry.granularity = 2;
        assert_eq!(agreed(&case).answer, 6);
    }
    let mut case = Case::of(Op::NamesNew, flash.geometry);
    case.geometry.s = 0;
    assert_eq!(agreed(&case).answer, 6);
}

/// The library takes null for a path or a buffer without anything in it.
#[cfg(feature = "storage")]
#[test]
fn nothing_may_be_null() {
    use harness::rattle::interface::{stumpchoir_file_read, stumpchoir_lookup, stumpchoir_names_next};
    let mut store = empty(0);
    let file = store.file([1, 0], HASH, b"", &[b"1"]).unwrap();
    let (g, image) = (store.flash.geometry.numbers(), &store.flash.image);
    let (g, image, len) = (g.as_ptr(), image.as_ptr(), image.len());
    let (none, mut place, mut names) = (std::ptr::null_mut(), [0; 2], file.at);
    let (mut found, mut read) = (9, 9);
    let at = place.as_mut_ptr();
    assert_eq!(unsafe { stumpchoir_lookup(g, image, len, none, 0, HASH, at) }, 0);
    assert_eq!(unsafe { stumpchoir_file_read(g, image, len, file.at[0], file.at[1], 0, none, 0, &mut read) }, 0);
    assert_eq!((place, read), (file.at, 0));
    read = 9;
    let answer =
        unsafe { stumpchoir_names_next(g, image, len, names.as_mut_ptr(), none, 0, &mut found, at, &mut read) };
    assert_eq!((answer, found, read), (0, 1, 0));
}
