//! norfs's own file operations, as sequences of the layer's calls, cut after every unit: the runs behind "What this
//! answer does not cover" in docs/AUDIT.md, on every side that is there. filelayer/run does the same with norfs's own
//! lib.rs, which needs features that are not stable.

mod bench;

use std::ops::RangeInclusive;

use bench::{
    sides,
    store::{
        collect, content, create, delete_file_at, lookup, mount, move_data, move_metadata, overwrite, File, Place,
    },
    sweeps::{self, Said},
    Bench,
};
use harness::{geometry::Geometry, op::Op};

const METADATA: u32 = 2;
const DATA: u32 = 3;
const FINALIZED: u64 = 2;
const HASH: u32 = 7;
const NAME: &[u8] = b"A";

/// The places of one street, and of its copy or successor.
#[derive(Clone, Copy)]
struct Places {
    old: [Place; 3],
    new: [Place; 3],
}

/// Metadata in block 0; name and content in block 1, the new ones in block 2.
fn places(granularity: u8) -> Places {
    let [header, block, metadata] = [[3, 8, 11], [4, 8, 12], [16, 12, 24]][[0, 1, 1, 1, 2][granularity as usize]];
    let next = block + if granularity == 4 { header + 4 } else { header + 1 };
    Places { old: [[0, block], [1, block], [1, next]], new: [[0, block + metadata], [2, block], [2, next]] }
}

fn file(at: [Place; 3], content: &[u8]) -> File<'_> {
    File { hash: HASH, name: NAME, content, metadata: at[0], name_at: at[1], content_at: at[2] }
}

/// Blocks of these kinds, on each side.
fn blocks(granularity: u8, kinds: [u32; 3]) -> Vec<Bench> {
    let mut made = sides(Geometry { granularity, s: 1, c: 1, strict: 0, size: 64, count: 3 });
    for b in &mut made {
        for (block, kind) in kinds.into_iter().enumerate() {
            b.ask(Op::BlockHeaderWrite, &[block as u32, kind, 0], &[], &[]).unwrap();
        }
    }
    made
}

/// A Metadata block and two Data blocks, and the street with content 1.
fn street(granularity: u8) -> Vec<Bench> {
    let mut made = blocks(granularity, [METADATA, DATA, DATA]);
    for b in &mut made {
        create(b, file(places(granularity).old, b"1")).unwrap();
    }
    made
}

/// The units after which something holds.
type Units = Vec<RangeInclusive<u32>>;

/// What is found after the cuts of one operation: how many units it has, and after which a mount is refused, the
/// street's lookup is refused, and both metadata objects stand finished.
#[derive(PartialEq, Debug)]
struct Found {
    units: u32,
    mount_refused: Units,
    lookup_refused: Units,
    two_metadata: Units,
}

fn add(units: &mut Units, k: u32) {
    match units.last_mut() {
        Some(range) if *range.end() + 1 == k => *range = *range.start()..=k,
        _ => units.push(k..=k),
    }
}

fn at_each_cut(before: &Bench, run: impl Fn(&mut Bench) -> Result<(), u8>) -> Found {
    let p = places(before.geometry.granularity);
    let mut found = Found { units: 0, mount_refused: vec![], lookup_refused: vec![], two_metadata: vec![] };
    loop {
        let mut b = before.clone();
        let k = found.units;
        b.fuse = Some(k);
        let ended = run(&mut b);
        b.fuse = None;
        if mount(&mut b).is_err() {
            add(&mut found.mount_refused, k);
        }
        if lookup(&mut b, HASH, NAME).is_err() {
            add(&mut found.lookup_refused, k);
        }
        if [p.old[0], p.new[0]].iter().all(|at| b.state(at[0], at[1]) == Some(FINALIZED)) {
            add(&mut found.two_metadata, k);
        }
        if ended.is_ok() {
            return found;
        }
        assert_eq!(ended, Err(8));
        found.units += 1;
    }
}

fn found(units: u32, mount: &[[u32; 2]], lookup: &[[u32; 2]], two: &[[u32; 2]]) -> Found {
    let ranges = |pairs: &[[u32; 2]]| pairs.iter().map(|&[a, b]| a..=b).collect();
    Found { units, mount_refused: ranges(mount), lookup_refused: ranges(lookup), two_metadata: ranges(two) }
}

#[test]
fn metadata_is_moved() {
    for granularity in [0, 1, 4] {
        let p = places(granularity);
        for b in street(granularity) {
            let expected = match granularity {
                4 => found(6, &[], &[], &[[5, 5]]),
                _ => found(12, &[[2, 9]], &[], &[[11, 11]]),
            };
            assert_eq!(at_each_cut(&b, |b| move_metadata(b, p.old[0], p.new[0])), expected, "{}", b.side);
        }
    }
}

#[test]
fn content_is_moved() {
    for granularity in [0, 1, 4] {
        let Places { old, new } = places(granularity);
        for b in street(granularity) {
            let expected = match granularity {
                4 => found(11, &[[5, 5]], &[], &[[9, 9]]),
                _ => found(17, &[[2, 13]], &[], &[[15, 15]]),
            };
            assert_eq!(at_each_cut(&b, |b| move_data(b, old[0], old[2], new[0], new[1])), expected, "{}", b.side);
        }
    }
}

#[test]
fn both_contents_stand_until_the_last_unit() {
    for (granularity, two) in [(0, 13..=16), (1, 13..=16), (4, 7..=10)] {
        let Places { old, new } = places(granularity);
        for before in street(granularity) {
            for k in 0..=*two.end() + 1 {
                let mut b = before.clone();
                b.fuse = Some(k);
                let _ = move_data(&mut b, old[0], old[2], new[0], new[1]);
                let states = [old[2], new[1]].map(|at| b.state(at[0], at[1]));
                assert_eq!(states == [Some(FINALIZED); 2], two.contains(&k), "{} after {k}", b.side);
            }
        }
    }
}

#[test]
fn the_street_is_changed() {
    for granularity in [0, 1, 4] {
        let p = places(granularity);
        for b in street(granularity) {
            let expected = match granularity {
                4 => found(16, &[[2, 2]], &[[14, 15]], &[[13, 15]]),
                _ => found(22, &[[2, 2], [6, 17]], &[[20, 21]], &[[19, 21]]),
            };
            assert_eq!(at_each_cut(&b, |b| overwrite(b, file(p.new, b"2"))), expected, "{}", b.side);
        }
    }
}

#[test]
fn a_street_is_made() {
    for granularity in [0, 1, 4] {
        let p = places(granularity);
        for b in blocks(granularity, [METADATA, DATA, DATA]) {
            let expected = match granularity {
                4 => found(13, &[[2, 2], [6, 11]], &[[6, 11]], &[]),
                _ => found(19, &[[2, 2], [6, 17]], &[[6, 17]], &[]),
            };
            assert_eq!(at_each_cut(&b, |b| create(b, file(p.old, b"1"))), expected, "{}", b.side);
        }
    }
}

#[test]
fn the_street_is_deleted() {
    for granularity in [0, 1, 4] {
        let p = places(granularity);
        for b in street(granularity) {
            let expected = found(3, &[], &[[1, 2]], &[]);
            assert_eq!(at_each_cut(&b, |b| delete_file_at(b, p.old[0])), expected, "{}", b.side);
        }
    }
}

/// What a sweep makes of each cut of an operation: its answer, and how many twins and unreferred objects it deletes.
fn swept_at_each_cut(before: &Bench, run: impl Fn(&mut Bench) -> Result<(), u8>) -> Vec<Said> {
    let mut found = vec![];
    loop {
        let mut b = before.clone();
        b.fuse = Some(found.len() as u32);
        let ended = run(&mut b);
        let said: Vec<Said> =
            sweeps::sides(&sweeps::flash(&b)).iter_mut().map(|side| sweeps::sweep(side, None)).collect();
        assert!(said.iter().all(|&one| one == said[0]), "{said:?}");
        found.push(said[0]);
        if ended.is_ok() {
            return found;
        }
    }
}

/// So often in a row, from no unit on.
fn in_a_row(runs: &[(usize, Said)]) -> Vec<Said> {
    runs.iter().flat_map(|&(times, said)| vec![said; times]).collect()
}

const NOTHING: Said = (0, 0, 0);
const ONE_LEFT_OVER: Said = (0, 0, 1);
const UNLISTED: Said = (2, 0, 0);
const DANGLING: Said = (14, 0, 0);

/// While a street is made: nothing finished, the name alone, and name and content until the metadata is finished.
const MADE: [(usize, Said); 7] =
    [(2, NOTHING), (1, UNLISTED), (1, NOTHING), (2, ONE_LEFT_OVER), (12, UNLISTED), (1, (0, 0, 2)), (1, NOTHING)];

/// The last column of AUDIT's table, on bits and on words of one.
#[test]
fn what_a_sweep_makes_of_each_cut() {
    for granularity in [0, 1] {
        let Places { old, new } = places(granularity);
        for b in street(granularity) {
            let moved = swept_at_each_cut(&b, |b| move_metadata(b, old[0], new[0]));
            let rows = [(2, NOTHING), (8, UNLISTED), (1, NOTHING), (1, (0, 1, 0)), (1, NOTHING)];
            assert_eq!(moved, in_a_row(&rows), "{}", b.side);

            let moved = swept_at_each_cut(&b, |b| move_data(b, old[0], old[2], new[0], new[1]));
            let rows =
                [(2, NOTHING), (12, UNLISTED), (1, ONE_LEFT_OVER), (1, NOTHING), (1, ONE_LEFT_OVER), (1, NOTHING)];
            assert_eq!(moved, in_a_row(&rows), "{}", b.side);

            let changed = swept_at_each_cut(&b, |b| overwrite(b, file(new, b"2")));
            assert_eq!(changed, in_a_row(&[&MADE[..], &[(2, DANGLING), (1, NOTHING)]].concat()), "{}", b.side);

            let deleted = swept_at_each_cut(&b, |b| delete_file_at(b, old[0]));
            assert_eq!(deleted, in_a_row(&[(1, NOTHING), (2, DANGLING), (1, NOTHING)]), "{}", b.side);
        }
        for b in blocks(granularity, [METADATA, DATA, DATA]) {
            let made = swept_at_each_cut(&b, |b| create(b, file(old, b"1")));
            assert_eq!(made, in_a_row(&MADE), "{}", b.side);
        }
    }
}

/// The street's metadata twice, left by a move cut between its marks.
fn twins(granularity: u8) -> Vec<Bench> {
    let p = places(granularity);
    let mut made = street(granularity);
    for b in &mut made {
        b.fuse = Some(if granularity == 4 { 5 } else { 11 });
        assert_eq!(move_metadata(b, p.old[0], p.new[0]), Err(8));
        b.fuse = None;
    }
    made
}

#[test]
fn the_first_of_two_is_read_and_a_collection_leaves_both() {
    for granularity in [0, 1, 4] {
        let p = places(granularity);
        for mut b in twins(granularity) {
            let left = b.image.clone();
            // block 2 is an empty Data block, which the collection formats
            assert_eq!(collect(&mut b), Ok(()), "{}", b.side);
            assert_eq!(b.image[..128], left[..128]);
            assert_eq!(lookup(&mut b, HASH, NAME), Ok(Some(p.old[0])));
            assert_eq!(content(&mut b, p.old[0]), Ok(b"1".to_vec()));
        }
    }
}

#[test]
fn a_twin_comes_back_without_its_name_when_the_street_is_deleted() {
    for granularity in [0, 1, 4] {
        let p = places(granularity);
        for mut b in twins(granularity) {
            delete_file_at(&mut b, p.old[0]).unwrap();
            assert_eq!(b.state(p.new[0][0], p.new[0][1]), Some(FINALIZED), "{}", b.side);
            assert_eq!(mount(&mut b).err(), None);
            assert_eq!(lookup(&mut b, HASH, NAME), Err(2));
            assert_eq!(lookup(&mut b, HASH + 1, b"B"), Ok(None), "another hash is not in the way");
        }
    }
}

#[test]
fn the_old_street_comes_back_when_the_new_one_is_deleted() {
    let p = places(0);
    for mut b in street(0) {
        b.fuse = Some(19);
        assert_eq!(overwrite(&mut b, file(p.new, b"2")), Err(8));
        b.fuse = None;
        assert_eq!(lookup(&mut b, HASH, NAME), Ok(Some(p.old[0])), "{}", b.side);
        delete_file_at(&mut b, p.old[0]).unwrap();
        assert_eq!(lookup(&mut b, HASH, NAME), Ok(Some(p.new[0])));
        assert_eq!(content(&mut b, p.new[0]), Ok(b"2".to_vec()));
    }
}

#[test]
fn a_street_behind_a_cut_entry_is_not_found() {
    for mut b in blocks(0, [METADATA, DATA, METADATA]) {
        create(&mut b, file([[2, 8], [1, 8], [1, 12]], b"1")).unwrap();
        assert_eq!(lookup(&mut b, HASH, NAME), Ok(Some([2, 8])));
        b.fuse = Some(2);
        assert_eq!(b.number(Op::WriteTo, &[0, 8, 0x8F], &[], &[0x41, 0x42]), 8);
        assert_eq!(lookup(&mut b, HASH, NAME), Err(2), "{}", b.side);
        assert_eq!(content(&mut b, [2, 8]), Ok(b"1".to_vec()), "it is whole all the same");
    }
}

/// norfs's `try_to_make_space` formats a block without moving anything where the two numbers are equal.
#[test]
fn a_block_that_is_half_full_has_as_much_to_free_as_is_used() {
    for mut b in sides(Geometry { granularity: 0, s: 1, c: 1, strict: 0, size: 64, count: 1 }) {
        b.ask(Op::BlockHeaderWrite, &[0, 3, 0], &[], &[]).unwrap();
        b.ask(Op::WriteTo, &[0, 8, 0x8E], &[], &[0x41; 21]).unwrap();
        assert_eq!(b.ask(Op::ScanBlock, &[0], &[], &[]).unwrap().values[2], 32, "{}", b.side);
        assert_eq!(b.ask(Op::CalculateFreeableSpace, &[0], &[], &[]).unwrap().values, [32]);
        b.ask(Op::FormatBlock, &[0], &[], &[]).unwrap();
        assert_eq!(b.state(0, 8), Some(0), "the finished object is gone");
    }
}
