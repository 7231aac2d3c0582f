//! What a store can do with the bytes that a power cut left: the runs behind the same section of docs/AUDIT.md, on every
//! side that is there.

mod bench;

use bench::{
    sides,
    store::{collect, mount, numbers, Place},
    Bench,
};
use harness::{geometry::Geometry, op::Op};

const DATA: u32 = 3;
const UNDEFINED: u64 = 4;
const ALLOCATED: u64 = 1;
const FINALIZED: u64 = 2;
const DELETED: u64 = 3;
const LAST_COUNT: u64 = 0xFFFF_FFFF;

fn small(granularity: u8, s: u8, count: u32) -> Geometry {
    Geometry { granularity, s, c: 1, strict: 0, size: 64, count }
}

/// Where a block's first object goes.
fn first(g: Geometry) -> u32 {
    [8, 12][(g.granularity == 4) as usize]
}

/// Two Data blocks, and document 01's object 41 42 43 in block 0.
fn row_11(g: Geometry) -> Vec<Bench> {
    let mut made = sides(g);
    for b in &mut made {
        for block in 0..2 {
            b.ask(Op::BlockHeaderWrite, &[block, DATA, 0], &[], &[]).unwrap();
        }
        assert_eq!(b.obj(0, first(g)), Some(0));
    }
    made
}

/// Its move to the first place of block 1: the answer.
fn moved(b: &mut Bench) -> u8 {
    let at = first(b.geometry);
    b.number(Op::MoveObject, &[1, at], &[0x8E, FINALIZED as u32, 3, 0, at], &[])
}

/// The move, cut after so many units; power is back.
fn cut(b: &Bench, units: u32) -> Bench {
    let mut b = b.clone();
    b.fuse = Some(units);
    moved(&mut b);
    b.fuse = None;
    b
}

/// The units of the move: type, content, size, finish mark, delete mark.
fn units(g: Geometry) -> u32 {
    if g.granularity == 4 {
        5
    } else {
        6 + g.s as u32
    }
}

const CHIPS: [(u8, u8); 6] = [(0, 1), (0, 2), (1, 1), (1, 2), (4, 1), (4, 2)];

/// Runs something on row 11's move cut after each number of units, on every chip and side.
fn at_each_cut(run: impl Fn(&Bench, Bench, u32)) {
    for (granularity, s) in CHIPS {
        for b in row_11(small(granularity, s, 2)) {
            for k in 0..=units(b.geometry) {
                run(&b, cut(&b, k), k);
            }
        }
    }
}

fn header(b: &mut Bench, at: Place) -> Result<Vec<u32>, u8> {
    b.ask(Op::HeaderRead, &at, &[], &[]).map(|outcome| numbers(&outcome.values))
}

/// The scan's answers after 0, 1, 2 .. units.
fn scans(granularity: u8, s: u8) -> &'static [u8] {
    match (granularity, s) {
        (4, _) => &[0, 0, 2, 0, 0, 0],
        (_, 1) => &[0, 0, 2, 2, 2, 0, 0, 0],
        _ => &[0, 0, 2, 2, 2, 0, 0, 0, 0],
    }
}

#[test]
fn a_copy_cut_inside_its_content_stops_scan_and_mount() {
    at_each_cut(|_, mut b, k| {
        let expected = scans(b.geometry.granularity, b.geometry.s)[k as usize];
        assert_eq!(b.number(Op::ScanBlock, &[1], &[], &[]), expected, "{} after {k}", b.side);
        assert_eq!(mount(&mut b).err().unwrap_or(0), expected);
        assert_eq!(b.number(Op::ScanBlock, &[0], &[], &[]), 0, "the original's block is not touched before the end");
    });
}

#[test]
fn a_cut_write_stops_the_scan_too() {
    for (fuse, answer) in [(1, 0), (2, 2), (3, 2), (4, 2), (5, 0)] {
        for mut b in sides(small(0, 1, 1)) {
            b.ask(Op::BlockHeaderWrite, &[0, DATA, 0], &[], &[]).unwrap();
            b.fuse = Some(fuse);
            assert_eq!(b.obj(0, 8), Some(8));
            assert_eq!(b.number(Op::ScanBlock, &[0], &[], &[]), answer, "{} after {fuse}", b.side);
        }
    }
}

#[test]
fn a_size_cut_in_two_runs_past_the_block() {
    for (granularity, used) in [(0, 8 + 4 + 0xFF03), (1, 8 + 5 + 0xFF03)] {
        for b in row_11(small(granularity, 2, 2)) {
            let mut b = cut(&b, 5);
            let record = b.ask(Op::ScanBlock, &[1], &[], &[]).unwrap().values;
            assert_eq!(record, [DATA as u64, 0, used, 0], "{}", b.side);
            assert_eq!(b.number(Op::RecordFreeSpace, &[], &numbers(&record), &[]), 9);
        }
    }
}

#[test]
fn the_same_move_again_ends_as_the_uncut_one() {
    at_each_cut(|before, mut b, k| {
        let last = units(b.geometry);
        let whole = cut(before, last).image;
        let left = b.image.clone();
        if k < last - 1 {
            assert_eq!(moved(&mut b), 0, "{} after {k}", b.side);
        } else if k == last - 1 {
            assert_eq!((moved(&mut b), &b.image), (4, &left), "{} between the marks", b.side);
            let original = header(&mut b, [0, first(before.geometry)]).unwrap();
            assert_eq!(b.number(Op::InfoDelete, &[], &original, &[]), 0);
        } else {
            assert_eq!((moved(&mut b), &b.image), (2, &left), "{} after the end", b.side);
        }
        assert_eq!(b.image, whole);
    });
}

#[test]
fn an_unfinished_copy_can_be_put_away() {
    at_each_cut(|before, mut b, k| {
        let at = first(b.geometry);
        let Ok(mut copy) = header(&mut b, [1, at]) else { panic!("{} after {k}", b.side) };
        if copy[1] as u64 != ALLOCATED {
            return;
        }
        let unset = if b.geometry.s == 1 { 0xFF } else { 0xFFFF };
        if copy[2] == unset {
            copy = b.ask(Op::SetPayloadSize, &[3], &copy, &[]).unwrap().array;
        } else if copy[2] != 3 {
            assert_eq!(b.number(Op::SetPayloadSize, &[3], &copy, &[]), 4, "a size cut in two counts as set");
            return;
        }
        copy = b.ask(Op::InfoFinalize, &[], &copy, &[]).unwrap().array;
        b.ask(Op::InfoDelete, &[], &copy, &[]).unwrap();
        assert_eq!(mount(&mut b).map(|table| table[7]), Ok(1), "{} after {k}", b.side);
        assert_eq!((b.state(0, at), b.state(1, at)), (Some(FINALIZED), Some(DELETED)));
        assert_eq!(b.image[..64], before.image[..64]);
    });
}

#[test]
fn on_words_a_collection_makes_marks_that_nobody_can_read() {
    for granularity in [0, 1, 4] {
        for b in row_11(small(granularity, 1, 2)) {
            let mut b = cut(&b, 1);
            let at = first(b.geometry);
            let words = granularity != 0;
            assert_eq!(collect(&mut b), if words { Err(2) } else { Ok(()) }, "{}", b.side);
            assert_eq!(header(&mut b, [1, at]).err(), words.then_some(2));
            assert_eq!(mount(&mut b).is_err(), words);
            assert_eq!(b.state(0, at), Some(FINALIZED));
        }
    }
}

#[test]
fn behind_a_finished_entry_the_collection_says_done_and_the_block_is_lost_to_scans() {
    for (granularity, next) in [(1, 15), (4, 32)] {
        for b in row_11(small(granularity, 1, 2)) {
            let mut b = cut(&b, units(b.geometry));
            let at = first(b.geometry);
            assert_eq!(b.state(1, at), Some(FINALIZED));
            b.fuse = Some(1);
            assert_eq!(b.obj(1, next), Some(8));
            b.fuse = None;
            assert_eq!(collect(&mut b), Ok(()), "{}", b.side);
            assert_eq!(mount(&mut b), Err(2));
            assert_eq!(b.state(1, at), Some(FINALIZED));
        }
    }
}

/// The format of an empty Data block of count 0, cut after so many units: the chip, and the kind and count that it reads.
fn formatted(b: &Bench, units: u32) -> (Bench, Vec<u64>) {
    let mut b = b.clone();
    b.ask(Op::BlockHeaderWrite, &[0, DATA, 0], &[], &[]).unwrap();
    b.fuse = Some(units);
    b.number(Op::FormatBlock, &[0], &[], &[]);
    b.fuse = None;
    let header = b.ask(Op::BlockHeaderRead, &[0], &[], &[]).unwrap().values;
    (b, header)
}

#[test]
fn a_format_that_is_cut() {
    let empty = vec![0, LAST_COUNT];
    let unknown = vec![1, LAST_COUNT];
    let undefined = |count| vec![UNDEFINED, count];
    let bytes = [
        vec![DATA as u64, 0],
        empty.clone(),
        unknown.clone(),
        unknown,
        undefined(LAST_COUNT),
        undefined(LAST_COUNT),
        undefined(0xFFFF_FF01),
        undefined(0xFFFF_0001),
        undefined(0xFF00_0001),
        undefined(1),
    ];
    let words = [vec![DATA as u64, 0], empty, undefined(LAST_COUNT), undefined(1), undefined(1)];
    for (granularity, expected) in [(0, &bytes[..]), (1, &bytes[..]), (4, &words[..])] {
        for b in sides(small(granularity, 1, 1)) {
            for (k, header) in expected.iter().enumerate() {
                assert_eq!(&formatted(&b, k as u32).1, header, "{} {granularity} after {k}", b.side);
            }
        }
    }
}

#[test]
fn what_a_cut_format_can_still_do() {
    for (granularity, cuts) in [(0, [1, 2, 3].as_slice()), (1, &[1, 2, 3]), (4, &[1])] {
        for b in sides(small(granularity, 1, 1)) {
            for &k in cuts {
                let (mut b, _) = formatted(&b, k);
                let scan = b.number(Op::ScanBlock, &[0], &[], &[]);
                assert_eq!(scan, if k == 1 { 1 } else { 0 }, "{} after {k}", b.side);
                assert_eq!(collect(&mut b), Err(if k == 1 { 1 } else { 2 }));
                b.ask(Op::FormatBlock, &[0], &[], &[]).unwrap();
                assert_eq!(b.ask(Op::BlockHeaderRead, &[0], &[], &[]).unwrap().values, [UNDEFINED, 0]);
            }
        }
    }
}

#[test]
fn a_count_of_4294967295() {
    for (granularity, cuts) in [(0, [4, 5].as_slice()), (1, &[4, 5]), (4, &[2])] {
        for b in sides(small(granularity, 1, 1)) {
            for &k in cuts {
                let (mut b, _) = formatted(&b, k);
                let left = b.image.clone();
                assert_eq!(mount(&mut b).unwrap()[1] as u64, LAST_COUNT);
                assert_eq!((b.number(Op::FormatBlock, &[0], &[], &[]), &b.image), (0, &left), "{}", b.side);
                assert_eq!((collect(&mut b), &b.image), (Err(9), &left), "{}", b.side);
                b.ask(Op::SetBlockType, &[0, DATA], &[], &[]).unwrap();
                assert_eq!(b.obj(0, first(b.geometry)), Some(0));
                let used = b.image.clone();
                assert_eq!((b.number(Op::FormatBlock, &[0], &[], &[]), &b.image), (2, &used), "{}", b.side);
            }
        }
    }
}

#[test]
fn a_twin_does_not_heal() {
    for (granularity, s) in CHIPS {
        for b in row_11(small(granularity, s, 2)) {
            let mut b = cut(&b, units(b.geometry) - 1);
            let at = first(b.geometry);
            let left = b.image.clone();
            assert_eq!((collect(&mut b), &b.image), (Ok(()), &left), "{}", b.side);
            assert_eq!((b.state(0, at), b.state(1, at)), (Some(FINALIZED), Some(FINALIZED)));
            let original = header(&mut b, [0, at]).unwrap();
            b.ask(Op::InfoDelete, &[], &original, &[]).unwrap();
            assert_eq!((b.state(0, at), b.state(1, at)), (Some(DELETED), Some(FINALIZED)));
        }
    }
}
