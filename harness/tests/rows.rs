//! The paper's bench rows, on every side that is there.

mod bench;

use bench::{benches, Bench};
use harness::{geometry::Geometry, op::Op};

const A: Geometry = Geometry { granularity: 0, s: 1, c: 1, strict: 0, size: 256, count: 4 };
const B: Geometry = Geometry { granularity: 4, ..A };
const C: Geometry = Geometry { granularity: 1, ..A };

const FREE: u64 = 0;
const ALLOCATED: u64 = 1;
const FINALIZED: u64 = 2;
const DELETED: u64 = 3;

/// Runs a row on each side; a side without the layer is passed over.
fn row(geometry: Geometry, run: impl Fn(&mut Bench) -> Option<()>) {
    let mut ran = 0;
    for mut bench in benches(geometry) {
        ran += run(&mut bench).is_some() as u32;
    }
    assert!(ran >= 1, "no side ran");
}

fn bytes_and_next(geometry: Geometry, at: u32, bytes: &[u8], next: u32) {
    row(geometry, |b| {
        assert_eq!(b.obj(0, at)?, 0, "{}", b.side);
        let at = at as usize;
        assert_eq!(&b.image[at..at + bytes.len()], bytes, "{}", b.side);
        assert!(b.image[at + bytes.len()..].iter().all(|&b| b == 0xFF));
        let listed = b.call(Op::IteratorNext, &[], &[0, at as u32], &[])?;
        assert_eq!((listed.answer, listed.values[0], listed.array[1]), (0, 1, next), "{}", b.side);
        Some(())
    });
}

#[test]
fn row_1() {
    bytes_and_next(A, 8, &[0x8E, 0xF0, 3, 0x41, 0x42, 0x43], 14);
}

#[test]
fn row_2() {
    bytes_and_next(C, 8, &[0x8E, 0, 0xFF, 3, 0x41, 0x42, 0x43], 15);
}

#[test]
fn row_3() {
    let f = 0xFF;
    bytes_and_next(B, 12, &[0x8E, f, f, f, 0, f, f, f, f, f, f, f, 3, f, f, f, 0x41, 0x42, 0x43, f], 32);
    row(B, |b| {
        b.obj(0, 12)?;
        let header = b.call(Op::HeaderRead, &[0, 12], &[], &[])?;
        let numbers: Vec<u32> = header.values.iter().map(|&n| n as u32).collect();
        assert_eq!(b.call(Op::InfoTotalSize, &[], &numbers, &[])?.values, [19]);
        Some(())
    });
}

#[test]
fn row_4() {
    for fuse in 0..=6 {
        row(A, |b| {
            b.fuse = Some(fuse);
            assert_eq!(b.obj(0, 8)?, if fuse < 6 { 8 } else { 0 });
            let state = b.state(0, 8)?;
            assert_eq!(state, [FREE, ALLOCATED, ALLOCATED, ALLOCATED, ALLOCATED, ALLOCATED, FINALIZED][fuse as usize]);
            Some(())
        });
    }
}

#[test]
fn row_5() {
    for (at, found) in [(252, 1), (253, 2)] {
        row(A, |b| {
            assert_eq!(b.answer(Op::WriteTo, &[0, at, 0x8E], &[], &[])?, 0);
            let listed = b.call(Op::IteratorNext, &[], &[0, at], &[])?;
            assert_eq!((listed.answer, listed.values[0]), (0, found), "{}", b.side);
            Some(())
        });
    }
}

#[test]
fn row_6() {
    for (at, byte) in [(9, 0xF1), (8, 0x8C)] {
        row(A, |b| {
            b.obj(0, 8)?;
            b.image[at] = byte;
            assert_eq!(b.answer(Op::HeaderRead, &[0, 8], &[], &[])?, 2);
            Some(())
        });
    }
}

#[test]
fn row_7() {
    row(A, |b| {
        b.obj(0, 8)?;
        b.image[10] = 0xFF;
        let header: Vec<u32> = b.call(Op::HeaderRead, &[0, 8], &[], &[])?.values.iter().map(|&n| n as u32).collect();
        assert_eq!(header[2], 0xFF);
        assert_eq!(b.call(Op::InfoTotalSize, &[], &header, &[])?.values, [3]);
        Some(())
    });
}

#[test]
fn row_8() {
    for g in [A, B, C] {
        row(g, |b| {
            let header = [0x8E, DELETED as u32, 3, 0, 12];
            b.fuse = Some(9);
            let before = b.image.clone();
            assert_eq!(b.answer(Op::InfoDelete, &[], &header, &[])?, 0);
            assert_eq!(b.answer(Op::InfoFinalize, &[], &header, &[])?, 4);
            assert_eq!((&b.image, b.fuse), (&before, Some(9)));
            Some(())
        });
    }
}

#[test]
fn row_9() {
    row(A, |b| {
        b.answer(Op::BlockHeaderWrite, &[1, 3, u32::MAX], &[], &[])?;
        let before = b.image.clone();
        assert_eq!(b.answer(Op::FormatBlock, &[1], &[], &[])?, 2);
        assert_eq!(b.image, before);
        b.answer(Op::BlockHeaderWrite, &[2, 3, u32::MAX - 1], &[], &[])?;
        assert_eq!(b.answer(Op::FormatBlock, &[2], &[], &[])?, 0);
        assert_eq!(b.image[512..520], [0xBA, 1, 0x44, 0xFF, 0xFF, 0xFF, 0xFF, 0xFF]);
        Some(())
    });
}

#[test]
fn row_10() {
    for (g, at) in [(A, 3), (C, 3), (B, 8)] {
        row(g, |b| {
            b.answer(Op::BlockHeaderWrite, &[0, 3, 1], &[], &[])?;
            assert_eq!(b.answer(Op::SetBlockType, &[0, 2], &[], &[])?, 0);
            assert_eq!(b.image[at], 0);
            assert_eq!(b.call(Op::BlockHeaderRead, &[0], &[], &[])?.values, [1, 1]);
            Some(())
        });
    }
}

#[test]
fn row_11() {
    for (fuse, original, copy) in [(5, FINALIZED, ALLOCATED), (6, FINALIZED, FINALIZED), (7, DELETED, FINALIZED)] {
        row(A, |b| {
            b.obj(0, 8)?;
            b.fuse = Some(fuse);
            let moved = b.answer(Op::MoveObject, &[2, 8], &[0x8E, 2, 3, 0, 8], &[])?;
            assert_eq!(moved, if fuse < 7 { 8 } else { 0 });
            assert_eq!((b.state(0, 8)?, b.state(2, 8)?), (original, copy), "{} fuse {fuse}", b.side);
            Some(())
        });
    }
}

#[test]
fn row_12() {
    for (len, answer) in [(245, 0), (246, 5)] {
        row(A, |b| {
            assert_eq!(b.answer(Op::WriteTo, &[0, 8, 0x8E], &[], &vec![0; len])?, answer);
            assert_eq!(b.image[8], 0x8E);
            Some(())
        });
    }
}

#[test]
fn row_13() {
    row(A, |b| {
        let known = [3, 0, 8, 1];
        let table = [known, [1, 0, 0, 0], known, known].concat();
        assert_eq!(b.answer(Op::Run, &[], &table, &[])?, 2);
        assert_eq!(b.answer(Op::DeleteInvalidObjects, &[], &table, &[])?, 2);
        Some(())
    });
    row(A, |b| {
        let table = [[0, 0, 0, 1]; 4].concat();
        assert_eq!(b.answer(Op::DeleteInvalidObjects, &[], &table, &[])?, 0);
        assert_eq!(b.answer(Op::EraseInvalidFinishedBlocks, &[], &table, &[])?, 0);
        assert_eq!(b.answer(Op::EraseFullFinishedBlocks, &[], &table, &[])?, 2);
        assert_eq!(b.answer(Op::Run, &[], &table, &[])?, 2);
        Some(())
    });
}
