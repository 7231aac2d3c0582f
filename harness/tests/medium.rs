//! The paper's sentences about the medium, on the model, the medium under the text, and the library.

mod bench;

use bench::{benches, Bench};
use harness::{geometry::Geometry, op::Op};

fn each(granularity: u8, run: impl Fn(&mut Bench) -> Option<()>) {
    let geometry = Geometry { granularity, s: 1, c: 1, strict: 0, size: 64, count: 2 };
    for mut bench in benches(geometry) {
        let _ = run(&mut bench);
    }
}

#[test]
fn reads_below_the_count_and_within_the_block() {
    for granularity in [0, 1, 4] {
        each(granularity, |b| {
            let mut read = |block, offset, len: usize| b.answer(Op::Read, &[block, offset], &[], &vec![0; len]);
            assert_eq!(read(1, 60, 4)?, 0);
            assert_eq!(read(1, 63, 1)?, 0);
            assert_eq!(read(1, 64, 0)?, 0);
            assert_eq!(read(1, 65, 0)?, 3);
            assert_eq!(read(1, 61, 4)?, 3);
            assert_eq!(read(2, 0, 0)?, 3);
            assert_eq!(read(0, u32::MAX, 4)?, 3);
            Some(())
        });
    }
}

#[test]
fn a_refused_read_leaves_the_buffer() {
    each(0, |b| {
        let read = b.call(Op::Read, &[0, 62], &[], &[9, 9, 9])?;
        assert_eq!((read.answer, read.bytes), (3, vec![9, 9, 9]));
        Some(())
    });
}

#[test]
fn units_become_old_and_new_in_rising_order() {
    each(0, |b| {
        b.image[5..8].copy_from_slice(&[0x0F, 0xF0, 0x55]);
        b.fuse = Some(2);
        assert_eq!(b.answer(Op::Write, &[0, 5], &[], &[0x3C, 0x3C, 0x3C])?, 8);
        assert_eq!(b.image[5..8], [0x0C, 0x30, 0x55]);
        assert_eq!(b.fuse, Some(0));
        Some(())
    });
}

#[test]
fn words_are_aligned_and_padded_with_ff() {
    each(4, |b| {
        assert_eq!(b.answer(Op::Write, &[0, 2], &[], &[1])?, 3);
        assert_eq!(b.answer(Op::Write, &[0, 2], &[], &[])?, 3);
        assert_eq!(b.answer(Op::Write, &[0, 64], &[], &[])?, 0);
        assert_eq!(b.answer(Op::Write, &[0, 64], &[], &[1])?, 3);
        b.fuse = Some(2);
        assert_eq!(b.answer(Op::Write, &[1, 8], &[], &[1, 2, 3, 4, 5])?, 0);
        assert_eq!(b.image[72..80], [1, 2, 3, 4, 5, 0xFF, 0xFF, 0xFF]);
        assert_eq!(b.fuse, Some(0));
        Some(())
    });
}

/// "Aligned up" on one line, and the branches of the text's `align`: the same for words of any length.
#[test]
#[allow(clippy::manual_div_ceil)]
fn the_line_that_aligns_gives_what_the_texts_branches_give() {
    assert_eq!(text::ALIGNS.is_empty(), !text::PRESENT);
    let last = u32::MAX as usize;
    for &(w, align) in text::ALIGNS {
        for n in (0..=3 * w + 300).chain(last - 2 * w..=last) {
            assert_eq!(align(n), (n + w - 1) / w * w, "{n} in words of {w}");
        }
    }
}

#[test]
fn range_comes_before_power() {
    for granularity in [0, 1, 4] {
        each(granularity, |b| {
            b.fuse = Some(0);
            assert_eq!(b.answer(Op::Write, &[0, 64], &[], &[1])?, 3);
            assert_eq!(b.answer(Op::Write, &[2, 0], &[], &[1])?, 3);
            assert_eq!(b.answer(Op::Erase, &[2], &[], &[])?, 3);
            assert_eq!(b.answer(Op::Write, &[0, 0], &[], &[1])?, 8);
            assert_eq!(b.answer(Op::Write, &[0, 0], &[], &[])?, 0);
            assert_eq!(b.answer(Op::Erase, &[1], &[], &[])?, 8);
            assert!(b.image.iter().all(|&b| b == 0xFF));
            Some(())
        });
    }
}

#[test]
fn erase_is_one_unit() {
    each(4, |b| {
        b.image.fill(0x12);
        b.fuse = Some(1);
        assert_eq!(b.answer(Op::Erase, &[1], &[], &[])?, 0);
        assert_eq!(b.fuse, Some(0));
        assert!(b.image[..64].iter().all(|&b| b == 0x12) && b.image[64..].iter().all(|&b| b == 0xFF));
        Some(())
    });
}

#[test]
fn geometry_rules() {
    let good = Geometry { granularity: 0, s: 1, c: 1, strict: 0, size: 64, count: 1 };
    assert!(good.good());
    assert!(Geometry { size: 256, ..good }.good());
    assert!(Geometry { size: 65_536, s: 2, count: 256, ..good }.good());
    assert!(Geometry { count: 262_144, c: 3, ..good }.good());
    assert!(Geometry { granularity: 1, strict: 1, ..good }.good());
    assert!(Geometry { granularity: 4, strict: 1, ..good }.good());
    let bad = [
        Geometry { granularity: 2, ..good },
        Geometry { strict: 1, ..good },
        Geometry { granularity: 1, strict: 2, ..good },
        Geometry { granularity: 4, strict: 257, ..good },
        Geometry { s: 0, ..good },
        Geometry { s: 4, ..good },
        Geometry { c: 4, ..good },
        Geometry { size: 60, ..good },
        Geometry { size: 66, ..good },
        Geometry { size: 260, ..good },
        Geometry { size: 65_540, s: 3, ..good },
        Geometry { count: 0, ..good },
        Geometry { count: 257, ..good },
        Geometry { size: 65_536, s: 2, count: 257, c: 2, ..good },
    ];
    for g in bad {
        assert!(!g.good(), "{g:?}");
    }
}
