//! Geometry numbers that no field can hold, or a fourth number that is no mark of the granularity: 6 from one function of each shape,
//! before anything else.

#![cfg(all(
    feature = "medium",
    feature = "objects",
    feature = "writer",
    feature = "blocks",
    feature = "collector",
    feature = "batch"
))]

use harness::rattle::interface::*;

const GOOD: [u32; 6] = [0, 1, 1, 0, 64, 1];

fn with(numbers: [u32; 6], at: usize, n: u32) -> [u32; 6] {
    let mut changed = numbers;
    changed[at] = n;
    changed
}

/// The good numbers with one changed so that its low byte is still good, or the fourth no mark.
fn bad() -> Vec<[u32; 6]> {
    let bits = [(0, 256), (1, 257), (2, 257), (3, 1), (3, 256), (3, 257), (4, 60), (5, 0)];
    let words = [(1, 2), (1, 255), (1, 256), (1, 257), (4, 2), (4, 257), (4, 1 << 31), (4, u32::MAX)];
    let bits = bits.map(|(at, n)| with(GOOD, at, n));
    bits.into_iter().chain(words.map(|(word, mark)| with(with(GOOD, 0, word), 3, mark))).collect()
}

/// What one function of each shape answers, with numbers that say no header and no reader beside the geometry.
fn answers(g: &[u32; 6]) -> Vec<u8> {
    let g = g.as_ptr();
    let mut image = [0xFF; 64];
    let (lent, len) = (image.as_mut_ptr(), image.len());
    let (mut units, mut count, mut pair, mut copy, mut done) = (9, 0, [0; 2], [0; 5], 9);
    let none = [0; 6];
    let answers = unsafe {
        vec![
            stumpchoir_check(g, lent, len),
            stumpchoir_align(g, 5, &mut count),
            stumpchoir_write(g, lent, len, true, &mut units, 0, 0, none.as_ptr().cast(), 6),
            stumpchoir_move_object(g, lent, len, true, &mut units, none.as_ptr(), 0, 8, copy.as_mut_ptr()),
            stumpchoir_reader_len(g, none.as_ptr(), &mut count),
            stumpchoir_iterator_new(g, 0, pair.as_mut_ptr()),
            stumpchoir_write_all(
                g,
                lent,
                len,
                true,
                &mut units,
                0,
                none.as_ptr(),
                5,
                none.as_ptr().cast(),
                6,
                &mut done,
            ),
            stumpchoir_run(g, lent, len, true, &mut units, copy.as_mut_ptr(), 4),
        ]
    };
    assert_eq!(done, 0);
    if answers.iter().all(|&n| n == 6) {
        assert_eq!((units, count, pair, copy, image), (9, 0, [0; 2], [0; 5], [0xFF; 64]));
    }
    answers
}

#[test]
fn numbers_that_say_no_geometry_are_6() {
    for numbers in bad() {
        assert_eq!(answers(&numbers), [6; 8], "{numbers:?}");
    }
}

#[test]
fn a_good_geometry_leaves_the_others_to_say() {
    for numbers in [GOOD, with(GOOD, 0, 1), with(with(GOOD, 0, 1), 3, 1), with(with(GOOD, 0, 4), 3, 1)] {
        assert_eq!(answers(&numbers), [0, 0, 0, 4, 4, 0, 7, 2], "{numbers:?}");
    }
}
