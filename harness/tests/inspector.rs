//! The second inspector on the paper's example.

use harness::{geometry::Geometry, inspector};

const EXAMPLE: Geometry = Geometry { granularity: 0, s: 1, c: 1, strict: 0, size: 256, count: 2 };

fn example() -> Vec<u8> {
    let mut image = vec![0xFF; 512];
    image[..14].copy_from_slice(&[0xBA, 0x01, 0x44, 0xAA, 3, 0, 0, 0, 0x8E, 0xF0, 3, 0x41, 0x42, 0x43]);
    image
}

#[test]
fn the_papers_lines() {
    let lines = "block 0 Data 3 14 yes\nobject 0 8 FileData Finalized 3\nblock 1 refused 1\n";
    assert_eq!(inspector::lines(EXAMPLE, &example()), lines);
}

#[test]
fn an_unset_size_and_an_unknown_block() {
    let mut image = example();
    image[10] = 0xFF;
    image[256] = 0;
    // behind a header without a size the payload is read as a header, and 41 is none
    assert_eq!(inspector::lines(EXAMPLE, &image), "block 0 refused 2\nblock 1 Unknown 4294967295 1 no\n");
    image[11..14].fill(0xFF);
    let lines = "block 0 Data 3 11 yes\nobject 0 8 FileData Finalized -\nblock 1 Unknown 4294967295 1 no\n";
    assert_eq!(inspector::lines(EXAMPLE, &image), lines);
}

#[test]
fn the_record() {
    assert_eq!(inspector::record(EXAMPLE), [0, 1, 1, 0, 0, 1, 0, 0, 2, 0, 0, 0, 0, 0, 0, 0]);
    let strict = Geometry { granularity: 4, strict: 1, ..EXAMPLE };
    assert_eq!(inspector::record(strict), [4, 1, 1, 1, 0, 1, 0, 0, 2, 0, 0, 0, 0, 0, 0, 0]);
}
