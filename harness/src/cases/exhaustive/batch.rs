//! Batches: up to three records at every fuse, every count of records, and each turn's ranges, types, places and lengths.

use super::{
    every_fuse,
    objects::{block, data, first},
    small, Visit, GRANULARITIES,
};
use crate::{
    case::Case,
    cases::batch::{laid, NO_TYPES},
    geometry::Geometry,
    model::{header::TYPES, Flash},
    op::Op,
};

pub fn all(visit: Visit) -> bool {
    GRANULARITIES.into_iter().all(|granularity| {
        let g = small(granularity, 1, 1);
        fuses(g, visit)
            && counts(g, visit)
            && full(granularity, visit)
            && ranges(g, visit)
            && types(g, visit)
            && blocks(small(granularity, 1, 2), visit)
            && offsets(g, visit)
            && overlaps(g, visit)
            && lengths(g, visit)
            && orders(g, visit)
    })
}

fn case(flash: &Flash, records: &[[u32; 4]], bytes: Vec<u8>) -> Case {
    let list = Case { args: vec![0], array: records.concat(), ..Case::of(Op::WriteAll, flash.geometry) };
    Case { bytes, image: flash.image.clone(), ..list }
}

/// No, one, two and three records of every length up to 5, at every fuse.
fn fuses(g: Geometry, visit: Visit) -> bool {
    let flash = block(g);
    (0..=3u32).all(|count| {
        (0..6u32.pow(count)).all(|n| {
            let lens: Vec<u32> = (0..count).map(|i| n / 6u32.pow(i) % 6).collect();
            every_fuse(case(&flash, &laid(g, first(g), &lens), data(15)), visit)
        })
    })
}

/// A list of so many records, with so many numbers behind them.
fn list(flash: &Flash, count: usize, more: usize) -> Case {
    let mut case = case(flash, &laid(flash.geometry, first(flash.geometry), &vec![0; count]), vec![]);
    case.array.resize(4 * count + more, TYPES[0]);
    case
}

/// Every count of records up to 65 and some beyond, each also with numbers behind them.
fn counts(g: Geometry, visit: Visit) -> bool {
    let flash = block(g);
    let counts = (0..=65).chain([66, 127, 128, 255, 256, 257, 320, 16_384]);
    counts.into_iter().all(|count| (0..=3).all(|more| visit(list(&flash, count, more))))
}

/// As many records as a call takes, one less and one more, in a block that has room for them.
fn full(granularity: u8, visit: Visit) -> bool {
    let flash = block(Geometry { s: 2, size: 65_536, ..small(granularity, 1, 1) });
    (63..=65).all(|count| {
        (0..=3).all(|more| {
            let powered = list(&flash, count, more);
            let units = crate::cases::units(&powered);
            let cut = |fuse| Case { fuse: Some(fuse), ..powered.clone() };
            visit(cut(units.saturating_sub(1))) && visit(cut(units)) && visit(powered)
        })
    })
}

/// Three records, one of them as told, without a fuse and without power.
fn one_of_three(g: Geometry, change: impl Fn(&mut [u32; 4]), bytes: &[u8], visit: Visit) -> bool {
    let flash = block(g);
    (0..3).all(|i| {
        let mut records = laid(g, first(g), &[0; 3]);
        change(&mut records[i]);
        let case = case(&flash, &records, bytes.to_vec());
        visit(Case { fuse: Some(0), ..case.clone() }) && visit(case)
    })
}

/// Ranges around the payload's end and around 2^32, also where type or offset is wrong too.
fn ranges(g: Geometry, visit: Visit) -> bool {
    const MAX: u32 = u32::MAX;
    [0u32, 1, 4, 5].into_iter().all(|len| {
        let within = [(0, 0), (0, len), (len, 0), (len.saturating_sub(1), 1)];
        let past = [(1, len), (len, 1), (len + 1, 0), (0, len + 1), (len + 1, len)];
        let around = [(MAX, 0), (MAX, 1), (MAX, 2), (MAX, len), (MAX, MAX), (0, MAX), (1, MAX), (2, MAX), (len, MAX)];
        let wrapped = [(len, 0u32.wrapping_sub(len)), (1 << 31, 1 << 31), (MAX - len, len + 1), (MAX - len, len + 2)];
        let ranges = within.into_iter().chain(past).chain(around).chain(wrapped);
        ranges.into_iter().all(|(start, length)| {
            [(TYPES[1], None), (0x18F, None), (TYPES[1], Some(64)), (0, Some(MAX))].into_iter().all(|(kind, at)| {
                let change = |n: &mut [u32; 4]| *n = [kind, at.unwrap_or(n[1]), start, length];
                one_of_three(g, change, &data(len as usize), visit)
            })
        })
    })
}

/// Every type and some that are none, at each turn, on a free place, an unfinished object and a finished one.
fn types(g: Geometry, visit: Visit) -> bool {
    TYPES.into_iter().chain(NO_TYPES).all(|kind| {
        (0..3).all(|i| {
            let mut records = laid(g, first(g), &[0; 3]);
            records[i][0] = kind;
            let at = records[i][1];
            let (mut unfinished, mut finished) = (block(g), block(g));
            unfinished.writer_allocate(0, at, TYPES[1]).unwrap();
            finished.write_to(0, at, TYPES[1], &[]).unwrap();
            [block(g), unfinished, finished].iter().all(|flash| every_fuse(case(flash, &records, vec![]), visit))
        })
    })
}

/// Blocks that are there and not, for no records, right ones, and wrong ones that are refused first.
fn blocks(g: Geometry, visit: Visit) -> bool {
    let flash = block(g);
    let right = laid(g, first(g), &[1, 0]);
    let far = [[TYPES[0], first(g), 9, 0], right[1]];
    let untyped = [[0x18F, first(g), 0, 1], right[1]];
    let lists: [&[[u32; 4]]; 4] = [&[], &right, &far, &untyped];
    [0, 1, 2, 3, 255, 256, 65_536, 1 << 31, u32::MAX].into_iter().all(|block| {
        lists.into_iter().all(|records| {
            let case = Case { args: vec![block], ..case(&flash, records, data(1)) };
            visit(Case { fuse: Some(0), ..case.clone() }) && visit(case)
        })
    })
}

/// One of three records at every offset.
fn offsets(g: Geometry, visit: Visit) -> bool {
    let far = [127, 128, 255, 256, 65_535, 65_536, 1 << 31, u32::MAX - 2, u32::MAX];
    (0..=66)
        .chain(far)
        .all(|offset| (0..=5).all(|len| one_of_three(g, |n| (n[1], n[3]) = (offset, len), &data(5), visit)))
}

/// A record over each place of a former one, whose payload looks like free bytes, types or marks.
fn overlaps(g: Geometry, visit: Visit) -> bool {
    let flash = block(g);
    let (at, end) = (first(g), laid(g, first(g), &[8, 0])[1][1]);
    [0xFF, 0x8F, 0x8E, 0x8D, 0xF0, 0x00, 0x41].into_iter().all(|byte| {
        (at..=end).all(|over| {
            TYPES.into_iter().all(|kind| {
                let records = [[TYPES[1], at, 0, 8], [kind, over, 3, 2]];
                every_fuse(case(&flash, &records, vec![byte; 8]), visit)
            })
        })
    })
}

/// A record of every length behind none, one and two others: where it still fits.
fn lengths(g: Geometry, visit: Visit) -> bool {
    let flash = block(g);
    (0..3).all(|before| {
        (0..=60).all(|len| {
            let mut lens = vec![0; before];
            lens.push(len);
            every_fuse(case(&flash, &laid(g, first(g), &lens), data(60)), visit)
        })
    })
}

/// Everything that is refused, together: the first test decides.
fn orders(g: Geometry, visit: Visit) -> bool {
    let right = laid(g, first(g), &[2])[0];
    let far = [right[0], right[1], 2, 1];
    let lists = [vec![], vec![right], vec![far], vec![[0x18F, right[1], 0, 2]], vec![[0x18F, right[1], 2, 1]]];
    let flash = block(g);
    let wrong = [Geometry { granularity: 2, ..g }, Geometry { s: 0, ..g }, Geometry { size: 66, ..g }];
    [g].into_iter().chain(wrong).all(|geometry| {
        [64, 63, 65, 0].into_iter().all(|room| {
            lists.iter().all(|records| {
                [4 * records.len(), 4 * records.len() + 1, 260, 261].into_iter().all(|len| {
                    [(0, None), (0, Some(0)), (1, None), (1, Some(0))].into_iter().all(|(block, fuse)| {
                        let mut case = case(&flash, records, data(2));
                        case.image.resize(room, 0xFF);
                        case.array.resize(len, 0);
                        visit(Case { geometry, fuse, args: vec![block], ..case })
                    })
                })
            })
        })
    })
}
