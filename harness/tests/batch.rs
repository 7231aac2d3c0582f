//! Batches: the rules of write_all, each with a small case on which all sides that can be asked agree; and a batch against
//! the same records written one by one, on each side.

mod bench;

use bench::{benches, Bench};
use harness::{
    case::Case,
    cases::batch::laid,
    compare::judge,
    geometry::Geometry,
    model::{header::TYPES, layout},
    op::Op,
    outcome::Outcome,
};

/// The outcome of a batch on an erased block of 64 bytes, where it is the same on all sides.
fn agreed(block: u32, fuse: &str, records: &str, payload: &str) -> Outcome {
    outcome(&format!("g=0/1/1/64x1 f={fuse} write_all n={block} a={records} b={payload} i=ff*64"))
}

fn outcome(line: &str) -> Outcome {
    let case = Case::parse(line).unwrap();
    let judged = judge(&case);
    assert_eq!(judged.difference(&case), None, "{line}\n{}", judged.show(&case));
    judged.model
}

/// Answer and count of a batch that stores nothing.
fn refused(records: &str, payload: &str) -> (u8, u64) {
    let outcome = agreed(0, "-", records, payload);
    assert!(outcome.image.iter().all(|&b| b == 0xFF), "{records} stores something");
    (outcome.answer, outcome.values[0])
}

#[test]
fn a_range_is_added_up_without_wrapping() {
    for range in ["4294967295,1", "4294967295,2", "4294967295,3", "2147483648,2147483648", "1,4294967295"] {
        assert_eq!(refused(&format!("142,8,{range}"), "4142"), (7, 0), "{range}");
    }
}

#[test]
fn a_range_may_end_where_the_payload_ends() {
    for (range, answer) in [("0,2", 0), ("2,0", 0), ("1,1", 0), ("1,2", 7), ("3,0", 7), ("2,1", 7)] {
        let outcome = agreed(0, "-", &format!("142,8,{range}"), "4142");
        assert_eq!((outcome.answer, outcome.values[0]), (answer, (answer == 0) as u64), "{range}");
    }
}

#[test]
fn a_type_is_told_by_all_of_its_number() {
    for kind in [0x18F, 0x18E, 0xFFFF_FF8F_u32, 0x8D00, 0xFF, 0] {
        assert_eq!(refused(&format!("{kind},8,0,1"), "41"), (4, 0), "{kind:x}");
    }
}

#[test]
fn a_record_is_tested_in_order() {
    assert_eq!(refused("399,8,0,2", "41"), (7, 0), "range before type");
    assert_eq!(refused("399,64,0,1", "41"), (4, 0), "type before place");
    assert_eq!(agreed(0, "0", "399,8,0,1", "41").answer, 4, "type before power");
    assert_eq!(agreed(7, "-", "142,8,0,2", "41").answer, 7, "range before block");
}

#[test]
fn an_empty_list_is_done_on_any_block() {
    for block in [0, 1, u32::MAX] {
        let outcome = agreed(block, "0", "-", "-");
        assert_eq!((outcome.answer, outcome.values), (0, vec![0]));
    }
    assert_eq!(agreed(1, "-", "142,8,0,0", "-").answer, 3);
}

/// So many records of no payload, all at the first place.
fn list(count: usize) -> String {
    vec!["142,8,0,0"; count].join(",")
}

#[test]
fn a_call_takes_64_records() {
    assert_eq!(refused(&list(65), "-"), (7, 0));
    let most = agreed(0, "-", &list(64), "-");
    assert_eq!((most.answer, most.values[0]), (4, 1), "the second stands on the first, which is finished");
    for more in ["142", "142,8", "142,8,0"] {
        assert_eq!(refused(more, "-"), (7, 0), "a part of a record alone");
        assert_eq!(refused(&format!("{},{more}", list(2)), "-"), (7, 0), "a part of a record behind others");
    }
}

#[test]
fn the_count_is_written_when_nothing_is_looked_at() {
    for (g, image, answer) in [("2/1/1", 64, 6), ("0/0/1", 63, 6), ("0/1/1", 63, 7), ("0/1/1", 65, 7)] {
        for records in ["-", "142,8,0,0", "142", &list(65)] {
            let told = outcome(&format!("g={g}/64x1 f=5 write_all n=0 a={records} b=- i=ff*{image}"));
            assert_eq!((told.answer, told.values, told.fuse), (answer, vec![0], Some(5)));
        }
    }
}

fn geometry(granularity: u8) -> Geometry {
    Geometry { granularity, s: 1, c: 1, strict: 0, size: 128, count: 2 }
}

/// What `write_to` leaves of the records one by one: the last answer, and how many were done.
fn one_by_one(b: &mut Bench, block: u32, records: &[[u32; 4]], payload: &[u8]) -> Option<(u8, u64)> {
    let mut done = 0;
    for &[kind, offset, start, len] in records {
        let bytes = &payload[start as usize..(start + len) as usize];
        let answer = b.answer(Op::WriteTo, &[block, offset, kind], &[], bytes)?;
        if answer != 0 {
            return Some((answer, done));
        }
        done += 1;
    }
    Some((0, done))
}

/// A batch ends as its records written one by one, on each side; the answer and the count.
fn same(fuse: Option<u32>, g: Geometry, records: &[[u32; 4]], payload: &[u8]) -> (u8, u64) {
    let mut ends = benches(g).into_iter().filter_map(|mut single| {
        single.fuse = fuse;
        let mut whole = single.clone();
        let end = one_by_one(&mut single, 1, records, payload)?;
        let told = whole.call(Op::WriteAll, &[1], &records.concat(), payload)?;
        assert_eq!((told.answer, told.values[0]), end, "{} {fuse:?} {records:?}", whole.side);
        assert_eq!((whole.image, whole.fuse), (single.image, single.fuse), "{} {fuse:?} {records:?}", whole.side);
        Some(end)
    });
    let first = ends.next().unwrap();
    assert!(ends.all(|end| end == first));
    first
}

#[test]
fn a_refused_third_record_leaves_two_and_what_it_stored() {
    for granularity in [0, 1, 4] {
        let g = geometry(granularity);
        let first = layout::block_header_len(g) as u32;
        let mut records = laid(g, first, &[3, 2, 120]);
        assert_eq!(same(None, g, &records, &[0x41; 125]), (5, 2), "its type is stored, its payload does not fit");
        records[2] = records[0];
        assert_eq!(same(None, g, &records, &[0x41; 125]), (4, 2), "a finished object stands there");
        records[2][1] = 128;
        assert_eq!(same(None, g, &records, &[0x41; 125]), (3, 2), "past the block");
    }
}

#[test]
fn a_cut_batch_is_the_cut_records() {
    for granularity in [0, 1, 4] {
        let g = geometry(granularity);
        let records = laid(g, layout::block_header_len(g) as u32, &[5, 0, 6, 1]);
        let ends: Vec<(u8, u64)> = (0..40).map(|fuse| same(Some(fuse), g, &records, b"a few bytes.")).collect();
        assert_eq!((ends[0], ends[39]), ((8, 0), (0, 4)));
        assert!((1..4).all(|done| ends.contains(&(8, done))), "{ends:?}");
        assert!(ends.is_sorted_by_key(|&(_, done)| done), "{ends:?}");
    }
}

/// The records from the count on, with power again, on each side.
#[test]
fn the_rest_of_a_cut_batch_ends_as_the_uncut_one() {
    for granularity in [0, 1, 4] {
        let g = geometry(granularity);
        let records = laid(g, layout::block_header_len(g) as u32, &[5, 0, 6, 1]);
        let call = |b: &mut Bench, from: usize| b.call(Op::WriteAll, &[1], &records[from..].concat(), b"a few bytes.");
        for empty in benches(g) {
            let mut whole = empty.clone();
            if call(&mut whole, 0).is_none() {
                continue;
            }
            for fuse in 0..40 {
                let mut cut = empty.clone();
                cut.fuse = Some(fuse);
                let done = call(&mut cut, 0).unwrap().values[0];
                cut.fuse = None;
                let rest = call(&mut cut, done as usize).unwrap();
                assert_eq!((rest.answer, rest.values[0]), (0, 4 - done), "{} {fuse}", cut.side);
                assert_eq!(cut.image, whole.image, "{} {fuse}", cut.side);
            }
        }
    }
}

#[test]
fn a_record_is_looked_at_in_its_turn() {
    let outcome = agreed(0, "-", "142,8,0,1,142,12,0,2,399,16,0,0", "41");
    assert_eq!((outcome.answer, outcome.values[0]), (7, 1));
    assert_eq!(outcome.image[8..13], [0x8E, 0xF0, 1, 0x41, 0xFF]);
    let cut = agreed(0, "2", "142,8,0,1,399,12,9,9", "41");
    assert_eq!((cut.answer, cut.values[0], cut.fuse), (8, 0, Some(0)));
}

#[test]
fn a_full_call_is_done() {
    let g = Geometry { granularity: 0, s: 1, c: 1, strict: 0, size: 256, count: 4 };
    let records = laid(g, 8, &[0; 64]);
    assert_eq!(same(None, g, &records, &[]), (0, 64));
    assert_eq!(same(Some(64 * 3 - 1), g, &records, &[]), (8, 63));
    assert_eq!(records[63][0], TYPES[0]);
}

/// The library takes null for a list or a payload without anything in it.
#[cfg(feature = "batch")]
#[test]
fn nothing_may_be_null() {
    let (geometry, mut image, mut done) = ([0, 1, 1, 0, 64, 1], [0xFF; 64], 9);
    let records = [0x8E, 8, 0, 0];
    let mut call = |records: *const u32, len| unsafe {
        let (image, units) = (image.as_mut_ptr(), std::ptr::null_mut());
        harness::rattle::interface::stumpchoir_write_all(
            geometry.as_ptr(),
            image,
            64,
            false,
            units,
            0,
            records,
            len,
            std::ptr::null(),
            0,
            &mut done,
        )
    };
    assert_eq!(call(std::ptr::null(), 0), 0);
    assert_eq!(call(records.as_ptr(), 4), 0);
    assert_eq!((done, image[8..11].to_vec()), (1, vec![0x8E, 0xF0, 0]));
}
