//! The rules of the strict mark by name, each with bytes on which all sides that can be asked agree; then over random cases,
//! that the mark changes nothing where nothing is met, and that no unit is programmed twice.

mod bench;

use bench::{benches, named::agreed, Bench};
use harness::{
    case::Case,
    cases::{units, Source},
    compare::{judge, plant},
    geometry::Geometry,
    model::{self, layout},
    op::{Layer, Op, LAYERS},
    oracle,
    outcome::Outcome,
    rattle,
    shrink::shrink,
    table::Tally,
};

/// Headers of a Data block: under Word(1) of 8 bytes, under Word(4) of 12.
const D1: &str = "ba0145aa00000000";
const D4: &str = "ba0145ff00000000aaffffff";

/// A case of one block of 64 bytes under the mark, and its outcome, which is the same on all sides.
fn on(word: u8, fuse: &str, call: &str, image: &str) -> (Case, Outcome) {
    let case = Case::parse(&format!("g={word}/1/1/64x1/strict f={fuse} {call} i={image}")).unwrap();
    let outcome = agreed(&case);
    (case, outcome)
}

fn answer(word: u8, fuse: &str, call: &str, image: &str) -> u8 {
    on(word, fuse, call, image).1.answer
}

/// The call meets a programmed unit at its first store, at every fuse: nothing is stored, and all that is lent is as it was.
fn met(word: u8, call: &str, image: &str) {
    for fuse in ["-", "0", "1", "9"] {
        let (case, outcome) = on(word, fuse, call, image);
        assert_eq!(outcome.answer, 10, "{}", case.line());
        assert!((outcome.image, outcome.fuse, outcome.array) == (case.image, case.fuse, case.array), "{call}");
    }
}

/// The bytes that are new, as `offset:bytes`.
fn stored(case: &Case, outcome: &Outcome) -> String {
    harness::outcome::show_changes(&case.image, &outcome.image)
}

#[test]
fn range_and_alignment_come_before_a_programmed_unit_and_that_before_power() {
    for word in [1, 4] {
        for place in ["0,64", "1,0", "0,4294967292"] {
            assert_eq!(answer(word, "0", &format!("write n={place} a=- b=41"), "00*64"), 3, "{place}");
        }
        met(word, "write n=0,8 a=- b=41", "00*64");
        assert_eq!(answer(word, "0", "write n=0,8 a=- b=41", "ff*64"), 8);
        assert_eq!(answer(word, "0", "write n=0,8 a=- b=-", "00*64"), 0, "no unit");
    }
    assert_eq!(answer(4, "0", "write n=0,2 a=- b=41", "00*64"), 3);
    assert_eq!(answer(4, "0", "write n=0,62 a=- b=-", "00*64"), 3);
}

#[test]
fn a_store_that_meets_a_programmed_unit_stores_none_of_its_units() {
    met(1, "write n=0,8 a=- b=414243", "ff*10.7f.ff*53");
    met(4, "write n=0,8 a=- b=4142434445464748494a4b4c", "ff*19.7f.ff*44");
    met(4, "write n=0,8 a=- b=41", "ff*11.fe.ff*52");
    met(4, "write n=0,8 a=- b=ffffff41", "ff*8.fe.ff*55");
    assert_eq!(answer(1, "-", "write n=0,8 a=- b=414243", "ff*7.00.ff*3.00.ff*52"), 0, "its neighbours do not matter");
    assert_eq!(answer(4, "-", "write n=0,8 a=- b=41", "ff*7.00.ff*4.00.ff*51"), 0);
}

#[test]
fn ff_is_never_refused_and_takes_its_unit() {
    for (word, data, units) in [(1, "ffff", 2), (4, "ffff", 1), (4, "ff*8", 2), (4, "ff*9", 3)] {
        let (case, outcome) = on(word, "3", &format!("write n=0,8 a=- b={data}"), "00*64");
        assert_eq!((outcome.answer, outcome.fuse), (0, Some(3 - units)), "{}", case.line());
        assert_eq!(outcome.image, case.image);
        assert_eq!(answer(word, "0", &format!("write n=0,8 a=- b={data}"), "00*64"), 8);
    }
    let (case, outcome) = on(4, "2", "write n=0,8 a=- b=ff*4.41", "ff*8.00*4.ff*52");
    assert_eq!((outcome.answer, stored(&case, &outcome)), (0, "12:41".to_string()), "FF where it is programmed");
}

/// A writer of an object at 12 with 41 42 43 held, under Word(4).
const HELD: &str = "a=142,1,255,0,12,0,3,65,66,67,0,0";

#[test]
fn a_held_tail_and_what_follows_are_two_stores() {
    let call = format!("writer_write n=- {HELD} b=4445464748");
    let image = format!("{D4}.8e.ff*19.7f.ff*31");
    for (fuse, answer, left, bytes) in [
        ("-", 10, None, "28:41424344"),
        ("0", 8, Some(0), "same"),
        ("1", 10, Some(0), "28:41424344"),
        ("5", 10, Some(4), "28:41424344"),
    ] {
        let (case, outcome) = on(4, fuse, &call, &image);
        assert_eq!((outcome.answer, outcome.fuse), (answer, left), "fuse {fuse}");
        assert_eq!(stored(&case, &outcome), bytes, "fuse {fuse}");
        let mut writer = case.array.clone();
        writer[11] = (answer == 8) as u32;
        assert_eq!(outcome.array, writer, "only 8 spends a writer");
    }
    met(4, &call, &format!("{D4}.8e.ff*18.7f.ff*32"));
    let unmarked = Case::parse(&format!("g=4/1/1/64x1 f=- {call} i={image}")).unwrap();
    assert_eq!(agreed(&unmarked).answer, 0);
}

#[test]
fn a_writer_that_met_a_programmed_unit_can_go_on() {
    for word in [1, 4] {
        for mut b in benches(Geometry { granularity: word, s: 1, c: 1, strict: 1, size: 64, count: 1 }) {
            let Some(made) = b.call(Op::WriterAllocate, &[0, 16, 0x8E], &[], &[]) else { continue };
            let writer: Vec<u32> = made.values.iter().map(|&n| n as u32).collect();
            b.image[16 + layout::header_len(b.geometry) as usize] = 0x7F;
            let image = b.image.clone();
            assert_eq!(b.number(Op::WriterWrite, &[], &writer, b"street"), 10, "{}", b.side);
            assert_eq!(b.image, image, "{}", b.side);
            let blank = b.ask(Op::WriterWrite, &[], &writer, &[0xFF; 4]).unwrap();
            let more = b.ask(Op::WriterWrite, &[], &blank.array, b"street").unwrap();
            assert_eq!(b.number(Op::WriterFinalize, &[], &more.array, &[]), 0, "{}", b.side);
            assert_eq!(b.state(0, 16), Some(2));
        }
    }
}

#[test]
fn finish_and_delete_store_tail_size_and_mark_one_after_the_other() {
    let head = format!("{D4}.8e.ff*11");
    for (op, mark) in [("writer_finalize", 16), ("writer_delete", 20)] {
        let call = format!("{op} n=- {HELD} b=-");
        for (image, bytes) in [
            (format!("{head}.ff*4.ff.7f.ff*34"), "same"),
            (format!("{head}.ff.7f.ff*38"), "28:414243"),
            (format!("{D4}.8e.ff*{}.7f.ff*{}", mark - 12, 62 - mark), "24:03,28:414243"),
        ] {
            let (case, outcome) = on(4, "-", &call, &image);
            assert_eq!((outcome.answer, stored(&case, &outcome)), (10, bytes.to_string()), "{}", case.line());
            assert_eq!(outcome.array, case.array);
            let first = units(&case);
            assert_eq!(answer(4, &first.to_string(), &call, &image), 10, "no power is left, and none is needed");
            assert!(first == 0 || answer(4, &(first - 1).to_string(), &call, &image) == 8);
        }
    }
}

#[test]
fn marks_and_sizes_meet_the_other_bytes_of_their_words() {
    for (call, at) in [
        ("update_state n=2 a=142,1,3,0,12 b=-", 16),
        ("update_state n=3 a=142,1,3,0,12 b=-", 20),
        ("update_state n=3 a=142,2,3,0,12 b=-", 20),
        ("info_finalize n=- a=142,1,3,0,12 b=-", 16),
        ("info_delete n=- a=142,2,3,0,12 b=-", 20),
        ("set_payload_size n=3 a=142,1,255,0,12 b=-", 24),
    ] {
        for i in 0..4 {
            met(4, call, &format!("{D4}.8e.ff*{}.7f.ff*{}", at + i - 13, 63 - at - i));
        }
        assert_eq!(answer(4, "1", call, &format!("{D4}.8e.ff*{}.7f.ff*{}", at + 4 - 13, 59 - at)), 0, "the next word");
    }
    met(1, "set_payload_size n=3 a=142,1,255,0,8 b=-", &format!("{D1}.8e.ff*2.7f.ff*52"));
    met(1, "info_delete n=- a=142,2,3,0,8 b=-", &format!("{D1}.8e00.00.03.ff*52"));
    let unset = "set_payload_size n=255 a=142,1,255,0,8 b=-";
    assert_eq!(answer(1, "1", unset, &format!("{D1}.8e.ff*2.7f.ff*52")), 0, "FF");
}

#[test]
fn an_allocation_over_an_unfinished_object_meets_its_type() {
    for (word, head, at) in [(1, D1, 8), (4, D4, 12)] {
        let rest = 64 - at - 1;
        for ty in [143, 142, 141] {
            met(word, &format!("writer_allocate n=0,{at},{ty} a=- b=-"), &format!("{head}.{ty:02x}.ff*{rest}"));
            let call = format!("write_to n=0,{at},{ty} a=- b=41");
            met(word, &call, &format!("{head}.{ty:02x}.ff*{rest}"));
        }
        let other = format!("writer_allocate n=0,{at},142 a=- b=-");
        assert_eq!(answer(word, "-", &other, &format!("{head}.8d.ff*{rest}")), 4, "another type is refused before");
        assert_eq!(answer(word, "0", &other, &format!("{head}.ff*{}", rest + 1)), 8);
    }
    for i in 1..4 {
        met(4, "writer_allocate n=0,12,142 a=- b=-", &format!("{D4}.ff*{i}.7f.ff*{}", 51 - i));
    }
}

#[test]
fn a_type_goes_on_an_untyped_block_only() {
    for (word, head) in [(1, ["ba014555", "ba0145aa", "ba0145ff"]), (4, ["55ff*3", "aaff*3", "ff*4"])] {
        for (typed, ty) in head.into_iter().zip([2, 3, 4]) {
            let image = if word == 1 {
                format!("{typed}.00*4.ff*56")
            } else {
                format!("ba0145ff00000000.{}.ff*52", typed.replace("ff*3", ".ff*3"))
            };
            for to in [2, 3] {
                let call = format!("set_block_type n=0,{to} a=- b=-");
                if ty == 4 {
                    assert_eq!(answer(word, "1", &call, &image), 0);
                } else {
                    met(word, &call, &image);
                }
            }
            assert_eq!(answer(word, "1", "set_block_type n=0,4 a=- b=-", &image), 0, "Undefined is FF");
        }
    }
}

#[test]
fn a_bare_header_goes_on_erased_bytes_only() {
    met(1, "block_header_write n=0,3,0 a=- b=-", &format!("{D1}.ff*56"));
    met(1, "block_header_write n=0,3,0 a=- b=-", "ff*7.7f.ff*56");
    met(4, "block_header_write n=0,3,0 a=- b=-", "ff*11.7f.ff*52");
    assert_eq!(answer(1, "9", "block_header_write n=0,3,0 a=- b=-", "ff*8.00*56"), 0);
    assert_eq!(answer(4, "9", "block_header_write n=0,4,0 a=- b=-", "ff*11.7f.ff*52"), 0, "an Undefined type is FF");
    assert_eq!(answer(4, "9", "block_header_write n=0,0,4294967295 a=- b=-", "00*64"), 0, "and so is all of this one");
}

#[test]
fn erases_and_formats_meet_nothing() {
    for word in [1, 4] {
        for image in ["00*64", "ff*64", "ff*63.00", "ba0145ff.ff*4.ff*56", "ff*4.00.ff*59", &format!("{D1}.00*56")] {
            for call in ["erase n=0 a=- b=-", "format_block n=0 a=- b=-", "format_storage n=- a=- b=-"] {
                let (case, outcome) = on(word, "-", call, image);
                assert_eq!(outcome.answer, 0, "{}", case.line());
                for fuse in 0..=units(&case) {
                    assert!([0, 8].contains(&answer(word, &fuse.to_string(), call, image)), "{call} at {fuse}");
                }
            }
        }
    }
}

#[test]
fn the_collectors_first_pass_meets_sizes_and_delete_marks() {
    let size = format!("{D4}.8e.ff*12.7f.ff*38");
    let mark = format!("{D4}.8e.ff*10.7f.ff*40");
    for op in ["delete_invalid_objects", "run"] {
        let call = format!("{op} n=- a=3,0,33,0 b=-");
        met(4, &call, &size);
        let (case, outcome) = on(4, "-", &call, &mark);
        assert_eq!((outcome.answer, stored(&case, &outcome)), (10, "24:05".to_string()), "the size, and then 10");
        assert_eq!(outcome.array, case.array, "the record is as it was");
        assert_eq!((answer(4, "0", &call, &mark), answer(4, "1", &call, &mark)), (8, 10));
    }
    for op in ["erase_invalid_finished_blocks", "erase_full_finished_blocks"] {
        for image in [&size, &mark] {
            assert_eq!(answer(4, "9", &format!("{op} n=- a=3,0,28,0 b=-"), image), 0);
        }
    }
    assert_eq!(answer(1, "9", "delete_invalid_objects n=- a=3,0,12,0 b=-", &format!("{D1}.8e.ff*55")), 0);
}

#[test]
fn a_batch_stops_with_its_count() {
    let image = format!("{D1}.ff*9.7f.ff*46");
    let call = "write_all n=0 a=142,8,0,2,142,14,0,1,142,30,0,1 b=4142";
    let (case, outcome) = on(1, "-", call, &image);
    assert_eq!((outcome.answer, &outcome.values[..]), (10, &[1][..]));
    assert_eq!(stored(&case, &outcome), "8:8e00,11:0241428e,18:41", "the first whole, and the second up to its size");
    assert_eq!((answer(1, "6", call, &image), answer(1, "7", call, &image)), (8, 10), "five units, and two");
    assert_eq!(on(1, "6", call, &image).1.values, [1]);
}

#[test]
fn a_copy_stores_16_bytes_a_turn() {
    for (word, at, met) in [(1, 8, 12 + 16), (4, 12, 28 + 16)] {
        let g = Geometry { granularity: word, s: 1, c: 1, strict: 1, size: 64, count: 2 };
        let mut flash = model::Flash::erased(g);
        flash.write_to(0, at, 0x8E, &[0x41; 20]).unwrap();
        flash.image[64 + met] = 0x7F;
        let array = flash.read_header(0, at).unwrap().numbers().to_vec();
        for op in [Op::CopyObject, Op::MoveObject] {
            let case = Case { array: array.clone(), args: vec![1, at], image: flash.image.clone(), ..Case::of(op, g) };
            let outcome = agreed(&case);
            let turn = format!("{}:8e,{}:41*16", 64 + at, 64 + met - 16);
            assert_eq!((outcome.answer, stored(&case, &outcome)), (10, turn));
            assert_eq!(units(&case), if word == 1 { 17 } else { 5 });
        }
    }
}

/// Under Word(4): finished, of the byte 41.
const OBJECT: [u8; 17] = [0x8E, 255, 255, 255, 0, 255, 255, 255, 255, 255, 255, 255, 1, 255, 255, 255, 0x41];

#[test]
fn a_move_that_cannot_store_its_delete_mark_leaves_both() {
    let header = [142, 2, 1, 0, 12];
    for mut b in bench::sides(Geometry { granularity: 4, s: 1, c: 1, strict: 1, size: 64, count: 2 }) {
        for other in 21..24 {
            let mut before = vec![0xFF; 128];
            before[12..29].copy_from_slice(&OBJECT);
            before[other] = 0x7F;
            let mut both = before.clone();
            both[76..93].copy_from_slice(&OBJECT);
            for (fuse, answer) in [(Some(0), 8), (Some(3), 8), (Some(4), 10), (Some(9), 10), (None, 10)] {
                (b.image, b.fuse) = (before.clone(), fuse);
                assert_eq!(b.number(Op::MoveObject, &[1, 12], &header, &[]), answer, "{}", b.side);
                assert_eq!(b.image == both, answer == 10, "{}: the copy, and nothing else", b.side);
                assert_eq!(b.fuse, fuse.map(|fuse| fuse.saturating_sub(4)));
            }
            assert_eq!([b.state(0, 12), b.state(1, 12)], [Some(2); 2], "{}", b.side);
            assert_eq!(b.number(Op::MoveObject, &[1, 12], &header, &[]), 4, "{}: again", b.side);
            assert_eq!(b.number(Op::InfoDelete, &[], &header, &[]), 10, "{}: for good", b.side);
            assert_eq!(b.image, both, "{}", b.side);
        }
    }
}

#[test]
fn a_cut_move_again_meets_the_type_of_its_copy() {
    for (word, at, units) in [(1, 8, 5), (4, 12, 5)] {
        for mut b in bench::sides(Geometry { granularity: word, s: 1, c: 1, strict: 1, size: 64, count: 2 }) {
            assert_eq!(b.number(Op::WriteTo, &[0, at, 0x8E], &[], b"A"), 0);
            let (before, header) = (b.image.clone(), [142, 2, 1, 0, at]);
            for (fuse, again) in [(0, 0), (1, 10), (units - 2, 10), (units - 1, 4)] {
                (b.image, b.fuse) = (before.clone(), Some(fuse));
                assert_eq!(b.number(Op::MoveObject, &[1, at], &header, &[]), 8, "{}", b.side);
                let left = b.image.clone();
                b.fuse = None;
                assert_eq!(b.number(Op::MoveObject, &[1, at], &header, &[]), again, "{} after {fuse}", b.side);
                assert!(again == 0 || b.image == left, "{}", b.side);
            }
        }
    }
}

#[test]
fn a_sweep_is_refused_behind_all_listings() {
    for (word, head, at) in [(1, "ba014555.00*4", 8), (4, "ba0145ff00000000.55.ff*3", 12)] {
        let rest = 64 - at;
        for call in ["sweep n=- a=- b=-", &format!("sweep_with n=- a={} b=-", vec!["7"; 64].join(","))] {
            let said = |fuse, image: &str| {
                let (case, outcome) = on(word, fuse, call, image);
                assert!((outcome.image == case.image) && outcome.fuse == case.fuse && outcome.values == [0, 0]);
                outcome.answer
            };
            for fuse in ["-", "0"] {
                assert_eq!(said(fuse, &format!("{head}.ff*{rest}")), 14, "nothing would be left over");
                assert_eq!(said(fuse, &format!("{head}.8c.ff*{}", rest - 1)), 2, "a listing");
                assert_eq!(said(fuse, "ff*64"), 14, "no block to look at");
                assert_eq!(said(fuse, "ff*63"), 7);
            }
        }
    }
}

#[test]
fn a_mark_above_1_and_a_mark_with_bit_are_6() {
    for g in ["0/1/1/64x1/strict", "1/1/1/64x1/strict=2", "4/1/1/64x1/strict=255", "4/1/1/64x1/strict=257"] {
        for room in [63, 64] {
            for call in ["check n=- a=- b=-", "write n=9,9 a=- b=41", "sweep n=- a=- b=-", "run n=- a=- b=-"] {
                let case = Case::parse(&format!("g={g} f=- {call} i=00*{room}")).unwrap();
                assert_eq!(agreed(&case).answer, 6, "{}", case.line());
            }
            let align = Case::parse(&format!("g={g} f=- align n=5 a=- b=- i=-")).unwrap();
            assert_eq!(agreed(&align).answer, 6);
        }
    }
    for word in [1, 4] {
        assert_eq!(
            (answer(word, "-", "check n=- a=- b=-", "00*64"), answer(word, "-", "check n=- a=- b=-", "00*63")),
            (0, 7)
        );
    }
}

/// Formats, types, writes, finishes, deletes and collects, always behind the last object.
fn life(b: &mut Bench) -> Result<(), u8> {
    b.ask(Op::FormatStorage, &[], &[], &[])?;
    for (block, ty) in [(0, 3), (1, 2)] {
        b.ask(Op::SetBlockType, &[block, ty], &[], &[])?;
        let mut at = layout::block_header_len(b.geometry);
        for len in [0, 1, 4, 7, 17] {
            let total = b.ask(Op::WriteTo, &[block, at as u32, 0x8E], &[], &[0x41; 17][..len])?.values[0];
            let header: Vec<u32> =
                b.ask(Op::HeaderRead, &[block, at as u32], &[], &[])?.values.iter().map(|&n| n as u32).collect();
            b.ask(Op::InfoDelete, &[], &header, &[])?;
            at += layout::align(b.geometry, total);
        }
    }
    let mut table = Vec::new();
    for block in 0..2 {
        table.extend(b.ask(Op::ScanBlock, &[block], &[], &[])?.values.iter().map(|&n| n as u32));
    }
    b.ask(Op::Run, &[], &table, &[]).map(|_| ())
}

#[test]
fn a_whole_life_meets_nothing() {
    for word in [1, 4] {
        for mut b in bench::sides(Geometry { granularity: word, s: 1, c: 1, strict: 1, size: 256, count: 2 }) {
            for _ in 0..3 {
                assert_eq!(life(&mut b), Ok(()), "{}", b.side);
            }
        }
    }
}

#[test]
fn the_mark_changes_nothing_where_nothing_is_met() {
    for layer in LAYERS.into_iter().filter(|&layer| layer != Layer::Sweep) {
        for case in Source::strict(layer, 3).take(5_000).filter(|case| case.geometry.good()) {
            let outcome = model::run(&case).outcome;
            let plain = Case { geometry: Geometry { strict: 0, ..case.geometry }, ..case.clone() };
            if outcome.answer != 10 {
                assert!(outcome == model::run(&plain).outcome, "{}", case.line());
            }
        }
    }
}

#[test]
fn no_unit_is_programmed_twice() {
    let sides: [fn(&Case) -> Option<Outcome>; 3] =
        [|case| Some(model::run(case).outcome), |case| oracle::run(case).ok(), rattle::run];
    for layer in LAYERS {
        // a collection also erases, and so may a unit of its blocks change that was programmed
        let judged = |case: &Case| case.geometry.good() && case.op.can_meet_programmed() && case.op != Op::Run;
        for case in Source::strict(layer, 4).take(5_000).filter(judged) {
            let width = layout::width(case.geometry) as usize;
            for after in sides.into_iter().filter_map(|side| side(&case)).map(|outcome| outcome.image) {
                let mut changed = case.image.chunks(width).zip(after.chunks(width)).filter(|(old, new)| old != new);
                assert!(changed.all(|(old, _)| old.iter().all(|&b| b == 0xFF)), "{}", case.line());
            }
        }
    }
}

#[test]
fn every_function_that_can_meets_10_and_is_done_and_cut_too() {
    let mut tally = Tally::default();
    for layer in LAYERS {
        for case in Source::strict(layer, 11).take(6_000) {
            let judged = judge(&case);
            tally.count(&case, &judged);
            assert_eq!(judged.difference(&case), None, "{}\n{}", case.line(), judged.show(&case));
        }
    }
    assert_eq!(tally.strict(&LAYERS), Ok(()));
    for &op in harness::op::ALL {
        assert!(tally.of(op)[6] > 5, "{} hardly ever meets 6", op.name());
    }
    assert!(Tally::default().strict(&[Layer::Batch]).is_err(), "a run that never met it fails");
    assert_eq!(Tally::default().strict(&[Layer::Storage, Layer::Sweep]), Ok(()));
}

#[test]
fn a_function_that_cannot_meet_10_and_does_fails_the_run() {
    let case = Case::parse("g=4/1/1/64x1/strict f=- erase n=0 a=- b=- i=00*64").unwrap();
    let mut judged = judge(&case);
    let mut tally = Tally::default();
    for op in [Op::Write, Op::Erase] {
        for answer in [0, 8, 10] {
            judged.model.answer = answer;
            tally.count(&Case { op, ..case.clone() }, &judged);
        }
    }
    assert_eq!(tally.strict(&[Layer::Medium]), Err("erase met 10 NotErased".to_string()));
}

fn bad(case: &Case) -> bool {
    let mut judged = judge(case);
    plant(case, &mut judged);
    judged.difference(case).is_some()
}

#[test]
fn a_planted_fault_is_made_small() {
    let line = format!(
        "g=4/3/2/256x4/strict f=9 writer_write n=- a=142,1,16777215,0,12,4,3,65,66,67,0,0 b=44*30 i={D4}.8e.ff*23.7f.00.ff*986"
    );
    let case = Case::parse(&line).unwrap();
    assert!(bad(&case), "{}", judge(&case).show(&case));
    let small = shrink(&case, &bad);
    assert!(bad(&small));
    assert_eq!((small.geometry.size, small.geometry.count, small.geometry.strict), (64, 1, 1), "{}", small.line());
    assert_eq!(small.bytes.len(), 5, "the end of the word, and the next one: {}", small.line());
}

#[test]
fn a_fault_in_the_model_is_found() {
    let line = format!("g=4/1/1/64x1/strict f=5 writer_write n=- {HELD} b=4445464748 i={D4}.8e.ff*19.7f.ff*31");
    let case = Case::parse(&line).unwrap();
    let faults: [fn(&mut Outcome); 4] = [
        |model| model.answer = 8,
        |model| model.fuse = Some(5),
        |model| model.image[28..32].fill(0xFF),
        |model| model.image[32] = 0x45,
    ];
    for fault in faults {
        let mut judged = judge(&case);
        assert_eq!(judged.difference(&case), None);
        fault(&mut judged.model);
        assert_eq!(judged.difference(&case).is_some(), oracle::present() || rattle::present(Layer::Objects));
    }
}
